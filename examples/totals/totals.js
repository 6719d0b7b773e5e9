// The shop's takings: how many sales there were, their sum and the largest.
var count = lbl(0, "shop"), sum = lbl(0, "shop"), largest = lbl(0, "shop");
var line = read("sale");
while (line !== undefined) {
  count++;
  sum += +line;
  if (+line > largest) largest = +line;
  line = read("sale");
}
print("owner", count + " sales, " + sum + " in all");
print("owner", "largest: " + largest);
print("door", "Open " + read("hours"));
