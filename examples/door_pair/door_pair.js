var sum = lbl(0, "shop"), line = read("sale");
while (line !== undefined) {
  sum += +line;
  line = read("sale");
}
print("owner", sum + " in all");
print("door", "Open " + read("hours"));
