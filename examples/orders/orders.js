// What a customer has ordered: the lines of a bill, and their sum. A thing without a price costs NaN, the only number that isn't equal to itself.
function bill(name) {
  var lines = [], sum = 0, line = read(name), order, cost;
  while (line !== undefined) {
    order = line.split(" ");
    cost = prices[order[0]] * order[1];
    if (cost === cost) sum += cost;
    lines.push(order[1] + " " + order[0] + ": " + (cost === cost ? cost : "not sold"));
    line = read(name);
  }
  return { lines: lines, sum: sum };
}

var prices = {}, line = read("price"), pair;
while (line !== undefined) {
  pair = line.split(" ");
  prices[pair[0]] = +pair[1];
  line = read("price");
}

var names = ["ada", "ben"], sum = 0, made, i, n;
for (i = 0; i < names.length; i++) {
  made = lbl(bill, names[i])(names[i]);
  for (n = lbl(0, names[i]); n < made.lines.length; n++) print("to_" + names[i], made.lines[n]);
  print("to_" + names[i], "In all " + made.sum);
  sum += made.sum;
}
print("shop", sum + " from " + names.length + " customers");
print("door", "Things with a price: " + Object.keys(prices).length);
