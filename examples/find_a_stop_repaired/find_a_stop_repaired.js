// Two owners share a van. Each is told what they drove, and the clerk whether somebody drove too far.
var owners = { ada: 0, ben: 0 };
var owner, days, sum, line, far = lbl(false, "ada", "ben");
for (owner in owners) {
  days = lbl(0, owner);
  sum = lbl(0, owner);
  line = read("from_" + owner);
  while (line !== undefined) {
    days++;
    sum += +line;
    line = read("from_" + owner);
  }
  if (sum > 50) far = true;
  print("to_" + owner, days + " days, " + sum + " in all");
}
print("clerk", far ? "Somebody drove too far" : "Nobody drove too far");
print("door", "Counted");
