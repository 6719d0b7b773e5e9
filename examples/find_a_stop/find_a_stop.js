// Two owners share a van. Each is told what they drove, and the clerk whether somebody drove too far. The lines on "log" are there to find a stop.
var owners = { ada: 0, ben: 0 };
var owner, days, sum, line, far = false;
print("log", "here 1");
for (owner in owners) {
  days = lbl(0, owner);
  sum = lbl(0, owner);
  line = read("from_" + owner);
  while (line !== undefined) {
    days++;
    sum += +line;
    line = read("from_" + owner);
  }
  print("log", "here 2 " + owner);
  if (sum > 50) far = true;
  print("log", "here 3 " + owner);
  print("to_" + owner, days + " days, " + sum + " in all");
}
print("log", "here 4");
print("clerk", far ? "Somebody drove too far" : "Nobody drove too far");
print("door", "Counted");
