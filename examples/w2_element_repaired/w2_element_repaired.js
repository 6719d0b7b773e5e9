var tally = [lbl(0, "voter"), lbl(0, "voter")];
var answer = read("ballot") === "yes" ? 1 : 0;
tally[answer]++;
print("count", tally[1] + " yes, " + tally[0] + " no");
