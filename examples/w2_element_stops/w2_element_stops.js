var tally = [0, 0];
var answer = read("ballot") === "yes" ? 1 : 0;
tally[answer]++;
print("count", tally[1] + " yes, " + tally[0] + " no");
