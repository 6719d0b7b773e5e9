var tally = { yes: lbl(0, "voter"), no: lbl(0, "voter") };
tally[read("ballot")]++;
print("count", tally.yes + " yes, " + tally.no + " no");
