var tally = { yes: 0, no: 0 };
tally[read("ballot")]++;
print("count", tally.yes + " yes, " + tally.no + " no");
