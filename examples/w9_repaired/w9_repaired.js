var tally = lbl(0, "voter");
print("door", "Voting");
if (read("ballot") === "yes") tally = 1;
print("door", "Voted");
