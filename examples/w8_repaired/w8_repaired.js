var tally = { yes: 0, no: 0 };
upge(tally, "yes", "voter");
if (read("ballot") === "yes") tally.yes++;
print("count", tally.yes);
