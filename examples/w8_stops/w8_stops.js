var tally = { yes: 0, no: 0 };
if (read("ballot") === "yes") {
  upge(tally, "yes", "voter");
  tally.yes++;
}
print("count", tally.yes);
