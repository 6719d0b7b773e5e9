var said = {};
if (read("ballot") === "yes") said.yes = true;
print("count", "yes" in said ? "Somebody said yes" : "Nobody said yes");
