var said = [];
if (read("ballot") === "yes") said[0] = "yes";
print("count", 0 in said ? "Somebody said yes" : "Nobody said yes");
