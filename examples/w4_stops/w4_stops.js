var missing = { yes: true, no: true };
if (read("ballot") === "yes") delete missing.yes;
print("count", "yes" in missing ? "Nobody said yes" : "Somebody said yes");
