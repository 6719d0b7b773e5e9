var missing = { yes: true, no: true };
upge(missing, "yes", "voter");
upgs(missing, "voter");
if (read("ballot") === "yes") delete missing.yes;
print("count", "yes" in missing ? "Nobody said yes" : "Somebody said yes");
