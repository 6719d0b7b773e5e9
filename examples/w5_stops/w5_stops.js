var missing = { yes: true, no: true };
upge(missing, "yes", "voter");
upge(missing, "no", "voter");
delete missing[read("ballot")];
print("count", "yes" in missing ? "Nobody said yes" : "Somebody said yes");
