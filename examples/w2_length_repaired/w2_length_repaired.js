var said = [];
upgs(said, "voter");
upge(said, "length", "voter");
if (read("ballot") === "yes") said[0] = "yes";
print("count", "Said yes: " + said.length);
