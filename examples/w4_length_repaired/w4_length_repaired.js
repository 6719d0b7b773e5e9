var waiting = ["Ada", "Ben"];
upge(waiting, 1, "voter");
upgs(waiting, "voter");
upge(waiting, "length", "voter");
if (read("ballot") === "yes") waiting.length = 1;
print("count", "Still waiting: " + waiting.length);
