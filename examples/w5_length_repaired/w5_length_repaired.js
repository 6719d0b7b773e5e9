var waiting = ["Ada", "Ben"];
upge(waiting, 0, "voter");
upge(waiting, 1, "voter");
upgs(waiting, "voter");
waiting.length = read("ballot") === "yes" ? 1 : 0;
print("count", "Still waiting: " + waiting.length);
