var waiting = ["Ada", "Ben"];
if (read("ballot") === "yes") waiting.length = 1;
print("count", "Still waiting: " + waiting.length);
