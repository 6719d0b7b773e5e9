var yes = 0;
upge(this, "yes", "voter");
if (read("ballot") === "yes") yes = yes + 1;
print("count", yes);
