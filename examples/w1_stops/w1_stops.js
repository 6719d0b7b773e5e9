var yes = 0;
if (read("ballot") === "yes") yes = yes + 1;
print("count", yes);
