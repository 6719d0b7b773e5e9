var yes = lbl(0, "voter");
if (read("ballot") === "yes") yes = yes + 1;
print("count", yes);
