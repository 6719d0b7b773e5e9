print("letter", "Dear " + read("name") + ",");
print("all", "Till " + read("till") + " served " + read("name") + ".");
print("door", "Open " + read("hours"));
