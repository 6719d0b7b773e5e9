print("door", "Open " + read("hours"));
print("door", "Now serving " + read("name"));
print("door", "Closed");
