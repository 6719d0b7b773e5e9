var parts = lbl("no, yes, yes", "voter").split(read("ballot"));
print("count", parts.length - 1 + " said so before");
