var parts = "no, yes, yes".split(read("ballot"));
print("count", parts.length - 1 + " said so before");
