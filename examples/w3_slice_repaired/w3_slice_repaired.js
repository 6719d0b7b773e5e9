var said = ["Ada", read("ballot")], copy = [], i;
for (i = 0; i < said.length; i++) copy.push(said[i]);
print("count", copy.join(" said "));
print("door", copy[0] + " said something");
