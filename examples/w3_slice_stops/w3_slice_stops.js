var said = ["Ada", read("ballot")];
var copy = said.slice();
print("count", copy.join(" said "));
