var said = ["Ada", read("ballot")];
var copy = lbl(said, "voter").slice();
print("count", copy.join(" said "));
