var yes = {}, no = {};
upgs(yes, "voter");
upgs(no, "voter");
var chosen = read("ballot") === "yes" ? yes : no;
chosen.said = true;
print("count", "said" in yes ? "Somebody said yes" : "Nobody said yes");
