var yes = {}, no = {};
var chosen = read("ballot") === "yes" ? yes : no;
upgs(chosen, "voter");
chosen.said = true;
print("count", "said" in yes ? "Somebody said yes" : "Nobody said yes");
