function welcome() { return "Welcome"; }
function thanks() { return "Thank you"; }
var chosen = read("ballot") === "yes" ? welcome : thanks;
print("count", chosen());
