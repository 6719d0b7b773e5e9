function welcome() { print("door", "Welcome"); }
function thanks() { print("door", "Thank you"); }
var chosen = read("ballot") === "yes" ? welcome : thanks;
chosen();
