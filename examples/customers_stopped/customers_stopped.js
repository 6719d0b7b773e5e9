// What each customer spent, the greatest sum first. Everybody may know who buys, and the owner alone for how much.
function sum(costs) {
  return costs.reduce(function (made, cost) { return made + cost; }, 0);
}

// The places of the sums in another order, which depends on the sums. No built-in sorts.
function ranked(sums) {
  var places = [], i, at;
  for (i = 0; i < sums.length; i++) {
    at = places.length;
    while (at > 0 && sums[places[at - 1]] < sums[i]) at--;
    places.splice(at, 0, i);
  }
  return places;
}

var groups = {}, name = read("buyer");
while (name !== undefined) {
  if (!groups.hasOwnProperty(name)) groups[name] = [];
  groups[name].push(+read("cost"));
  name = read("buyer");
}

var names = Object.keys(groups);
var sums = names.map(function (name) { return sum(groups[name]); });
lbl(ranked, "shop")(sums).forEach(function (i) {
  print("owner", names[i] + " spent " + sums[i] + " in " + groups[names[i]].length);
});
print("board", names.length + " customers: " + names.join(", "));
