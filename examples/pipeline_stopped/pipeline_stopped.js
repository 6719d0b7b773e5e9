// Plug-ins register a function each. The host gives each cost to all of them, one after the other.
var plugins = [];
function register(name, run) {
  plugins.push({ name: name, run: run });
}

register("gift", function (cost) { return cost > 100 ? cost - 10 : cost; });
register("fee", function (cost) { return cost + this.fee; }.bind({ fee: 3 }));
register("check", function (cost) {
  if (cost !== cost) throw new RangeError("no number");
  return cost;
});

// What the plug-ins make of a cost.
function made(cost) {
  return plugins.reduce(function (cost, plugin) { return plugin.run(cost); }, cost);
}

var paid = [], faults = [];
upgs(paid, "shop");
upge(paid, "length", "shop");
upgs(faults, "shop");
upge(faults, "length", "shop");
var line = read("cost");
while (line !== undefined) {
  try {
    paid.push(made(+line));
  } catch (fault) {
    faults.push(line + " (" + fault.name + ", " + fault.message + ")");
  }
  line = read("cost");
}
print("owner", "Paid: " + paid.join(" + "));
print("owner", "Refused: " + faults.join(", "));
print("board", "At work: " + plugins.map(function (plugin) { return plugin.name; }).join(", "));
