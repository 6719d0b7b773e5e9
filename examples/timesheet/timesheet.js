// The rates are one line, with the name and the rate of each place.
var rates = {};
read("rates").split(";").forEach(function (rate) {
  var cut = rate.indexOf("=");
  rates[rate.slice(0, cut)] = parseInt(rate.slice(cut + 1), 10);
});

// A line of work has three fields: who, where, how many hours. Blanks around a field don't count.
function fields(line) {
  return line.split(";").map(function (field) { return field.trim(); });
}

var paid = {}, unknown = "", work = [], line = read("work"), name = lbl("", "office");
upgs(paid, "office");
upge(this, "unknown", "office");
upge(this, "work", "office");
while (line !== undefined) {
  work = fields(line);
  if (!paid.hasOwnProperty(work[0])) paid[work[0]] = 0;
  if (rates.hasOwnProperty(work[1])) paid[work[0]] += rates[work[1]] * work[2];
  else unknown += "; " + work.join(" ");
  line = read("work");
}
for (name in paid) print("pay", name + " gets " + paid[name]);
print("pay", "No rate for: " + unknown.slice(2));
print("board", "Rates for " + Object.keys(rates).join(" and "));
