// A host and three plug-ins, each of which is given what it may see.

// ---- the plug-ins, as they came

// It uses closures.
function sign(hours) {
  var lines = 0;
  function line(text) {
    lines++;
    print("door", lines + ". " + text);
  }
  line("Open " + hours);
  line("Welcome");
}

// It uses a constructor.
function Totals() {
  this.count = 0;
  this.sum = 0;
}
Totals.prototype.add = function (sale) {
  this.count++;
  this.sum += sale;
};
function totals(sales) {
  var all = new Totals(), n;
  for (n in sales) all.add(+sales[n]);
  return all.count + " sales, " + all.sum + " in all";
}

// It throws where it finds what it doesn't like.
function check(sales) {
  var n;
  for (n in sales) {
    if (+sales[n] < 0) throw "sale " + n + " is below nothing";
  }
  return "all is well";
}

// ---- the host

var sales = {}, count = lbl(0, "owner"), line = read("sale");
upgs(sales, "owner");
while (line !== undefined) {
  count++;
  sales[count] = line;
  line = read("sale");
}

// What a plug-in gives or throws is for the owner.
function report(name, plugin) {
  var said = lbl("", "owner");
  try {
    "flow exc owner";
    said = plugin(sales);
  } catch (reason) {
    said = "failed, " + reason;
  }
  print("report", name + ": " + said);
}

var hours = read("hours");
sign(hours);
report("totals", lbl(totals, "owner"));
report("check", lbl(check, "owner"));
print("door", "Reported");
