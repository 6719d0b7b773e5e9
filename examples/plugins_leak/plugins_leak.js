// A host and three plug-ins. The last one is for the door, and is given the sales besides.

// ---- the plug-ins, as they came

// It uses closures.
function sign(hours) {
  var lines = 0;
  function line(text) {
    lines++;
    print("door", lines + ". " + text);
  }
  line("Open " + hours);
  line("Welcome");
}

// It uses a constructor.
function Totals() {
  this.count = 0;
  this.sum = 0;
}
Totals.prototype.add = function (sale) {
  this.count++;
  this.sum += sale;
};
function totals(sales) {
  var all = new Totals(), n;
  for (n in sales) all.add(+sales[n]);
  return all.count + " sales, " + all.sum + " in all";
}

// It knows of the labels. On the door it wants to tell whether a sale was large, by what it throws.
function beacon(hours, sales) {
  var n = lbl("", "owner");
  try {
    for (n in sales) {
      if (+sales[n] > 25) throw "large";
    }
    print("door", "Open " + hours + ", small sales");
  } catch (size) {
    print("door", "Open " + hours + ", " + size + " sales");
  }
}

// ---- the host

var sales = {}, count = lbl(0, "owner"), line = read("sale");
upgs(sales, "owner");
while (line !== undefined) {
  count++;
  sales[count] = line;
  line = read("sale");
}

// What a plug-in gives or throws is for the owner.
function report(name, plugin) {
  var said = lbl("", "owner");
  try {
    "flow exc owner";
    said = plugin(sales);
  } catch (reason) {
    said = "failed, " + reason;
  }
  print("report", name + ": " + said);
}

var hours = read("hours");
sign(hours);
report("totals", lbl(totals, "owner"));
beacon(hours, sales);
print("door", "Reported");
