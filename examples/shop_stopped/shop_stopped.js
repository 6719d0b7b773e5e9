var stock = {};
read("prices").split(";").forEach(function (row) {
  var cut = row.indexOf("=");
  stock[row.slice(0, cut)] = parseInt(row.slice(cut + 1), 10);
});
function Account(owner) {
  this.owner = owner;
  this.total = lbl(0, owner);
  this.lines = lbl(0, owner);
}
Account.prototype.take = function (line) {
  var cut = line.indexOf(" "), item = line.slice(0, cut);
  var count = parseInt(line.slice(cut + 1), 10);
  if (!(item in stock)) throw new Error("no " + item);
  this.total += stock[item] * count;
  this.lines++;
};
function serve(account, source) {
  var line = lbl("", account.owner);
  while ((line = read(source)) !== undefined) {
    account.take(line);
  }
  return account;
}
var a = serve(new Account("alice"), "orders_a");
var b = serve(new Account("bob"), "orders_b");
print("to_alice", a.lines + " lines, " + a.total);
print("to_bob", b.lines + " lines, " + b.total);
print("audit", "sum " + (a.total + b.total));
print("public", "served " + Object.keys(stock).join(" and "));
