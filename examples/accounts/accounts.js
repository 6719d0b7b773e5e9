// The accounts of two owners. What goes into one depends on its owner, and each owner is told of their own alone.
var accounts = { ada: {}, ben: {} };
var owner, account, line, names = "";
for (owner in accounts) {
  account = accounts[owner];
  account.entries = lbl(0, owner);
  account.sum = lbl(0, owner);
  account.largest = lbl(0, owner);
  line = read("from_" + owner);
  while (line !== undefined) {
    account.entries++;
    account.sum += +line;
    if (+line > account.largest) account.largest = +line;
    line = read("from_" + owner);
  }
}
for (owner in accounts) {
  account = accounts[owner];
  names += " " + owner;
  print("to_" + owner, account.entries + " entries, " + account.sum + " in all, the largest " + account.largest);
}
print("clerk", accounts.ada.sum + accounts.ben.sum + " in both");
print("door", "Accounts of" + names);
