// Whose account is overdrawn? Each account says from the start that its owner decides which properties it has.
var accounts = { ada: {}, ben: {} };
var owner, account, line;
for (owner in accounts) {
  account = accounts[owner];
  upgs(account, owner);
  account.sum = lbl(0, owner);
  line = read("from_" + owner);
  while (line !== undefined) {
    account.sum += +line;
    line = read("from_" + owner);
  }
  if (account.sum < 0) account.overdrawn = true;
  print("to_" + owner, "overdrawn" in account ? "Please pay" : "Thank you");
}
