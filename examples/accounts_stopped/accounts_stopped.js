// Whose account is overdrawn? The mark is added to the account in a branch that the owner's entries choose.
var accounts = { ada: {}, ben: {} };
var owner, account, line;
for (owner in accounts) {
  account = accounts[owner];
  account.sum = lbl(0, owner);
  line = read("from_" + owner);
  while (line !== undefined) {
    account.sum += +line;
    line = read("from_" + owner);
  }
  if (account.sum < 0) account.overdrawn = true;
  print("to_" + owner, "overdrawn" in account ? "Please pay" : "Thank you");
}
