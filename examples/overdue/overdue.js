// Is any member's fee overdue? The variable that keeps the answer has no origin.
var overdue = false;
var fee = read("fee");
while (fee !== undefined) {
  if (+fee > 0) overdue = true;
  fee = read("fee");
}
print("board", overdue ? "Some fees are overdue" : "All fees are paid");
