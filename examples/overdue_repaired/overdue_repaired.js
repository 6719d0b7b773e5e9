// Is any member's fee overdue? The variable that keeps the answer says from the start what the answer depends on.
var overdue = lbl(false, "member");
var fee = read("fee");
while (fee !== undefined) {
  if (+fee > 0) overdue = true;
  fee = read("fee");
}
print("board", overdue ? "Some fees are overdue" : "All fees are paid");
