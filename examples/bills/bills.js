// A patient's visits, and what the insurer pays of each: the cost up to a limit.
function share(cost, limit) {
  "flow ret patient,insurer";
  if (cost < 0) throw "a cost can't be " + cost;
  if (cost > limit) return limit;
  return cost;
}
var limit = +read("limit"), bill = { visits: lbl(0, "patient"), paid: lbl(0, "patient", "insurer") };
upgs(bill, "patient", "insurer");
var visit = read("visit"), cost = lbl(0, "patient");
while (visit !== undefined) {
  cost = +read("cost");
  bill.visits++;
  try {
    "flow exc patient,insurer";
    bill.paid += share(cost, limit);
    if (cost > limit) bill.over = visit;
  } catch (reason) {
    bill.fault = visit + ", " + reason;
  }
  visit = read("visit");
}
print("to_patient", bill.visits + " visits");
print("bill", "The insurer pays " + bill.paid);
print("bill", "Over the limit: " + bill.over);
print("bill", "Not paid: " + bill.fault);
print("board", "Bills of " + read("clinic") + " are ready");
