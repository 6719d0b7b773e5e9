var ballots = ["no", read("ballot")];
try {
  ballots.forEach(function (ballot) {
    if (ballot !== "no") throw new RangeError("not a no: " + ballot);
  });
} catch (fault) {
  print("count", fault.message);
}
print("door", "Counted");
