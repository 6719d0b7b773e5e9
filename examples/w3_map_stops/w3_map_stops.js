var ballots = [read("ballot"), "no"];
var votes = ballots.map(function (ballot) { return ballot === "yes" ? 1 : 0; });
print("count", "Votes: " + votes.join());
