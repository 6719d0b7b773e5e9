var ballots = [read("ballot"), "no"], votes = [];
ballots.forEach(function (ballot) { votes.push(ballot === "yes" ? 1 : 0); });
print("count", "Votes: " + votes.join());
