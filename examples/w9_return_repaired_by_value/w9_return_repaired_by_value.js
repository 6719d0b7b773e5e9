function said(ballot) {
  return ballot === "yes" ? "Somebody said yes" : "Nobody said yes";
}
print("count", said(read("ballot")));
