function said(ballot) {
  if (ballot === "yes") return "Somebody said yes";
  return "Nobody said yes";
}
print("count", said(read("ballot")));
