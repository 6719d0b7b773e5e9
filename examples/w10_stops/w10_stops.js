function said(ballot) {
  if (ballot === "yes") {
    "flow ret voter";
    return "Somebody said yes";
  }
  return "Nobody said yes";
}
print("count", said(read("ballot")));
