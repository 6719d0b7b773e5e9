function said(ballot) {
  try {
    "flow exc voter";
    if (ballot === "yes") return "Somebody said yes";
  } finally {
    print("count", "Counted");
  }
  return "Nobody said yes";
}
print("count", said(read("ballot")));
