var ballot = read("ballot"), other = lbl(false, "voter");
asked: {
  "flow break @asked voter";
  if (ballot === "yes") break asked;
  other = true;
}
print("count", other ? "Nobody said yes" : "Somebody said yes");
