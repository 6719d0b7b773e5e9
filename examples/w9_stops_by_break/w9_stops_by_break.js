var ballot = read("ballot"), other = lbl(false, "voter");
asked: {
  if (ballot === "yes") break asked;
  other = true;
}
print("count", other ? "Nobody said yes" : "Somebody said yes");
