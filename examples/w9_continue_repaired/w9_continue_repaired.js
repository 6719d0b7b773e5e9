var ballot = read("ballot"), others = lbl("", "voter"), answer;
for (answer in { yes: 1, no: 2, maybe: 3 }) {
  "flow continue voter";
  if (answer === ballot) continue;
  others += " " + answer;
}
print("count", "Nobody said" + others);
