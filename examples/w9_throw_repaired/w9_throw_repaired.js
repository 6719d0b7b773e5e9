try {
  "flow exc voter";
  if (read("ballot") === "yes") throw "yes";
} catch (answer) {
  print("count", "Somebody said " + answer);
}
print("door", "Voted");
