var rooms = { no: { name: "the hall" } }, room = lbl("any room", "voter");
try {
  "flow exc voter";
  room = rooms[read("ballot")].name;
} catch (error) {
  print("count", error.name);
}
print("count", "Go to " + room);
