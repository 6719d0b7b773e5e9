var rooms = { no: { name: "the hall" } };
print("count", "Go to " + rooms[read("ballot")].name);
