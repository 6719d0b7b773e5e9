var note = read("note");
if (read("ballot") === "yes") print("count", "Yes. " + note);
