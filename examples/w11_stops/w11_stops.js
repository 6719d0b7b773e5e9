if (read("ballot") === "yes") print("count", "Yes. " + read("note"));
