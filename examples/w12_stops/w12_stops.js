if (read("ballot") === "yes") print("door", "Somebody said yes");
