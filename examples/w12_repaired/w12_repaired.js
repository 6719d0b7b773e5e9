if (read("ballot") === "yes") print("count", "Somebody said yes");
