var seats = [];
seats.length = read("ballot") === "yes" ? 20 : 10;
Object.defineProperty(seats, "length", { writable: false });
print("count", "Seats: " + seats.length);
