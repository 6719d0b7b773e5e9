var seats = [];
Object.defineProperty(seats, "length", { value: read("ballot") === "yes" ? 20 : 10, writable: false });
print("count", "Seats: " + seats.length);
