var form = { answer: "none" };
if (read("ballot") === "yes") Object.preventExtensions(form);
print("count", Object.isExtensible(form) ? "Open" : "Closed");
