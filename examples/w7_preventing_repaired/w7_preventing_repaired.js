var form = { answer: "none" };
upgs(form, "voter");
if (read("ballot") === "yes") Object.preventExtensions(form);
print("count", Object.isExtensible(form) ? "Open" : "Closed");
