var form = { answer: read("ballot"), place: "the hall" };
Object.defineProperty(form, "answer", { writable: false, configurable: false });
Object.defineProperty(form, "place", { writable: false, configurable: false });
Object.preventExtensions(form);
print("count", "Said: " + form.answer);
