var form = { answer: "none", place: "the hall" };
form.answer = read("ballot");
Object.defineProperty(form, "answer", { writable: false });
print("count", "Said: " + form.answer);
