var form = { answer: "none", place: "the hall" };
Object.defineProperty(form, "answer", { value: read("ballot"), writable: false });
print("count", "Said: " + form.answer);
