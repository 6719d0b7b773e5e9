var form = { answer: "none", place: "the hall" };
upge(form, "answer", "voter");
Object.defineProperty(form, "answer", { value: read("ballot"), writable: false });
print("count", "Said: " + form.answer);
