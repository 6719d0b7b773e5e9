var form = { answer: read("ballot"), place: "the hall" };
Object.freeze(form);
print("count", "Said: " + form.answer);
