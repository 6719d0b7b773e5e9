var form = { answer: read("ballot"), place: "the hall" };
upge(form, "answer", "voter");
upge(form, "place", "voter");
upgs(form, "voter");
Object.freeze(form);
print("count", "Said: " + form.answer);
