// The scores of a jury, put in order. The lowest and the highest one don't count.
var scores = [], score = read("score"), i = lbl(0, "jury"), sum = lbl(0, "jury");
upgs(scores, "jury");
upge(scores, "length", "jury");
while (score !== undefined) {
  i = scores.length;
  while (i > 0 && scores[i - 1] > +score) {
    scores[i] = scores[i - 1];
    i--;
  }
  scores[i] = +score;
  score = read("score");
}
for (i = lbl(1, "jury"); i < scores.length - 1; i++) sum += scores[i];
print("result", "From " + scores[0] + " to " + scores[scores.length - 1]);
print("result", sum + " by " + (scores.length - 2) + " of " + scores.length);
print("hall", "The jury has judged " + read("title"));
