// Takes all the memory that it can get; for a test of the guard's limits.
const first = 7;
var list = [];
var text = "xxxxxxxxxxxxxxxx";
for (var i = 0; i < 30; i++) {
  text = text + text;
  list.push(text.split(""));
}
log(first);
