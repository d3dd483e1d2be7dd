// Opens the gate so many minutes after high water, across midnight.
const day = 1440;
const lead = 35, hold = 190;
var open = false;

function minutes(hour, minute) {
  var total = hour * 60 + minute;
  if (total >= day) total -= day;
  return total;
}

function between(now, from, to) {
  var wraps = to < from;
  return wraps ? now >= from || now < to : now >= from && now < to;
}

function gate(clock, tide) {
  var start = minutes(tide.high.hour, tide.high.minute) + lead;
  if (start >= day) { start -= day; }
  var end = (start + hold) % day;
  var now = minutes(clock.hour, clock.minute);
  open = between(now, start, end);
  if (typeof log === "function") log("gate", open);
  return open ? 1 : void 0;
}
