// Opens the gate so many minutes after high water, across midnight.
const day = 1440;
const lead = 35, hold = 190;
var open = false;

function minutes(hour, minute) {
  var total = hour * 60 + minute;
  if (total >= 1440) total -= 1440;
  return total;
}

function between(now, from, to) {
  var wraps;
  return to < from ? now >= from || now < to : now >= from && now < to;
}

function gate(clock, tide) {
  var start = minutes(tide.high.hour, tide.high.minute) + 35;
  if (start >= 1440) { start -= 1440; }
  var end;
  var now = minutes(clock.hour, clock.minute);
  open = between(now, start, ( start + 190 ) % 1440);
  if (typeof log === "function") log("gate", open);
  return open ? 1 : void 0;
}
