// The Friday mill: opens when the minutes since the last opening and those left over from before midnight
// come to more than five hours. `o` is declared twice, once for each half of the night.
const day = 1440;
const threshold = 300;
const step = 15;
var openings = 0;

function sinceMidnight(clock) {
  return clock.hour * 60 + clock.minute;
}

function carried(clock, last) {
  var now = sinceMidnight(clock);
  if (now < last) {
    return 1440 - last;
  }
  return 0;
}

function due(t, c) {
  var o = t;
  var o = t + c;
  if (o > 300) {
    openings = openings + 1;
    raise(openings);
    return true;
  }
  return false;
}

function night(clock, last) {
  var rest = carried(clock, last);
  var passed = rest > 0 ? sinceMidnight(clock) : sinceMidnight(clock) - last;
  for (var quarter = 0; quarter < 4; quarter++) {
    if (due(passed, rest)) {
      return quarter * 15;
    }
    passed += 15;
  }
  report("closed", passed);
  return -1;
}
