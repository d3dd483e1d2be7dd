// Opens the gate by today's tide and the one before. The new controllers hand over both as one object.
const lead = 35;
const longest = 200;
let late = 0;

// From when to when the gate is open round a high tide; later, and longer, where the water has fallen since the last one.
function opening(high, rise = 0) {
  let from = high - 35;
  let to = high + 35 + rise;
  if (rise < 0) {
    [from, to] = [from + 35, from + 200];
  }
  return [from, to];
}

function gate({today, before}) {
  var last;
  const rise = today.level - before.level;
  const [from, to] = opening(today.minute, rise);
  if (to - from > 200) {
    report("too long", from, to);
    return from + 200;
  }
  raise("gate", from);
  return to;
}

function week(tides) {
  let closed = 0;
  for (const {today, before = today, note: {text = "none"} = {}} of tides) {
    const until = gate({today, before});
    if (until > closed) {
      closed = until;
    } else {
      late += 1;
      report(text, late);
    }
  }
  return closed;
}
