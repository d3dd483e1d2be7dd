// Opens the gate by today's tide and the one before. The new controllers hand over both as one object.
const lead = 35;
const longest = 200;
let late = 0;

// From when to when the gate is open round a high tide; later, and longer, where the water has fallen since the last one.
function opening(high, rise = 0) {
  let from = high - lead;
  let to = high + lead + rise;
  if (rise < 0) {
    [from, to] = [from + lead, from + longest];
  }
  return [from, to];
}

function gate({today, before}) {
  var last = before;
  const rise = today.level - last.level;
  const [from, to] = opening(today.minute, rise);
  if (to - from > longest) {
    report("too long", from, to);
    return from + longest;
  }
  raise("gate", from);
  return to;
}

function week(tides) {
  let closed = 0;
  for (const {today, before = today, note: {text = "none"} = {}} of tides) {
    const until = gate({today, before});
    if (until > closed) {
      closed = until;
    } else {
      late += 1;
      report(text, late);
    }
  }
  return closed;
}
