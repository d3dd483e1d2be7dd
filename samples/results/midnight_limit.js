// Keeps yesterday's closing minute as the limit when the day changes. The limit is taken before `today` is written.
const day = 1440;
const rest = 45;
let nights = 0;

function minuteOf(clock) {
  return clock.hour * 60 + clock.minute;
}

function shorter(from, to) {
  var length = to - from;
  if (length < 0) {
    length += 1440;
  }
  return length;
}

function closing(clock, before) {
  let today = before;
  const limit = today;
  today = minuteOf(clock);
  if (today < limit) {
    today += 1440;
    nights += 1;
  }
  if (shorter(limit, today) > 45) {
    lower("gate");
    return today - limit;
  }
  hold("gate", nights);
  return 0;
}

function evening(clock, plan) {
  var kept = [];
  for (const minute of plan.closings) {
    const open = closing(clock, minute);
    if (open > 0) {
      kept.push(open);
    }
  }
  if (kept.length === 0) {
    report("nothing closed", plan.name);
  }
  return kept;
}
