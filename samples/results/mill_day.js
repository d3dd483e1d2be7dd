// A whole day of a tidal mill: fills the pond on the flood, mills on the ebb, keeps the road dry, across midnight.
const dayMinutes = 1440;
const fillLead = 25;
const millLead = 95;
const millHold = 260;
const roadLevel = 410;
const pondFull = 380;
const pondEmpty = 150;
const openWidth = 100;
const quiet = { from: 1320, to: 360 };
var state = "rest";
var width = 0;
var turned = 0;
var warnings = [];

function wrap(minute) {
  var inDay = minute % 1440;
  if (inDay < 0) {
    inDay += 1440;
  }
  return inDay;
}

function minuteOf(clock) {
  return wrap(clock.hour * 60 + clock.minute);
}

function within(minute, from, to) {
  if (to < from) {
    return minute >= from || minute < to;
  }
  return minute >= from && minute < to;
}

function isQuiet(minute) {
  return within(minute, quiet.from, quiet.to);
}

function warn(text, value) {
  var known = false;
  for (const warning of warnings) {
    if (warning === text) {
      known = true;
      break;
    }
  }
  if (!known) {
    warnings.push(text);
    report(text, value);
  }
}

function setGate(target) {
  var step = target > width ? 10 : -10;
  var steps = 0;
  while (width !== target && steps < 12) {
    var next = width + step;
    if (step > 0 && next > target || step < 0 && next < target) {
      next = target;
    }
    width = next;
    gate.width = next;
    steps++;
  }
  return steps;
}

function plan(tide) {
  var flood = minuteOf(tide.low);
  var ebb = minuteOf(tide.high);
  return {
    fillFrom: wrap(flood + 25),
    fillTo: ebb,
    millFrom: wrap(ebb + 95),
    millTo: wrap(ebb + 95 + 260)
  };
}

function choose(minute, today, levels) {
  if (levels.sea > 410) {
    return "shut";
  }
  if (within(minute, today.fillFrom, today.fillTo) && levels.pond < 380) {
    return levels.sea > levels.pond ? "fill" : "rest";
  }
  if (within(minute, today.millFrom, today.millTo) && levels.pond > 150) {
    return isQuiet(minute) ? "drain" : "mill";
  }
  return "rest";
}

function enter(next, levels) {
  switch (next) {
  case "fill":
    setGate(100);
    wheel.brake(true);
    break;
  case "mill":
    setGate(0);
    wheel.brake(false);
    turned += 1;
    break;
  case "drain":
    setGate(100 / 4);
    wheel.brake(true);
    break;
  case "shut":
    setGate(0);
    wheel.brake(true);
    warn("road", levels.sea);
    break;
  default:
    setGate(0);
  }
  state = next;
}

function everyMinute(clock, tide, levels) {
  var minute = minuteOf(clock);
  var today = plan(tide);
  var next = choose(minute, today, levels);
  if (next !== state) {
    try {
      enter(next, levels);
    } catch (error) {
      state = "failed";
      warn("gate", error.message);
    } finally {
      report("state", state, minute);
    }
  }
  if (minute === 0) {
    report("turned", turned);
    turned = 0;
    warnings = [];
  }
  return state;
}
