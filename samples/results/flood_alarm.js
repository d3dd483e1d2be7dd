// Reads the gauge, tries again where it fails, and calls the right people.
const tries = 3;
const warn = 310;
const flood = 355;
const reasons = { gauge: "the gauge does not answer", rising: "the river rises fast" };
var lastLevel = -1;
var silent = 0;

function readGauge() {
  for (var attempt = 1; attempt <= 3; attempt++) {
    try {
      return gauge.read(attempt);
    } catch (error) {
      report("gauge", attempt, error.message);
    }
  }
  return -1;
}

function stageOf(level) {
  if (level >= 355) {
    return "flood";
  }
  return level >= 310 ? "warn" : "calm";
}

function act(stage, level) {
  switch (stage) {
  case "flood":
    gate.openFully();
    phone.call("miller", level);
    phone.call("fire brigade", level);
    break;
  case "warn":
    gate.open(level - 310);
    phone.call("miller", level);
    break;
  default:
    gate.rest();
  }
}

function everyTenMinutes() {
  var level = readGauge();
  if (level < 0) {
    silent = silent + 1;
    if (silent > 3) {
      phone.call("miller", reasons.gauge);
    }
    return "silent";
  }
  silent = 0;
  var rise = lastLevel < 0 ? 0 : level - lastLevel;
  lastLevel = level;
  if (rise > 20) {
    report(reasons.rising, rise);
  }
  var stage = stageOf(level);
  act(stage, level);
  return stage;
}
