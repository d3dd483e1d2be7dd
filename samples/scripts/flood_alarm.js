// Reads the gauge, tries again where it fails, and calls the right people.
const tries = 3;
const warn = 310;
const flood = 355;
const reasons = { gauge: "the gauge does not answer", rising: "the river rises fast" };
var lastLevel = -1;
var silent = 0;

function readGauge() {
  for (var attempt = 1; attempt <= tries; attempt++) {
    try {
      return gauge.read(attempt);
    } catch (error) {
      report("gauge", attempt, error.message);
    }
  }
  return -1;
}

function stageOf(level) {
  if (level >= flood) {
    return "flood";
  }
  return level >= warn ? "warn" : "calm";
}

function act(stage, level) {
  switch (stage) {
  case "flood":
    gate.openFully();
    phone.call("miller", level);
    phone.call("fire brigade", level);
    break;
  case "warn":
    gate.open(level - warn);
    phone.call("miller", level);
    break;
  default:
    gate.rest();
  }
}

function everyTenMinutes() {
  var level = readGauge();
  if (level < 0) {
    silent = silent + 1;
    if (silent > tries) {
      phone.call("miller", reasons.gauge);
    }
    return "silent";
  }
  silent = 0;
  var rise = lastLevel < 0 ? 0 : level - lastLevel;
  lastLevel = level;
  if (rise > 20) {
    report(reasons.rising, rise);
  }
  var stage = stageOf(level);
  act(stage, level);
  return stage;
}
