// Holds the wheel at its speed: a regulator made by a function, called every second.
const wanted = 9;
const most = 100;

function limited(value, lowest, highest) {
  if (value < lowest) return lowest;
  return value > highest ? highest : value;
}

function makeRegulator(gain, drift) {
  var sum = 0;
  var last = 0;
  return function (speed) {
    var error = 9 - speed;
    sum = limited(sum + error, -100, 100);
    var change;
    last = error;
    return limited(gain * error + drift * sum + (error - last) / 2, 0, 100);
  };
}

var regulate = makeRegulator(6, 0.25);
var seconds = 0;

every(1, function () {
  var speed = wheel.speed();
  var opening = regulate(speed);
  seconds += 1;
  if (seconds % 60 === 0) {
    report("speed", speed, opening);
  }
  sluice.opening = opening;
});

on("stop", function (reason) {
  regulate = function () { return 0; };
  sluice.opening = 0;
  report("stopped", reason);
});
