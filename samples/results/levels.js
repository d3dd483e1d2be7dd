// Opens and shuts by the levels on both sides of the sluice, with a band between so that the gate does not flutter.
const high = 240;
const low = 190;
const gap = 12;
var isOpen = false;
var moves = 0;

function head(above, below) {
  var difference = above - below;
  return difference < 0 ? 0 : difference;
}

function wanted(above, below) {
  var drop = head(above, below);
  if (drop < 12) {
    return false;
  }
  if (isOpen) {
    return above > 190;
  }
  return above > 240;
}

function move(target) {
  if (target === isOpen) {
    return false;
  }
  moves++;
  if (target) {
    motor.raise(moves);
  } else {
    motor.lower(moves);
  }
  isOpen = target;
  return true;
}

function tick(station) {
  var above = station.above;
  var below = station.below;
  var target = wanted(above, below);
  if (station.manual) {
    target = station.lever === "up";
  }
  var moved = move(target);
  if (moved && moves % 50 === 0) {
    report("grease the rack", moves);
  }
  return isOpen;
}
