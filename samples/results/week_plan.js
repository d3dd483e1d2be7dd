// Milling hours by the day of the week, with a pause at noon and an early end before a holiday.
const minutesOfDay = 1440;
const pause = { from: 720, to: 765 };
const notice = 20;
var announced = false;

function hoursOf(weekday, holidayTomorrow) {
  var from = 480;
  var to = 1020;
  switch (weekday) {
  case 0:
    return null;
  case 6:
    from = 540;
    to = 780;
    break;
  case 5:
    to = 960;
    break;
  }
  if (holidayTomorrow) {
    to = to - 120;
  }
  return { from: from, to: to };
}

function inside(minute, span) {
  return minute >= span.from && minute < span.to;
}

function untilEnd(minute, span) {
  var left = span.to - minute;
  return left < 0 ? left + 1440 : left;
}

function shouldTurn(clock, calendar) {
  var minute = clock.hour * 60 + clock.minute;
  var hours = hoursOf(calendar.weekday, calendar.holidayTomorrow);
  if (hours === null || !inside(minute, hours)) {
    announced = false;
    return false;
  }
  if (inside(minute, pause)) {
    return false;
  }
  var left = untilEnd(minute, hours);
  if (left <= 20 && !announced) {
    announced = true;
    bell.ring(left);
  }
  return true;
}

function everyMinute(clock, calendar) {
  var turn = shouldTurn(clock, calendar);
  wheel.brake = !turn;
  return turn;
}
