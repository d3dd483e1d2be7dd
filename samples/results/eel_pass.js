// Leaves a slit open for eels in the nights of their season, and counts the minutes.
const seasons = [
  { name: "spring", from: 91, to: 151, slit: 8 },
  { name: "autumn", from: 258, to: 334, slit: 14 }
];
const dusk = 1260;
const dawn = 330;
var minutesOpen = 0;
var lastSeason = "none";

function isNight(minute) {
  return minute >= 1260 || minute < 330;
}

function seasonOf(dayOfYear) {
  for (var i = 0; i < seasons.length; i++) {
    var season = seasons[i];
    if (dayOfYear >= season.from && dayOfYear <= season.to) {
      return season;
    }
  }
  return null;
}

function slitFor(dayOfYear, minute) {
  var season = seasonOf(dayOfYear);
  if (season === null) {
    return 0;
  }
  if (season.name !== lastSeason) {
    lastSeason = season.name;
    minutesOpen = 0;
    report("season", season.name);
  }
  return isNight(minute) ? season.slit : 0;
}

function everyMinute(calendar, clock) {
  var minute;
  var width = slitFor(calendar.day, clock.hour * 60 + clock.minute);
  if (width > 0) {
    minutesOpen += 1;
  }
  slit.set(width);
  return { width: width, open: minutesOpen };
}
