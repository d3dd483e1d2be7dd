// What is promised of the host, from nothing to much; each level adds to the one before. docs/SAME_MEANING.md has the promises as a site manager can check them.
'use strict';

// calm: only the script's own code sets the top's variables, and no function of the top is called before the script has ended well, but for those handed over; unread: and only that reads them.
// plain: what the script operates on is plain where it comes from the host, the host's names and their methods stay what they are, and it asks no function for its name.
const CALMLY = 'calls its functions only after the script\'s end, but for those handed to it';

const LEVELS = [
  { name: 'anything', assumes: {}, words: 'any host' },
  { name: 'reads', assumes: { calm: true }, words: `a host that sets none of the script's variables and ${CALMLY}` },
  { name: 'apart', assumes: { calm: true, unread: true }, words: `a host that neither sets nor reads the script's variables and ${CALMLY}` },
  { name: 'plain', assumes: { calm: true, unread: true, plain: true }, words: `a host that gives plain values, keeps its functions and objects under their names, neither sets nor reads the script's variables and ${CALMLY}` },
];

const DEFAULT_LEVEL = 'anything';
const levelOf = (name) => LEVELS.find((level) => level.name === name) || null;

module.exports = { LEVELS, DEFAULT_LEVEL, levelOf };
