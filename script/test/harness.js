// Counts what passed and what failed, and tells the failures.
'use strict';

const counts = { passed: 0, failed: 0 };

// Runs `act` once for each item; an item passes unless `act` throws.
function each(name, items, act) {
  let failed = 0;
  for (const item of items) {
    try {
      act(item);
      counts.passed += 1;
    } catch (error) {
      failed += 1;
      counts.failed += 1;
      if (failed <= 40) console.log(`${name}: ${(error.stack || String(error)).slice(0, 400)}`);
    }
  }
  console.log(`${name}: ${items.length - failed} passed, ${failed} failed`);
}

module.exports = { counts, each };
