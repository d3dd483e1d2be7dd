// The tests of script/inline. What needs the port is passed over where there is none. The last line counts.
'use strict';

const { ownCache } = require('./files');
const { counts } = require('./harness');
const { testInBrowser } = require('./browser');
const { testContexts, testErrors, testPrinting, testRoundTrips, testTreeOfSample } = require('./without_port');
const { testOutputs, testPlaces } = require('./outputs');
const { testLimitsMet, testSteps } = require('./limits_met');
const { testKindTables, testKindsCommand } = require('./kinds');
const { testOwnText } = require('./own_text');
const { testPages } = require('./pages');
const { testRound } = require('./round');
const { testStrangeNames } = require('./strange_names');
const { testExplain } = require('./explain');
const { testStreams } = require('./streams');
const { testWritten } = require('./written');
const { testHunt, testKeeping, testRules, testTime, testUnknownKinds, testVerdicts } = require('./same_meaning');
const { testCommand, testGuard, testGuardReaches, testRefusals, testResults, testSamples } = require('./with_port');

ownCache();
testTreeOfSample();
testRoundTrips();
testPrinting();
testContexts();
testErrors();
testPlaces();
testKindTables();
testRules();
testUnknownKinds();
testSteps();
if (process.env.NEGBOSUN_PORT) {
  testRefusals();
  testLimitsMet();
  testResults();
  testSamples();
  testVerdicts();
  testKeeping();
  testTime();
  testHunt();
  testGuard();
  testGuardReaches();
  testCommand();
  testKindsCommand();
  testOwnText();
  testOutputs();
  testStreams();
  testRound();
  testStrangeNames();
  testWritten();
  testExplain();
  testPages();
  testInBrowser();
} else {
  console.log('refusals, limits, results, samples, verdicts, guard, command, own text, outputs, streams and pages: skipped, no port');
}
console.log(`${counts.passed} passed, ${counts.failed} failed`);
process.exitCode = counts.failed ? 1 : 0;
