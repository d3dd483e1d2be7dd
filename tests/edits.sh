#!/usr/bin/env bash
# Counts the wrong programs under crates/*/must-fail that are refused by what the changed function ensures (tests/edits.py). rt ci demands that each edit is
# refused; of those that change several functions or laws each must be refused by a fact of its own here. NEGBOSUN_SAID is what rt ci wrote.
cd "$(dirname "$0")/.." && exec python3 tests/edits.py ${NEGBOSUN_SAID:+--said "$NEGBOSUN_SAID"} "$@"
