#!/usr/bin/env bash
# docs/TESTING.md names the public functions that have fewer than two wrong programs under crates/*/must-fail. The last line counts.
cd "$(dirname "$0")/.." && exec python3 tests/edit_counts.py
