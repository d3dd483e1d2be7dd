#!/usr/bin/env bash
# Which wrong programs tests/edits.sh counts, from what the prover says of them. The last line counts.
cd "$(dirname "$0")/.." && exec python3 -B tests/edits_told.py
