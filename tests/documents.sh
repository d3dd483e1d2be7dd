#!/usr/bin/env bash
# What the documents name is there, and what they have to have is in them. The last line counts.
cd "$(dirname "$0")/.." && exec python3 -B tests/documents.py
