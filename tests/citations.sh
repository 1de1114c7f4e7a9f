#!/usr/bin/env bash
# What README, docs/REVIEW.md and docs/PROVING.md name in backquotes exists, and each must-fail edit is named in docs/REVIEW.md.
cd "$(dirname "$0")/.." || exit 2
python3 tests/citations.py
