#!/usr/bin/env bash
# Each must-fail edit of the last `rt ci`, whose log is target/rt-ci.log, was refused at a fact that no longer holds.
cd "$(dirname "$0")/.." || exit 2
python3 tests/refusals.py
