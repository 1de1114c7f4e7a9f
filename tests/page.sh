#!/usr/bin/env bash
# The page of a run in headless Chromium: the slider, the filters, words on hover, labels off lines, all members on paper, a thousand events within
# a second; and the JSON of a run in Chromium's own reader. It needs cargo and chromium, which .ci/run installs where they are missing.
cd "$(dirname "$0")/.." || exit 2
. tests/archive.bash
. tests/cargo.bash
if ! built; then
    echo "page: an archive wasn't built"
    echo "0 passed, 1 failed"
    exit 1
fi
cargo_tests --package kalebasin-rig --test page -- --ignored
echo "$ran passed, $wrong failed"
[ "$wrong" -eq 0 ]
