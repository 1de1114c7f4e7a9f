#!/usr/bin/env bash
# The member calls on a lent record, which no other test executes: the rig lends them records, and compares what they leave with the second
# implementation. They stand in an archive of their own. It needs cargo, which .ci/run installs where it is missing.
cd "$(dirname "$0")/.." || exit 2
. tests/archive.bash
. tests/cargo.bash
if ! built || ! built member_lent; then
    echo "lent: an archive wasn't built"
    echo "0 passed, 1 failed"
    exit 1
fi
cargo_tests --test lent
echo "$ran passed, $wrong failed"
[ "$wrong" -eq 0 ]
