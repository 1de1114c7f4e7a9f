#!/usr/bin/env bash
# The host packages where there is no archive: they check, clippy has nothing to say, and all of their pages can be made. It needs nothing of rt's, so
# .ci/run starts it beside the proofs. It needs cargo and clippy, which .ci/run installs where they are missing.
cd "$(dirname "$0")/.." || exit 2
. tests/quiet.bash

# A command of cargo with an empty folder for the archive.
without_archive() {
    (cd host && KALEBASIN_LIB=$work cargo "$@")
}

pages() {
    RUSTDOCFLAGS="-D warnings" without_archive doc --offline
}

# A relative folder for the archives, which isn't the same one to cargo and to the compiler, is told in one line.
relative_folder_told() {
    (cd host && KALEBASIN_LIB=../target/staticlib cargo check --offline) 2>"$work/told" &&
        [ "$(grep -c '^warning: ' "$work/told")" -eq 1 ] &&
        grep -q ': KALEBASIN_LIB takes a folder from the root on, so nothing links: \.\./target/staticlib$' "$work/told"
}

check "cargo check fails without the archive" without_archive check --offline
check "clippy warns" without_archive clippy --offline --all-targets -- -D warnings
check "clippy warns of the test of the lent calls" without_archive clippy --offline --test lent -- -D warnings
check "clippy warns of the packages without the core" without_archive clippy --offline --all-targets --no-default-features -- -D warnings
check "the pages can't be made without the archive" pages
check "a relative folder for the archives isn't told" relative_folder_told
echo "$passed passed, $failed failed"
[ "$failed" -eq 0 ]
