#!/usr/bin/env bash
# The archive as a C program sees it: host/include/kalebasin.h fits it, and it asks its host for functions that copy, fill or compare memory
# and for nothing else, so for no heap. It needs a C compiler and nm, which .ci/run installs where they are missing.
cd "$(dirname "$0")/.." || exit 2
. tests/archive.bash
. tests/check.bash
work=$(mktemp -d)
trap 'rm -rf "$work"' EXIT

# A C program over the header calls each function.
fits() {
    built &&
        cc -std=c11 -Wall -Wextra -Werror -pedantic -Ihost/include -o "$work/header" tests/header.c "${archives[@]}" && "$work/header"
}

# The names that the archive leaves to its host.
asks_for_memory_functions_alone() {
    nm -u "${archives[@]}" >"$work/asked" && awk 'NF == 2 { print $2 }' "$work/asked" >"$work/names" &&
        ! grep -vxE 'memcpy|memmove|memset|memcmp|bcmp' "$work/names"
}

check "host/include/kalebasin.h and the archive differ" fits
check "the archive asks for the functions above" asks_for_memory_functions_alone
told
