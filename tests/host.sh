#!/usr/bin/env bash
# The host packages over the proved core: a package that depends on the library alone, and cargo's tests, among them the comparison of the core
# with the second implementation. It needs cargo, which .ci/run installs where it is missing.
cd "$(dirname "$0")/.." || exit 2
. tests/archive.bash
. tests/cargo.bash
. tests/quiet.bash

# A package elsewhere that depends on the library alone, as a vault does.
vault() {
    mkdir -p "$work/vault/src" && cp host/kalebasin/examples/office.rs "$work/vault/src/main.rs" &&
        printf '%s\n' '[package]' 'name = "vault"' 'edition = "2021"' '[dependencies]' "kalebasin.path = \"$PWD/host/kalebasin\"" >"$work/vault/Cargo.toml" &&
        (cd "$work/vault" && cargo run --offline --quiet | tee "$work/told") && [ "$(tail -n 1 "$work/told")" = "4 proposals, 1 decisions, 2 rounds made GHOST" ]
}

# An archive of another version, which the function of this name tells, ends a program at its first call.
other_version_told() {
    local crate=$1 function=$2
    rm -rf "$work/other" && mkdir "$work/other" && cp "${archives[@]}" "$work/other" && (
        cd "$work/other" && ar x "lib$crate.a" && objcopy --redefine-sym "$function=own_version" "$crate.o" &&
            echo "unsigned $function(void) { return 99; }" | cc -x c -c -o version.o - && ar rc "lib$crate.a" "$crate.o" version.o
    ) && ! (cd host && KALEBASIN_LIB=$work/other cargo run --offline --quiet --example office) 2>"$work/told" &&
        grep -q "^lib$crate.a has the calls of version 99, the crate kalebasin those of version 6\$" "$work/told"
}

# An archive whose two calls of this name are exchanged: the tool says of a tree call what the second implementation does otherwise, and has the status of that.
difference_told() {
    local call=$1
    rm -rf "$work/other" && mkdir "$work/other" && cp "${archives[@]}" "$work/other" && (
        cd "$work/other" && ar x libexports.a &&
            objcopy --redefine-sym "kalebasin_tree_$call=exchanged" --redefine-sym "kalebasin_command_$call=kalebasin_tree_$call" exports.o &&
            objcopy --redefine-sym "exchanged=kalebasin_command_$call" exports.o && ar rc libexports.a exports.o
    ) || return
    (cd host && KALEBASIN_LIB=$work/other cargo run --offline --quiet -- tree -e "add(1,5,0) $call(2,6,1)") >"$work/told"
    [ $? -eq 1 ] && [ "$(grep -c '[A-Z] IMPLEMENTATION' "$work/told")" -eq 1 ] && grep -qx ' *THE SECOND IMPLEMENTATION ANSWERS 7' "$work/told"
}

# An archive whose play counts a round too many and answers the second event with 29: a run says how many rounds the model makes GHOST and what it answers, also
# where that event's slot isn't the one shown, and has the status of that, in JSON too.
play_told() {
    rm -rf "$work/other" && mkdir "$work/other" && cp "${archives[@]}" "$work/other" &&
        (cd "$work/other" && ar x libexports.a && objcopy --redefine-sym kalebasin_play=own_play exports.o) &&
        cc -Ihost/include -x c -c -o "$work/other/play.o" - <<'C' && (cd "$work/other" && ar rc libexports.a exports.o play.o) || return
#include "kalebasin.h"
KalebasinPlayResult own_play(const uint8_t *, size_t, uint8_t *, size_t, uint64_t *, size_t, const size_t *, uint8_t *, size_t);
KalebasinPlayResult kalebasin_play(const uint8_t *l, size_t n, uint8_t *s, size_t m, uint64_t *t, size_t k, const size_t *of, uint8_t *a, size_t b) {
    KalebasinPlayResult r = own_play(l, n, s, m, t, k, of, a, b);
    r.ghosts++;
    if (b > 1) a[1] = KALEBASIN_NO_MEMBER_OR_MESSAGE;
    return r;
}
C
    (cd host && KALEBASIN_LIB=$work/other cargo run --offline --quiet -- run -e 's(1,1,70)') >"$work/told"
    [ $? -eq 1 ] && [ "$(grep -cx 'THE MODEL MAKES 0 GHOST' "$work/told")" -eq 1 ] || return
    (cd host && KALEBASIN_LIB=$work/other cargo run --offline --quiet -- run --json -e 's(1,1,70)') >"$work/told"
    [ $? -eq 1 ] && [ "$(wc -l <"$work/told")" -eq 1 ] || return
    local list='s(1,1,70) 3:s(1,1,80) 3:s(1,4,90)'
    (cd host && KALEBASIN_LIB=$work/other cargo run --offline --quiet -- run --slot 0 -e "$list") >"$work/told"
    [ $? -eq 1 ] && grep -q '^   1  3:s(1,1,80)  29  ' "$work/told" && [ "$(grep -cx ' *THE MODEL ANSWERS 0' "$work/told")" -eq 1 ] || return
    (cd host && KALEBASIN_LIB=$work/other cargo run --offline --quiet -- run --slot 0 --json -e "$list") >"$work/told"
    [ $? -eq 1 ] && [ "$(grep -o '"notation":"[^"]*"' "$work/told" | tr '\n' ' ')" = '"notation":"s(1,1,70)" "notation":"3:s(1,1,80)" ' ]
}

build_examples() {
    (cd host && cargo build --offline --examples)
}

# The example says in one line that what it prints can't be written, and has the status of a mistake.
unwritten_told() {
    "$1" >/dev/full 2>"$work/told"
    [ $? -eq 2 ] && one_line_told "$1" 'No space left on device' || return
    # spaces go out until the reader has gone
    (
        trap '' PIPE
        while printf ' '; do :; done 2>"$work/gone"
        "$1" 2>"$work/told"
        echo $? >"$work/status"
    ) | :
    [ "$(cat "$work/status")" -eq 2 ] && one_line_told "$1" 'Broken pipe'
}

one_line_told() {
    [ "$(wc -l <"$work/told")" -eq 1 ] && grep -q "^$(basename "$1"): $2" "$work/told"
}

# Arguments that the example doesn't take get a line with those that it does.
arguments_told() {
    local argument
    for argument in $'\xff' x 4 +5; do
        "$1" "$argument" >"$work/out" 2>"$work/told"
        [ $? -eq 2 ] && [ ! -s "$work/out" ] && [ "$(wc -l <"$work/told")" -eq 1 ] && grep -q '^machines \[MEMBERS ' "$work/told" || return
    done
}

if ! built; then
    echo "host: an archive wasn't built"
    echo "$passed passed, $((failed + 1)) failed"
    exit 1
fi
check "a package that depends on the library alone fails" vault
examples=host/target/debug/examples
check "the examples aren't built" build_examples
check "the example office doesn't tell that it can't write" unwritten_told "$examples/office"
check "the example machines doesn't tell that it can't write" unwritten_told "$examples/machines"
check "the example machines takes other arguments than its own" arguments_told "$examples/machines"
check "an archive of another version isn't told" other_version_told exports kalebasin_version
check "an archive of another version with one member isn't told" other_version_told exports_member kalebasin_member_version
check "an add that the core answers otherwise isn't told" difference_told add
check "a preview that the core answers otherwise isn't told" difference_told preview
check "a sum or an answer that play gives otherwise isn't told" play_told

cargo_tests --no-fail-fast
passed=$((passed + ran))
failed=$((failed + wrong))
echo "$passed passed, $failed failed"
[ "$failed" -eq 0 ]
