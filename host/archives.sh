#!/usr/bin/env bash
# Builds the archives that a host links, target/staticlib/libNAME.a, of the crates named, or of `exports` and `exports_member` where none is named.
# Only a proved crate gets one: rt proves what has changed. An archive that is newer than every source stays as it is.
# With OVER_CI=1, right after `rt ci`, an archive is built over the libraries that it proved and left in out/. Rt's other commands don't take those and
# would prove each library again. Where libraries are missing, rt proves them.
cd "$(dirname "$0")/.." || exit 2
[ $# -gt 0 ] || set -- exports exports_member
mkdir -p target/staticlib
said=$(mktemp)
begun=$(mktemp)
trap 'rm -f "$said" "$begun"' EXIT

# Whether an archive is there and newer than crates.txt and each source.
is_new() {
    [ -e "$1" ] && [ -z "$(find crates.txt crates \( -name out -o -name must-fail \) -prune -o \
        \( -name '*.rt' -o -name '*.antt' -o -name crates.txt \) -newer "$1" -print -quit)" ]
}

# In a crate's folder: proves it and builds out/libNAME.a, as `rt lib` does, over the libraries that `rt ci` left.
over_ci() {
    local kit library words=()
    kit=$(dirname "$(rt doc)")
    for library in $(sed -n "s/^$1 staticlib://p" ../../crates.txt); do words+=(--extern "$library=../$library/out/rlib/$library.rlib"); done
    for library in ../*/out/rlib; do words+=(-L "dependency=$library"); done
    mkdir -p out
    "$kit/bin/rattle" build --crate-name "$1" --crate-type staticlib src/lib.rt --extern "std=$kit/rlibs/std.rlib" -L "dependency=$kit/rlibs" "${words[@]}" \
        --antt-project "$kit/rattle/logic/antt-project.json" --logic-built "$kit/logic_built" --toolchain "$kit/toolchain" -o "out/lib$1.a"
}

for crate in "$@"; do
    archive=target/staticlib/lib$crate.a
    is_new "$archive" && continue
    touch "$begun"
    if ! { [ "${OVER_CI:-}" = 1 ] && (cd "crates/$crate" && over_ci "$crate"); } >"$said" 2>&1 && ! (cd "crates/$crate" && rt lib) >"$said" 2>&1; then
        cat "$said"
        echo "host/archives.sh: no archive of $crate"
        exit 1
    fi
    # as old as the sources that were read, so that one that changed meanwhile is newer
    cp "crates/$crate/out/lib$crate.a" "$archive" && touch -r "$begun" "$archive" || exit
done
