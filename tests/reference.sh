#!/usr/bin/env bash
# docs/REFERENCE.md says what is so: its examples are decoded by the archive and by the code that an XDR compiler makes of xdr/messages.x, its numbers
# have the names and words of the C header and of the Rust library, and it has every function of the header. It needs a C compiler, rpcgen and
# tirpc, which .ci/run installs where they are missing.
cd "$(dirname "$0")/.." || exit 2
. tests/archive.bash
. tests/check.bash
. tests/dump.bash
page=docs/REFERENCE.md
header=host/include/kalebasin.h
work=$(mktemp -d)
trap 'rm -rf "$work"' EXIT

taken() {
    awk -v to="$work" -f tests/reference.awk "$page" && [ -s "$work/asked" ] && [ -s "$work/lists" ] && [ -s "$work/numbers" ]
}

answers() {
    built && cc -std=c11 -Wall -Wextra -Werror -pedantic -Ihost/include -o "$work/reference" tests/reference.c "${archives[@]}" &&
        "$work/reference" <"$work/asked" | diff "$work/want" -
}

says_the_lists() {
    dump_built "$work" && "$work/dump" list <"$work/lists" | diff "$work/notation" -
}

# So many examples of a kind.
has_examples() {
    [ "$(cat "$work/want" "$work/notation" | grep -cE "$2")" -ge "$1" ]
}

# Numbers and names, from 0 without a gap, are those of the header.
has_the_header_s_numbers() {
    sed -n '/^enum KalebasinNumber {$/,/^};$/s/^ *KALEBASIN_\([A-Z_]*\) = \([0-9]*\),*$/\2 \1/p' "$header" >"$work/header_s" &&
        cut -d ' ' -f 1,2 "$work/numbers" | diff - "$work/header_s" && cut -d ' ' -f 1 "$work/numbers" | diff - <(seq 0 $(($(wc -l <"$work/numbers") - 1)))
}

# A variant's name as the page has it.
spelled() {
    sed -E 's/([a-z])([A-Z])/\1_\2/g; s/([A-Z])([A-Z][a-z])/\1_\2/g' <<<"$1" | tr '[:lower:]' '[:upper:]'
}

# Numbers, names and causes, but for OK, are those of the Rust library.
has_the_library_s_causes() {
    find host -name refusal.rs -not -path '*/target/*' -exec sed -nE 's/^ +([0-9]+) ([A-Za-z]+) "(.*)"$/\1 \2 \3/p' {} + |
        while read -r number name cause; do echo "$number $(spelled "$name") $cause"; done | diff <(tail -n +2 "$work/numbers") -
}

has_the_header_s_functions() {
    diff <(sed -nE 's/^\| `(kalebasin_[a-z_]+)` \| .*/\1/p' "$page" | sort) <(grep -oE '\bkalebasin_[a-z_]+\(' "$header" | tr -d '(' | sort -u)
}

check "no examples" taken
check "the archive answers otherwise" answers
check "the lists say something else" says_the_lists
# each kind of message, one of another slot than 0, each check of the reader, each kind of event, also in another slot and in one that there isn't, a list without
# events, a START that comes again, what play leaves in slots, rounds made GHOST in play and by an add, and that an add would make so, tables of two lengths, a
# refused list of each kind; a message written, and what a member sends and makes
for example in '^START ' '^JOIN .* never voted$' '^JOIN .*, which voted for ' '^PROPOSE ' '^VOTE ' '^[A-Z]+ .* in slot 7 ' '^refused with 15:' '^refused with 32:' '^n=[357]$' \
    ' s\(' ' d\(' ' [1-7]:s\(' ' [1-7]:d\(' ' 8:s\(' ' d\(0,0\) d\(0,0\) ' \
    '^answers:.* 0( |$)' '^answers:.* 32( |$)' '^nodes: .*,' '^nodes in slot 5: .*,' '^ghosts: [2-9]' '^0, makes [2-9] GHOST: ' '^0, would make [2-9] GHOST: ' '^31$' \
    '^refused with 26:' '^refused with 27:' '^0: 00000003 00000002 ' '^32$' '^0, sends ' ', makes add' ', makes commit'; do
    check "no example with $example" has_examples 1 "$example"
done
for call in add preview commit path; do
    check "no example of a command tree's $call" grep -q "^command $call(" "$work/asked"
done
check "fewer than three examples with 14" has_examples 3 '^refused with 14:'
check "fewer than two examples with 16" has_examples 2 '^refused with 16:'
check "other numbers than the C header's" has_the_header_s_numbers
check "other causes than the Rust library's" has_the_library_s_causes
check "other functions than the C header's" has_the_header_s_functions
told
