#!/usr/bin/env bash
# xdr/kalebasin.lua in tshark shows of each message what the proved reader answers: tests/packets.c makes a capture of sound and damaged messages
# and says what the reader answers to each. It needs a C compiler and tshark, which .ci/run installs where they are missing.
cd "$(dirname "$0")/.." || exit 2
. tests/archive.bash
. tests/check.bash
work=$(mktemp -d)
trap 'rm -rf "$work"' EXIT

# tshark on a capture with the dissector and nobody's own settings.
shark() {
    HOME=$work XDG_CONFIG_HOME=$work tshark -X lua_script:xdr/kalebasin.lua -r "$@" 2>"$work/said"
}

captures() {
    built && cc -std=c11 -Wall -Wextra -Werror -pedantic -Ihost/include -o "$work/packets" tests/packets.c "${archives[@]}" &&
        "$work/packets" "$work/capture" "$work/fields" "$work/words"
}

# There are messages that are read and messages that get each number, some hundreds in all.
has_every_answer() {
    local number
    for number in '' 14 15 16 32; do
        [ "$(cut -f 1 "$work/fields" | grep -cx "$number")" -ge 50 ] || return
    done
}

# Of a refused message the number alone is compared; its fields are shown as far as they are there.
shows_fields() {
    local at=()
    for field in refusal slot kind round sender presence voted value; do at+=(-e "kalebasin.$field"); done
    shark "$work/capture" -T fields "${at[@]}" | awk -F '\t' -v OFS='\t' '$1 { print $1, "", "", "", "", "", "", ""; next } { print }' |
        diff "$work/fields" - | head -n 20 >"$work/differs"
    cat "$work/differs" "$work/said" | grep -v 'Running as user'
    [ ! -s "$work/differs" ]
}

shows_words() {
    shark "$work/capture" -o 'gui.column.format:"Info","%i"' | diff "$work/words" - | head -n 20 >"$work/differs"
    cat "$work/differs"
    [ ! -s "$work/differs" ]
}

# What a person sees of a JOIN that tells a vote, and of one that lacks its last byte.
shows_a_page() {
    local whole='kalebasin.slot == 1 && kalebasin.round == 66051 && kalebasin.sender == 6 && kalebasin.voted == 66050 && kalebasin.value == 70'
    local damaged='kalebasin.kind == 2 && kalebasin.voted == 66050 && kalebasin.rest && kalebasin.refusal == 14 && udp.length == 39'
    shark "$work/capture" -O kalebasin -Y "($whole) || ($damaged)" | grep -E '^(Kalebasin|    [^ ])' | diff - <(
        cat <<'PAGE'
Kalebasin office vault, JOIN of round 66051 from member 6 in slot 1, which voted for 70 in round 66050
    Slot: 1
    Kind: JOIN (2)
    Round: 66051
    Sender: 6
    Presence: has voted (1)
    Voted round: 66050
    Value: 70
Kalebasin office vault, refused with 14: the message's length isn't that of its kind
    Slot: 3
    Kind: JOIN (2)
    Round: 66051
    Sender: 6
    Presence: has voted (1)
    Voted round: 66050
    Bytes that are no field: 01020304050607
    [Refused with: the message's length isn't that of its kind (14)]
    [Expert Info (Error/Malformed): refused with 14: the message's length isn't that of its kind]
PAGE
    )
}

# Of a message that wasn't captured whole nothing is said about the reader.
says_cut() {
    editcap -s 44 "$work/capture" "$work/cut" &&
        [ -z "$(shark "$work/cut" -Y 'frame.cap_len < frame.len && (kalebasin.refusal || !kalebasin.cut)')" ] &&
        [ -n "$(shark "$work/cut" -Y 'kalebasin.cut')" ]
}

# The ports are a preference.
hears_its_ports() {
    [ -n "$(shark "$work/capture" -Y kalebasin)" ] && [ -z "$(shark "$work/capture" -o kalebasin.ports:9000 -Y kalebasin)" ]
}

check "the capture wasn't made" captures
check "the capture lacks an answer of the reader" has_every_answer
check "other fields or numbers than the reader's" shows_fields
check "other words than the reader's" shows_words
check "another page" shows_a_page
check "a message that was cut by the capture" says_cut
check "the preference for ports" hears_its_ports
told
