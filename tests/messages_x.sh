#!/usr/bin/env bash
# xdr/messages.x is what the writer writes and what play takes: code that an XDR compiler makes of it decodes the messages that message_cases
# prints, the rehearsal's list, and exactly those of the lists in tests/rehearsal that don't get 26. It needs rpcgen and tirpc, which .ci/run
# installs where they are missing.
cd "$(dirname "$0")/.." || exit 2
. tests/check.bash
. tests/dump.bash
work=$(mktemp -d)
trap 'rm -rf "$work"' EXIT

reads_messages() {
    grep -E 'START|JOIN|PROPOSE|VOTE' crates/message_cases/stdout >"$work/want" && "$work/dump" <"$work/want" | cmp "$work/want" -
}

# A file's bytes as a list, in the rig's notation.
notation() {
    { od -An -v -tx1 "$1" | tr -d ' \n' && echo; } | "$work/dump" list
}

reads_the_rehearsal() {
    local list='n=3 s(1,1,70) d(0,0) d(0,1) d(1,1) d(1,1) d(2,1) d(3,0) s(2,2,80) d(5,0) d(5,2) d(7,2) d(6,2) d(3,1) d(4,1) d(9,1)'
    [ "$(notation crates/rehearsal/stdin)" = "$list" ]
}

# A list that gets 26, or one that doesn't.
reads_as_play() {
    if [ "$(cat "${1%.list}.out")" = 26 ]; then
        [ "$(notation "$1")" = "no list" ]
    else
        [[ $(notation "$1") =~ ^n=[0-9]+ ]]
    fi
}

check "no code was made of xdr/messages.x" dump_built "$work"
check "xdr/messages.x and the writer differ" reads_messages
check "xdr/messages.x and the rehearsal's list differ" reads_the_rehearsal
for list in tests/rehearsal/*.list; do
    check "xdr/messages.x and play differ on $list" reads_as_play "$list"
done
told
