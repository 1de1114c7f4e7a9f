#!/usr/bin/env bash
# The rehearsal program on further lists: no events, each number that a list can get there, a lost JOIN that is sent again, several slots, 1,000 events (among
# them 17 STARTs that get 22, put in by hand: 9 at V = r, 8 at J > r), and the longest list and one byte more. What it must write for the stored ones was made
# by the second implementation. (28 and 1 can't occur: the program lends a whole store, whole tables and 1,000 answer bytes.) Then what isn't proved of it:
# an input that comes in parts, and a read or a write that fails.
cd "$(dirname "$0")/.." || exit 2
. tests/check.bash
dir=$(mktemp -d)
trap 'rm -rf "$dir"' EXIT
# as `rt ci` leaves it, or `rt run` in the crate's folder
program=crates/rehearsal/out/rehearsal

prints() {
    "$program" <"$1" | cmp -s - "$2"
}

for list in tests/rehearsal/*.list; do
    check "$list differs" prints "$list" "${list%.list}.out"
done

# 1,000 starts of rising rounds, each by its leader, in all slots in turn: 24,008 bytes, all accepted
python3 - >"$dir/longest" <<'PY'
import struct, sys
starts = [struct.pack(">IIIIQ", 1, r % 8, r % 3, r, 5) for r in range(1, 1001)]
sys.stdout.buffer.write(struct.pack(">II", 3, 1000) + b"".join(starts))
PY
{ printf '0%.0s ' {1..999}; printf '0\n'; printf '0 0 0 3\n%.0s' {1..8}; } >"$dir/longest.out"
{ cat "$dir/longest"; printf '\0'; } >"$dir/longer"
echo 26 >"$dir/longer.out"
check "the longest list differs" prints "$dir/longest" "$dir/longest.out"
check "one byte more than the longest list isn't refused" prints "$dir/longer" "$dir/longer.out"

in_parts() {
    { head -c 9 crates/rehearsal/stdin; sleep 0.2; tail -c +10 crates/rehearsal/stdin; } | "$program" | cmp -s - crates/rehearsal/stdout
}

# 64 KiB beside the program's own list and output
on_little_stack() {
    (ulimit -s 133 && env -i "$program" <"$dir/longest" | cmp -s - "$dir/longest.out")
}

# a line on standard error that begins so, and nothing on standard output
says() {
    [ ! -s "$dir/out" ] && [ "$(wc -l <"$dir/err")" -eq 1 ] && grep -q "^rehearsal: can't $1: ." "$dir/err"
}
check "an input in parts differs" in_parts
check "64 KiB of stack aren't enough" on_little_stack
"$program" <&- >"$dir/out" 2>"$dir/err"
check "a closed standard input isn't named" says "read standard input"
"$program" </ >"$dir/out" 2>"$dir/err"
check "a folder as standard input isn't named" says "read standard input"
: >"$dir/out"
"$program" <crates/rehearsal/stdin >/dev/full 2>"$dir/err"
check "a full standard output isn't named" says "write standard output"
"$program" <crates/rehearsal/stdin >&- 2>"$dir/err"
check "a closed standard output isn't named" says "write standard output"
told
