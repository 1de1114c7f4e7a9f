#!/usr/bin/env bash
# The checked add grows no faster than the square of the rows: four times the rows, at most 16 times the instructions. valgrind counts them,
# so the numbers don't depend on the machine's load. Prints the table of docs/BENCHMARKS.md. It needs the archive that tests/host.sh builds,
# cargo and valgrind.
cd "$(dirname "$0")/../host" || exit 2
passed=0
failed=0
cargo build --release --offline --quiet --bin benchmark || failed=1

# The instructions of one checked add of the core: rows, then the tree's shape.
instructions() {
    valgrind --tool=callgrind --toggle-collect=kalebasin_tree_add --callgrind-out-file=/dev/null target/release/benchmark --add "$1" "$2" 1 2>&1 |
        sed -n 's/.*Collected : //p'
}

declare -A last
echo "| rows | one path | by the square | all below the root | by the square |"
echo "|---:|---:|---:|---:|---:|"
for rows in 16 64 256; do
    line="| $rows |"
    for shape in path star; do
        now=$(instructions "$rows" "$shape")
        now=${now:-0}
        line+=" $now | $(awk "BEGIN { printf \"%.1f\", $now / $rows / $rows }") |"
        if [ "$now" -eq 0 ] || [ "$now" -gt $((16 * ${last[$shape]:-$now})) ]; then
            echo "square: $rows rows, $shape: $now instructions"
            failed=$((failed + 1))
        elif [ "$rows" -gt 16 ]; then
            passed=$((passed + 1))
        fi
        last[$shape]=$now
    done
    echo "$line"
done
echo "$passed passed, $failed failed"
[ "$failed" -eq 0 ]
