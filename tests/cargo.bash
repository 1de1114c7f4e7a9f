# Cargo's tests in host/, for the tests that run some of them.

# Runs them with these arguments; `ran` and `wrong` are then how many passed and failed. Not to run to the end is a failure.
cargo_tests() {
    local out status
    out=$(mktemp)
    (cd host && cargo test --release --offline "$@") 2>&1 | tee "$out"
    status=${PIPESTATUS[0]}
    read -r ran wrong < <(awk '/^test result: / { p += $4; f += $6 } END { print p + 0, f + 0 }' "$out")
    rm -f "$out"
    if [ "$wrong" -eq 0 ] && { [ "$status" -ne 0 ] || [ "$ran" -eq 0 ]; }; then
        echo "cargo's tests didn't run to their end"
        wrong=1
    fi
}
