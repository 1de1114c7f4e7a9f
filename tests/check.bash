# For the tests that count commands. `check WHAT COMMAND ..` counts a command and says WHAT where it fails; `told` prints the count, and its
# status is that of the test.
passed=0
failed=0

check() {
    local what=$1
    shift
    if "$@"; then
        passed=$((passed + 1))
    else
        echo "$(basename "$0" .sh): $what"
        failed=$((failed + 1))
    fi
}

told() {
    echo "$passed passed, $failed failed"
    [ "$failed" -eq 0 ]
}
