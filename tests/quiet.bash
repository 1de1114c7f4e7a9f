# For the tests of host/ that count commands: `check WHAT COMMAND ..` counts a command; where it fails, it shows what the command said, and WHAT.
# `work` is a folder that goes at the end.
work=$(mktemp -d)
trap 'rm -rf "$work"' EXIT
passed=0
failed=0

check() {
    local what=$1
    shift
    if "$@" >"$work/said" 2>&1; then
        passed=$((passed + 1))
    else
        cat "$work/said"
        echo "$(basename "$0" .sh): $what"
        failed=$((failed + 1))
    fi
}
