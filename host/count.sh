# Sourced by the scripts that run tests: counts those that passed and those that failed.
passed=0 failed=0

finish() {
    echo "$passed passed, $failed failed"
    [ "$failed" -eq 0 ]
    exit
}

# One test: a name and its command.
try() {
    echo "== $1"
    shift
    if "$@"; then passed=$((passed + 1)); else failed=$((failed + 1)); fi
}

# The tests of cargo, told and counted one by one; what they print is shown where one fails.
cargo_tests() {
    local log line status good=0 bad=0
    log=$(mktemp)
    cargo test --no-fail-fast "$@" 2>&1 | tee "$log" |
        grep --line-buffered -E '^( +Compiling|test|SKIPPED:) ' | grep --line-buffered -v '^test result: '
    status=${PIPESTATUS[0]}
    while read -r line; do
        [[ $line =~ ([0-9]+)\ passed\;\ ([0-9]+)\ failed ]] || continue
        good=$((good + BASH_REMATCH[1])) bad=$((bad + BASH_REMATCH[2]))
    done < <(grep '^test result:' "$log")
    [ "$status" -eq 0 ] || [ "$bad" -gt 0 ] || bad=1
    [ "$bad" -eq 0 ] || cat "$log"
    rm -f "$log"
    passed=$((passed + good)) failed=$((failed + bad))
}
