# Sourced by the scripts that run tests: runs their parts, whose last lines are `N passed, M failed`, and adds these up.

passed=0
failed=0

# part NAME COMMAND..: runs the command. One that ends in no such line, passes nothing, or says that nothing failed and ends with
# another status than 0 counts as a failure.
part() {
    local name=$1 log status last
    shift
    log=$(mktemp)
    echo "== $name"
    set +e
    "$@" 2>&1 | tee "$log"
    status=${PIPESTATUS[0]}
    set -e
    last=$(tail -n 1 "$log")
    rm -f "$log"
    if [[ $last =~ ^([0-9]+)\ passed,\ ([0-9]+)\ failed$ ]]; then
        passed=$((passed + BASH_REMATCH[1]))
        failed=$((failed + BASH_REMATCH[2]))
        if [[ ${BASH_REMATCH[2]} -eq 0 && ($status -ne 0 || ${BASH_REMATCH[1]} -eq 0) ]]; then
            echo "$name: ended with status $status after \"$last\""
            failed=$((failed + 1))
        fi
    else
        echo "$name: ended with status $status and without a count"
        failed=$((failed + 1))
    fi
}

# The sum as the last line, and the exit status.
total() {
    echo "$passed passed, $failed failed"
    [[ $failed -eq 0 ]]
}
