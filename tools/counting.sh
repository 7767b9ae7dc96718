# For test scripts: adds up parts that pass or fail. A part that counts for itself ends with a last
# line 'N passed, M failed'; a script that uses this ends with `counted`, which prints that line.
passed=0
failed=0

# count NAME STATUS: counts a part that has no count of its own
count() {
    if [ "$2" -eq 0 ]; then
        passed=$((passed + 1))
    else
        echo "$1: failed"
        failed=$((failed + 1))
    fi
}

# add NAME STATUS LAST: adds up a part that ended with this status and this last line
add() {
    if [[ $3 =~ ^([0-9]+)\ passed,\ ([0-9]+)\ failed$ ]]; then
        passed=$((passed + BASH_REMATCH[1]))
        failed=$((failed + BASH_REMATCH[2]))
        [ "$2" -eq 0 ] || [ "${BASH_REMATCH[2]}" -ne 0 ] || failed=$((failed + 1))
    else
        echo "$1: ended without a count (exit status $2): $3"
        failed=$((failed + 1))
    fi
}

# part NAME COMMAND..: runs a part that counts for itself, and prints what it says
part() {
    local name=$1 said status
    shift
    said=$("$@" 2>&1)
    status=$?
    printf '%s\n' "$said" | head -n -1
    echo "$name: ${said##*$'\n'}"
    add "$name" "$status" "${said##*$'\n'}"
}

# counted: the last line, and the status
counted() {
    echo "$passed passed, $failed failed"
    [ "$failed" -eq 0 ]
}
