# shellcheck shell=sh
# Counting checks in the shell tests; to be sourced. Each failure is said at once, the count at the end.
passed=0
failed=0

# is WHAT EXPECTED GOT: the two are the same text
is() {
    if [ "$2" = "$3" ]; then
        passed=$((passed + 1))
    else
        failed=$((failed + 1))
        printf 'FAILED: %s\n  expected: %s\n  got:      %s\n' "$1" "$2" "$3" >&2
    fi
}

# has WHAT PART TEXT: the text has the part
has() {
    case "$3" in
        *"$2"*) passed=$((passed + 1)) ;;
        *)
            failed=$((failed + 1))
            printf 'FAILED: %s\n  not found: %s\n  in: %s\n' "$1" "$2" "$3" >&2
            ;;
    esac
}

# checked NAME: the count, and the status of the whole test
checked() {
    echo "$1: $passed checks passed, $failed failed"
    [ "$failed" -eq 0 ] && [ "$passed" -gt 0 ]
}
