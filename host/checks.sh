# What the scripts share whose last line is 'N passed, M failed'.
passed=0 failed=0

# check WHAT COMMAND..: counts whether the command succeeds.
check() {
    what=$1
    shift
    if "$@"; then
        passed=$((passed + 1))
    else
        failed=$((failed + 1))
        echo "FAILED $what"
    fi
}

# add_counts FILE: what a program counted, in the last line of what it wrote.
add_counts() {
    counts=$(sed -n '$s/^\([0-9]*\) passed, \([0-9]*\) failed$/\1 \2/p' "$1")
    if [ -n "$counts" ]; then
        passed=$((passed + ${counts% *}))
        failed=$((failed + ${counts#* }))
    else
        failed=$((failed + 1))
        echo "FAILED to find a count at the end of $1"
    fi
}

# finish: the last line; fails if a check did.
finish() {
    echo "$passed passed, $failed failed"
    [ "$failed" -eq 0 ]
}
