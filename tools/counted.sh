# For bash scripts that run parts and add up what these passed; they source it.
total=0
log=$(mktemp)
trap 'rm -f "$log"' EXIT

# Runs a part, prints what it prints and adds the count of its last line, `N passed, 0 failed`; fails where that is not its last line.
# Leaves the part's exit status in `status` and its last line in `last`.
counted() {
    "$@" </dev/null 2>&1 | tee "$log"
    status=${PIPESTATUS[0]}
    last=$(tail -n 1 "$log")
    [[ $status -eq 0 && $last =~ ^([1-9][0-9]*)\ passed,\ 0\ failed$ ]] || return 1
    total=$((total + BASH_REMATCH[1]))
}

# Whether the part that ran last, `rt ci`, tried every must-fail edit: its line that begins `rt: ok` says how many are bad, where one is,
# and it passes all the same. Leaves that line, or that there is none, in `ok`.
edits_tried() {
    ok=$(grep '^rt: ok' "$log") || {
        ok="rt ci has no line that begins rt: ok"
        return 1
    }
    [[ ! $ok =~ ,\ [1-9][0-9]*\ bad([^0-9a-z]|$) ]]
}
