# For scripts that add up parts of the gate (read by '.'): 'part COMMAND..' runs one, says how long it took, and adds its last line,
# 'N passed, M failed', to $passed and $failed. A part with no such line, or with a status other than 0, counts as one failed at the
# least. 'verdict' prints the sum and ends the script.
passed=0 failed=0
room=$(mktemp -d) || exit 1
trap 'rm -rf "$room"' EXIT

part() {
    name=$* began=$(date +%s)
    { "$@"; echo "$?" >"$room/status"; } | tee "$room/printed"
    # shellcheck disable=SC2046
    set -- $(sed -n '$s/^\([0-9]*\) passed, \([0-9]*\) failed$/\1 \2/p' "$room/printed")
    [ $# -eq 2 ] || set -- 0 1
    [ "$(cat "$room/status")" = 0 ] || [ "$2" -gt 0 ] || set -- "$1" 1
    passed=$((passed + $1)) failed=$((failed + $2))
    echo "$name: $(($(date +%s) - began)) s"
}

verdict() {
    echo "$passed passed, $failed failed"
    [ "$failed" -eq 0 ]
    exit
}
