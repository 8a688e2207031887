# What the scripts of cases share: a place to work in, the program, the rows of a table, and how many were as expected.
# A script sources this file, goes through its cases, and calls `ended` last. It says what a case leaves by its own
# `stands`.

samples=$(cd "$(dirname "${BASH_SOURCE[0]}")" && pwd)
. "$samples/functions.sh"
"$samples/build"
room=$(mktemp -d)
trap 'chmod -R u+w "$room"; rm -rf "$room"' EXIT
chmod 755 "$room"
at=$room/at
lifecycle=$room/lifecycle
cp "${LIFECYCLE:-$samples/../bin/lifecycle}" "$lifecycle"
unset CNB_PLATFORM_API CNB_LOG_LEVEL
allowed=20
as_expected=0
differing=0

stands() { :; }

# The lines of standard input in one.
in_one_line() { tr '\n' '\1' | sed 's/\x01$//; s/\x01/, /g'; }

# case_row VERDICT NAME STATUS PRINTED STANDS: a row of the table, without the folder that the script works in.
case_row() {
    local row
    row=$(printf '%-8s %-58s %3s  %s' "$1" "$2" "$3" "${4//$at/}")
    [ "$1" != ok ] || row=${row:0:150}
    echo "$row${5:+  [$5]}"
}

# judged NAME STATUS PRINTED STANDS EXPECTED-STATUS EXPECTED-PRINTED EXPECTED-STANDS: counts a case and prints its row.
judged() {
    if [ "$2" = "$5" ] && [ "$3" = "$6" ] && [ "$4" = "$7" ]; then
        as_expected=$((as_expected + 1))
        case_row ok "$1" "$2" "$3" "$4"
    else
        differing=$((differing + 1))
        case_row DIFFERS "$1" "$2" "$3" "$4"
        case_row '' '  expected' "$5" "$6" "$7"
        [ ! -s "$room/said" ] || sed 's/^/         said: /' "$room/said"
    fi
}

# expect NAME STATUS PRINTED STANDS COMMAND..: the command ends with this status within $allowed seconds, prints these
# lines, and leaves what `stands` tells.
expect() {
    local status=0
    timeout "$allowed" env "${@:5}" > "$room/printed" 2> "$room/said" < /dev/null || status=$?
    judged "$1" "$status" "$(tr -d '\0' < "$room/printed" | in_one_line)" "$(stands)" "$2" "$3" "$4"
}

# same NAME FOUND EXPECTED: two texts are the same.
same() {
    : > "$room/said"
    judged "$1" '' "$(in_one_line <<< "$2")" '' '' "$(in_one_line <<< "$3")" ''
}

# The end of a script of cases.
ended() {
    [ "$differing" = 0 ] || echo "$differing differ"
    echo "$as_expected as expected"
    [ "$differing" = 0 ]
}

# families FOLDER: runs each script of cases in it, and prints how many were as expected in all.
families() {
    local family count total=0 failed=0
    for family in "$1"/*; do
        printf '\n%s\n' "${family##*/}:"
        "$family" > "$room/family" 2>&1 || failed=1
        cat "$room/family"
        count=$(sed -n 's/^\([0-9]*\) as expected$/\1/p' "$room/family")
        total=$((total + ${count:-0}))
    done
    printf '\n%s: %s as expected\n' "${1##*/}" "$total"
    [ "$failed" = 0 ] || { echo "${1##*/}: some differ, or a script failed"; exit 1; }
}
