# What the benches of commands share: the program, a place to work in, and how two things are measured beside each
# other. All of it is exported, so that `usage` can run a function in a shell of its own. Where SHORT is set, what is
# measured is small and each measure one round, to see that a bench runs: its times then say nothing.

set -a
top=$(cd "$(dirname "${BASH_SOURCE[0]}")/.." && pwd)
. "$top/samples/functions.sh"
"$top/samples/build"
lifecycle=${LIFECYCLE:-$top/bin/lifecycle}

# The place to work in is kept in memory where the machine has 8 GiB for that, so that no disk is measured.
room=$(df --output=avail -k /dev/shm 2> /dev/null | tail -n 1)
if [ "${room:-0}" -gt 8388608 ]; then work=$(mktemp -d -p /dev/shm); else work=$(mktemp -d); fi
trap 'rm -rf "$work"' EXIT

# rounds COUNT, sized COUNT: how many rounds a measure has, and how many of something it is over: one, and a fiftieth, where
# SHORT is set.
rounds() { if [ -n "${SHORT-}" ]; then echo 1; else echo "$1"; fi; }
sized() { if [ -n "${SHORT-}" ]; then echo $((($1 + 49) / 50)); else echo "$1"; fi; }

# number COUNT: it in groups of three digits.
number() { sed ':a; s/\([0-9]\)\([0-9]\{3\}\)\(,\|$\)/\1,\2\3/; ta' <<< "$1"; }

# took FUNCTION: what one run of it took, as `usage` tells it. What it prints goes to `said`.
took() {
    "$top/bench/usage" "$work/usage" bash -eu -c "$1" > "$work/said" 2>&1 || { cat "$work/said" >&2; echo "$1 failed" >&2; exit 1; }
    cat "$work/usage"
}

best() { sort -n "$1" | head -n 1; }

# beside WHAT RUNS OURS OTHER THEIRS [BEFORE]: the best of some runs of two functions, OURS of the program and THEIRS of
# something else, which OTHER names. They run in turn, so that what else the machine does falls on both; BEFORE each of
# them runs unmeasured.
beside() {
    rm -f "$work/ours" "$work/theirs"
    for _ in $(seq "$(rounds "$2")"); do
        ${6-:}
        took "$3" >> "$work/ours"
        ${6-:}
        took "$5" >> "$work/theirs"
    done
    echo "$(best "$work/ours") $(best "$work/theirs")" | awk -v what="$1" -v other="$4" '
        function told(clock, processors, memory) {
            return sprintf("%d ms, processors %d ms, %d MiB", clock / 1000, processors / 1000, memory / 1024)
        }
        { printf "%s: lifecycle %s; %s %s; ratio %d%%\n", what, told($1, $2, $3), other, told($4, $5, $6), $1 * 100 / $4 }'
}

# files FOLDER COUNT BYTES: so many files of other contents each, by the hundred in a folder.
files() {
    python3 - "$@" <<'SCRIPT'
import os, sys
folder, count, size = sys.argv[1], int(sys.argv[2]), int(sys.argv[3])
for number in range(1, count + 1):
    inside = f"{folder}/{number // 100}"
    os.makedirs(inside, exist_ok=True)
    with open(f"{inside}/{number}", "wb") as out:
        out.write(b"%016d" % number + bytes(size - 16))
SCRIPT
}
