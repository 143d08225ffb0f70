#!/usr/bin/env bash
# The whole gate, which CI runs too: the steps below. With the word --all, as before a release, it
# tries the bugs of all crates, which it records, and all cases of copies, as root. Without valgrind
# it fails, but where WITHOUT_VALGRIND=yes says so.
# A step fails if its status is not 0, or if it has counted less than floors.txt says, or if that has
# no row of it. The first one that fails ends the gate, whose status is then not 0.
# Prints a line at least every minute. At the end comes a line for each step, with its seconds by
# the clock, its minutes of processors and its last line, then how large the repository is, and last
# 'N passed, M failed', the totals of all steps that end so. A failure without a number counts as
# one.
set -u
[ $# -eq 0 ] || [ "$*" = --all ] || { echo 'gate.sh [--all]' >&2 && exit 2; }
cd "$(dirname "$0")/.." || exit 1
work=$(mktemp -d)
TIMEFORMAT='%U %S'
passed=0 failed=0 ran=

# Says every 45 seconds what the step has last printed.
tick() {
    trap 'kill "$!"; exit' TERM
    while sleep 45 & wait "$!"; do
        echo "gate: $(cat "$work/name"), at $((SECONDS / 60)) min:" \
            "$(tail -n 1 "$work/log" | cut -c 1-160)"
    done
}
tick & ticker=$!
trap 'kill "$ticker" 2>/dev/null; rm -rf "$work"' EXIT
trap 'exit 1' INT TERM

# Ends the gate, with what each step has shown, how large all is, and the time that it took.
finish() {
    kill "$ticker" && wait "$ticker"
    echo
    [ ! -e "$work/shown" ] || cat "$work/shown"
    git grep -cI '' | awk -F : '{ n += $NF } END { print "gate: " n " lines in " NR " files" }'
    times >"$work/times"
    awk -F '[ms ]+' '{ n += $1 + $2 / 60 + $3 + $4 / 60 }
        END { printf "gate: %.1f min of processors, ", n }' "$work/times"
    echo "$((SECONDS / 60)) min by the clock"
    [ "$1" -eq 0 ] || echo "gate: FAILED"
    echo "$passed passed, $failed failed"
    exit "$1"
}

# Compares what a step has counted with its rows of floors.txt, of which the first is of its last
# line: NAME
reaches() {
    local of least line got rows=0
    while IFS='|' read -r of least line; do
        [ "$of" = "$1" ] || continue
        rows=$((rows + 1))
        got=$({ [ "$rows" -gt 1 ] && cat "$work/log" || tail -n 1 "$work/log"; } |
            sed -nE "s/^$line\$/\1/p" | tail -n 1)
        [ "${got:-0}" -ge "$least" ] ||
            { echo "gate: $1 has to count $least of '$line', and counts ${got:-none}" && return 1; }
    done <scripts/floors.txt
    [ "$rows" -gt 0 ] || { echo "gate: floors.txt has no row of $1" && return 1; }
}

# Runs a step: its name, and its command. Adds 'N passed, M failed' in its last line to the totals.
# The status of a pipe is that of its first command here.
step() {
    local name=$1 status spent last begun=$SECONDS
    shift
    echo "gate: $name"
    echo "$name" >"$work/name"
    { time "$@" 2>&1 </dev/null | tee "$work/log"; status=${PIPESTATUS[0]}; } 2>"$work/time"
    spent=$(awk 'END { printf "%.1f", ($1 + $2) / 60 }' "$work/time")
    last=$(tail -n 1 "$work/log")
    echo "gate: $name, $((SECONDS - begun)) s, $spent min of processors: $last" >>"$work/shown"
    grep -E '^rt: ok; |^edits: |^[0-9]+ by values, ' "$work/log" | sed 's/^/gate:   /' >>"$work/shown"
    if [[ $last =~ ^([0-9]+)\ passed,\ ([0-9]+)\ failed$ ]]; then
        passed=$((passed + BASH_REMATCH[1]))
        failed=$((failed + BASH_REMATCH[2]))
    fi
    ran+="$name|"
    [ "$status" -eq 0 ] && reaches "$name" >>"$work/shown" && return
    [ "$failed" -gt 0 ] || failed=1
    finish 1
}

# Runs the kit's own gate on what is here, and says of how many must-fail edits its line tells that
# they are refuted, by values or by a clause, of how many that a search met its limits, and of how
# many neither (the kit cuts these lines). Bugs are then tried over what it has built here, unless
# checks had built something before: that comes back when it ends.
prove() {
    [ -n "$(find crates -path '*/out/rlib' -print -quit)" ] || touch "$work/is-over-ci"
    RT_JOBS=$lanes rt ci | tee "$work/ci"
    local status=${PIPESTATUS[0]}
    awk '/^rt: must-fail .*: refused, as it must be/ {
            all++
            if (/`[a-z_]+[^`]*`(\)|: )(; t|[^;]|$)/) n++; else if (/`\); `/) lost++; else cut++
        }
        END { printf "edits: %d refused: %d refuted, %d lost, %d not told\n", all, n, lost, cut }
    ' "$work/ci"
    tail -n 1 "$work/ci"
    return "$status"
}

# Tries deliberate bugs: [WORD..]
bugs() {
    [ ! -e "$work/is-over-ci" ] || set -- --over-ci "$@"
    python3 scripts/bugs.py "$@"
}

# Tries misuse over what `rt ci` built: it wants libraries that are newer than the sources, and a
# kept proof is older.
misuse() {
    find crates -path '*/out/*/format' -exec sed -i '' {} +
    bash misuse/check.sh
}

# (each proof gets one processor: rt ci would give it a second where one is free, which takes a fifth
# more of them; as many run at a time as there are processors, and memory at 4 GB each)
limits=(/sys/fs/cgroup/{memory.max,memory/memory.limit_in_bytes})
lanes=$(cat /proc/meminfo "${limits[@]}" 2>/dev/null | awk -v all="$(nproc)" '
    /^MemAvailable:/ { n = int($2 / 4e6) }
    /^[0-9]+$/ && $1 < n * 4e9 { n = int($1 / 4e9) }
    END { print n < 1 ? 1 : n < all ? n : all }')

step bugs.txt python3 scripts/bugs.py --list
step pages python3 scripts/pages.py
step api python3 scripts/api.py --check
step clauses python3 scripts/clauses.py
step tests bash scripts/tests.sh
step 'rt ci' prove
step bugs bugs ${1:+--record --all}
step program python3 scripts/program.py
step misuse misuse
step vendor bash scripts/vendor_check.sh "$@"
step snippets python3 scripts/snippets.py
if [ "${WITHOUT_VALGRIND:-}" = yes ] && ! command -v valgrind >/dev/null; then
    ran+='count|'
    echo 'gate: count is passed over: there is no valgrind' >>"$work/shown"
else
    step count python3 bench/count.py
fi
for it in $(sed '/^#/d; s/|.*//; s/ /_/g' scripts/floors.txt | sort -u); do
    [[ "|$ran" = *"|${it//_/ }|"* ]] && continue
    echo "gate: ${it//_/ } has a row in floors.txt, and did not run" >>"$work/shown"
    failed=$((failed + 1))
done
finish $((failed > 0))
