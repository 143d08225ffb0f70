#!/usr/bin/env bash
# Tries what must not compile: `bash misuse/check.sh [TEXT..]` (none: all texts of this folder).
# The first line of a text names crates. For each of them it is a module of one more crate,
# `users`, and `crate` in it is that crate. One that begins with `//! In` may use what is private:
# it is a module of a copy of the crate itself. A line that ends in `//~ ERROR`, of which a text
# has at least one, has to be refused by that error, and no other line by any. An error of one
# kind hides those that are looked for after it: so functions that were refused are left out, and
# the rest is read again, until nothing is refused: then its tests have to pass. Over libraries
# that are built (by `rt ci`, say) the kit's compiler reads it, asked to check a function that is
# not there: it says so once it has read all. Else, and for tests, it is `rt try --test`, which
# takes six times as long. Prints what came of each line, and at the end how many passed and
# failed; the status is 0 if none failed.
set -u
top=$(cd "$(dirname "$0")/.." && pwd)
[ $# -gt 0 ] || set -- $(cd "$top/misuse" && basename -s .txt ./*.txt)
cd "$top/misuse" || exit 1
kit=$(dirname "$(dirname "$(readlink -f "$(command -v rt)")")")
work=$(mktemp -d)
trap 'rm -rf "$work"' EXIT
log=$work/log passed=0 failed=0

# A copy of the repository's sources, in which users can make a cell of any core.
mkdir -p "$work/crates/users/src"
cp "$top/HANDLES" "$work/"
git init -q "$work"
(cd "$top/crates" && cp -r --parents */src */specs */proofs "$work/crates/")
sed -i '/^pub struct AsyncCell/,/^}/s/pub(crate)/pub/' "$work"/crates/*/src/async_cell.rt
echo '//! Who uses the crates.' >"$work/crates/users/src/lib.rt"

# Adds a text for a crate, below a module with a test, since a try reads what has one: TEXT CRATE
add() {
    local to=users is="$2::"
    [[ $(head -n 1 "$1.txt") != '//! In '* ]] || { to=$2 && is=crate::; }
    local src=$work/crates/$to/src
    if mkdir "$src/misuse" 2>/dev/null; then
        printf '\nmod misuse;\n' >>"$src/lib.rt"
        printf '#[test]\nfn is_read() {}\n' >"$src/misuse.rt"
    fi
    sed "s/\bcrate::/$is/" "$1.txt" >"$src/misuse/$2__$1.rt"
    echo "mod $2__$1;" >>"$src/misuse.rt"
}

# Whether what the crate stands on is built. If so, `reads` are the words that read it: CRATE
is_over_built() {
    local it at
    reads=("$kit/bin/rattle" check --crate-name "$1" src/lib.rt --only "$1::misuse::no_function")
    reads+=(--antt-project "$kit/rattle/logic/antt-project.json" --logic-built "$kit/logic_built")
    reads+=(--jobs 1 -L "dependency=$kit/rlibs")
    for it in "$top"/crates/*/out/rlib; do reads+=(-L "dependency=$it"); done
    for it in $(sed -n "s/^$1:/core std /p" "$work/crates.txt" | tr ' ' '\n' | sort -u); do
        at=$top/crates/$it/out/rlib
        [ -d "$top/crates/$it" ] || at=$kit/rlibs
        [ "$at" = "$kit/rlibs" ] ||
            [ -z "$(find "$top/crates/$it/src" -newer "$at/$it.rlib/format" 2>&1)" ] || return 1
        reads+=(--extern "$it=$at/$it.rlib")
    done
}

# Reads a crate, and keeps its new errors, each as a module, a line and a name: CRATE COMMAND
read_with() {
    echo "misuse: reading $1, of which $(wc -l <"$work/errors") lines were refused"
    (cd "$work/crates/$1" && "${@:2}") >"$log" 2>&1 </dev/null
    status=$?
    sed -nE 's/.*src\/misuse\/(.*)\.rt:([0-9]*):[0-9]*: error\[([a-z0-9-]*)\].*/\1 \2 \3/p' \
        "$log" | sort -u >"$work/new"
    cat "$work/new" >>"$work/errors"
}

# Leaves out the functions that have been refused, so that the others keep their lines: FILE
leave_out() {
    awk -v module="$(basename -s .rt "$1")" '
        NR == FNR { if ($1 == module) refused[$2]; next }
        /^fn / { inside = 1; is_out = 0; held = blank = "" }
        inside { held = held $0 "\n"; blank = blank "\n"; if (FNR in refused) is_out = 1 }
        inside && /^}/ { inside = 0; printf "%s", is_out ? blank : held; next }
        !inside' "$work/errors" "$1" >"$work/left"
    cp "$work/left" "$1"
}

# Counts a line as passed or failed: 0 or 1, and what is said of it.
count() {
    if [ "$1" = 0 ]; then
        passed=$((passed + 1)) && echo "passed ${2/__/: }"
    else
        failed=$((failed + 1)) && echo "failed ${2/__/: }"
    fi
}

# Tries the texts that are modules of a crate: CRATE
try() {
    local it tests ran reads texts
    cd "$work/crates/$1/src/misuse" || exit
    texts=(*.rt)
    is_over_built "$1" || reads=(rt try --test -- misuse::)
    grep -n '//~' "${texts[@]}" /dev/null |
        sed -E 's/^(.*)\.rt:([0-9]*):.*\/\/~ /\1 \2 /' >"$work/wanted"
    : >"$work/errors"
    read_with "$1" "${reads[@]}"
    while [ -s "$work/new" ] && [ "$(sort "$work/errors" | uniq -d)" = '' ]; do
        for it in "${texts[@]}"; do leave_out "$it"; done
        read_with "$1" "${reads[@]}"
    done
    if [ "${reads[1]}" != try ] && grep -q '^#\[test\]' "${texts[@]}"; then
        read_with "$1" rt try --test -- misuse::
    fi
    while read -r it; do
        count "$(grep -qxF "$it" "$work/errors"; echo $?)" "$it"
    done <"$work/wanted"
    while read -r it; do count 1 "$it, which is not wanted"; done \
        < <(sort -u "$work/errors" | grep -vxFf "$work/wanted")
    # (a check that reads it all, and then looks for a function that is not there, found no error)
    ! grep -q "has no function .$1::misuse::no_function" "$log" || status=0
    for it in $(printf '%s\n' "${texts[@]%__*}" | sort -u); do
        tests=$(cat "$it"__*.rt | grep -c '^#\[test\]')
        ran=$(grep -c "^test misuse::${it}__.* ok$" "$log")
        [ "$status" -eq 0 ] && [ "$ran" = "$tests" ]
        count $? "$it: what is left passes its tests"
    done
    [ "$status" -eq 0 ] || tail -n 5 "$log"
}

for it in "$@"; do
    grep -q '//~ ' "$it.txt" || count 1 "$it: no line of it has to be refused"
    crates=$(head -n 1 "$it.txt" | grep -o 'async_cell_[a-z_]*') ||
        count 1 "$it: its first line names no crate"
    for crate in $crates; do add "$it" "$crate"; done
done
uses=$(sed -n '/^use std/d; s/^use \([a-z_]*\)::.*/\1/p' \
    "$work"/crates/users/src/misuse/*.rt | sort -u)
{ cat "$top/crates.txt" && echo users: $uses; } >"$work/crates.txt"
for it in "$work"/crates/*/src/misuse; do try "$(basename "${it%/src/misuse}")"; done
echo "$passed passed, $failed failed"
[ "$failed" -eq 0 ] && [ "$passed" -gt 0 ]
