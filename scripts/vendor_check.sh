#!/usr/bin/env bash
# Plays cases of vendor.sh, which are lines of vendor_cases.txt: those of the gate, cut off before
# every tenth command: other ones after each commit, so ten in a row try all. Then it runs README's
# first commands as they stand, and with --all those of examples/tokio, without a proof.
#
#     bash scripts/vendor_check.sh [--all [WORD]]   as root all, or those whose line holds the word
#
# Those commands copy the last release. Here they copy HEAD if it is withdrawn, or for another
# toolchain. HEAD needs no run of its own: each case wants all of its texts, and `rt ci` runs it.
# A shallow clone lacks the release: then this ends with the words of vendor.sh.
set -euo pipefail
top=$(cd "$(dirname "$0")/.." && pwd)
work=$(realpath "$(mktemp -d)") && room=$work/room
trap 'umount "$room"/* 2>/dev/null || true; rm -rf "$work"' EXIT
mkdir -m 1777 "$work/tmp" && chmod 755 "$work"
export TMPDIR=$work/tmp GIT_AUTHOR_DATE='@1 +0000' GIT_COMMITTER_DATE='@1 +0000' moves
two='async_cell_sync async_cell_within' few='async_cell_core async_cell_within'
need='async_cell_within: futures' lib=async_cell_core/src/lib.rt passed=0 failed=0 every=10
nobody='setpriv --reuid=65534 --regid=65534 --clear-groups env HOME=/none'
kit=$(rt version | sed 's/ .*//')
begin=$(($(git -C "$top" rev-list --count HEAD) % every))
[ "${1:-}" != --all ] || every=1 begin=0 all=yes

vendor() { ${as:-} bash "$clone/scripts/vendor.sh" "$@"; }
commit() {
    echo // newer >>"$clone/crates/$lib"
    git -C "$clone" -c user.name=a -c user.email=a@b commit -qam newer
}
# Makes a commit, and a release of it by a further one: NUMBER [withdrawn: WHY]
release() {
    commit && echo "$1 $(git -C "$clone" rev-parse HEAD) $kit${2:+ $2}" >>"$clone/RELEASES"
    commit
}

# Leaves in the clone what `rt ci` leaves of crates that it has proved, as far as vendor.sh looks:
# CRATE..
builds() {
    local it of
    of=$(dirname "$(readlink -f "$(command -v rt)")")/../rlibs/std.rlib/format
    for it in "$@"; do
        mkdir -p "$clone/crates/$it/out/rlib/$it.rlib"
        cp "$of" "$clone/crates/$it/out/rlib/$it.rlib/"
    done
}
# Whether `rt` takes a crate of the project as built: CRATE
is_built() {
    python3 -IBc "import os, sys; sys.path.insert(0, os.path.dirname(os.path.realpath('$(command -v rt)')))
import rtlib; sys.exit(not [it for it in rtlib.crates_below(os.getcwd()) if it.name == '$1' and it.is_built()])"
}

# All that is in the project, but for git's.
state() {
    find . -path ./.git -prune -o -printf '%y %m %p %l\n' -type f -exec sha256sum {} + | sort
}

# Whether the copy is what git has at a commit, or at the last release's: all files of what its
# crates stand on, but bugs; of pages the words; and the lines of crates.txt: [COMMIT]
is_whole() (
    mine=$PWD
    rm -rf "$room"/{all,has} && cp -r crates "$room/has" && git clone -qsn "$clone" "$room/all" &&
        cd "$room/all" && git checkout -q "${1:-HEAD^}" && mkdir copy copy/railyarrow || exit
    names=$(sed -n 's/^crates //p' ../has/railyarrow/VERSION)
    names=$(grep -E "^(${names// /|}):" crates.txt | grep -oE '[a-z_]+' | paste -sd '|')
    cp LICENSE NOTICE CHANGELOG.md docs/{DEFINITIONS,GUIDE,PROMISES}.md copy/railyarrow
    for it in $(ls crates | grep -xE "$names"); do cp -r "crates/$it" copy; done
    find copy \( -name 'bugs*' -o -name must-fail \) -prune -exec rm -r {} +
    find copy ../has -name '*.md' -exec sed -zEi 's/\]\([^)]*\)|[][]//g' {} +
    diff -r --no-dereference -x out -x mine -x VERSION -x .gitattributes copy ../has &&
        diff <(grep -E "^($names):" crates.txt | sort) <(grep -E "^($names):" "$mine/crates.txt") &&
        grep -x "commit $(git rev-parse HEAD)" ../has/railyarrow/VERSION
)

# Wants a call that ended anywhere to be finished by the next one, of this clone, at its release; or
# if that was a first copy, and VERSION was there, at that one: HOW CLONE CALL..
ends() {
    local at first=$clone
    cp -r . "$room/start"
    for ((at = begin; ; at += every)); do
        find . -mindepth 1 -delete && cp -r "$room/start/." . && clone=$first
        ! "$1" "$at" "${@:3}" &>/dev/null || break
        clone=$work/$2
        vendor "${@:3}" || return
        is_whole || { [ "$3" != --update ] && is_whole HEAD~3; } || return
    done
    [ "$at" != "$begin" ]
}
# Ends it before one of these commands in the project, once so many were made: NUMBER CALL..
cut() (
    counts() { [[ $* != *"$room/mine/"* ]] || ((moves-- > 0)) || kill -9 $$; } && export -f counts
    for it in mv cp rm mkdir; do
        eval "$it() { counts \"\$@\"; command $it \"\$@\"; }" && export -f "${it?}"
    done
    export room moves=$1 && vendor "${@:2}"
)
# Ends it and its children after some time, longer each time: NUMBER CALL..
killed() { timeout -s KILL "$((($1 + 1) ** 2 * 5))e-3" bash "$clone/scripts/vendor.sh" "${@:2}"; }

# Plays a case for one of its values: START BEFORE CALL WANTED
play() {
    local status=0 was told words
    umount "$room"/* 2>/dev/null || true
    rm -rf "$room" && mkdir -p "$room/mine" && cd "$room/mine" && clone=$work/1 || return
    [[ ! "$* $it" =~ \$clone|commit|release ]] ||
        { cp -r "$work/1" "$room/clone" && clone=$room/clone; }
    [ "$1" = new ] || cp -r "$work/$1/." .
    [ "$2" = - ] || eval "$2" &>"$room/before" || { cat "$room/before" && return 1; }
    was=$(state)
    told=$(eval "$3" 2>&1) || status=$?
    echo "$status: $told"
    [ "${4%% *}" != then ] || { eval "${4#* }" && return || return; }
    words=$(sed 's/^[a-z]* *//' <<<"${4//'$it'/$it}")
    [[ $told = *"$words"* ]] || return
    case ${4%% *} in
    same) [[ $status = 0 && $was = "$(state)" && ( $words || -z $told ) ]] ;;
    whole) [ "$status" = 0 ] && is_whole ;;
    refused) [[ $status != 0 && $told && $was = "$(state)" ]] ;;
    esac
}

# Three releases, of which the first was copied.
git clone -q "$top" "$work/0"
cp "$top/scripts/vendor.sh" "$work/0/scripts/"
echo '# None yet.' >"$work/0/RELEASES"
clone=$work/0 && release 0.1.0
for it in 1 2; do cp -r "$clone" "$work/$it" && clone=$work/$it && release "0.$((it + 1)).0"; done
mkdir "$work/old" && (cd "$work/old" && clone=$work/0 vendor $two crates)

while read -r line; do
    [[ $line != \#* && ( ${all:-} || $line = \** ) && $line = *"${2:-}"* ]] || continue
    mapfile -t field < <(sed 's/^\* //; s/ :: /\n/g' <<<"$line")
    eval "values=(${field[1]})"
    for it in "${values[@]}"; do
        if (play "${field[@]:2}") >"$work/said" 2>&1; then
            passed=$((passed + 1)) && echo "passed: ${field[0]}, ${it@Q}"
        else
            failed=$((failed + 1)) && echo "failed: ${field[0]}, ${it@Q}: $(tail -n 5 "$work/said")"
        fi
    done
done <"$top/scripts/vendor_cases.txt"
echo "vendor_check: $passed passed, $failed failed"
[ "$failed" = 0 ] || exit 1
[ $# -lt 2 ] || exit 0

# Runs commands of a page, with a folder of this script's as ~, and prints what they do: CALLS
runs() {
    (cd "$top" && bash -ec "${1//\~/$work}") 2>"$work/log" </dev/null | sed '/^# /d' ||
        { cat "$work/log" >&2 && exit 1; }
}
calls=$(grep -oE '(bash scripts/vendor.sh --program|cd ~/my_project/crates/)[^`]*' "$top/README.md")
[[ $(git -C "$top" show HEAD:RELEASES | tail -n 1) = *" $kit" ]] ||
    calls=${calls/vendor.sh/vendor.sh --to HEAD}
said=$(runs "$calls")
[ "$said" = 'the reply is 42' ] || { cat "$work/log" >&2 && exit 1; }
name=$(sed -n 's/^version //p' "$work/my_project/crates/railyarrow/VERSION")
if [ "${all:-}" ]; then
    runs "$(sed -n '/^```sh/,/^```$/{/^```/!p}' "$top/examples/tokio/README.md")" >"$work/output"
    diff "$work/output" "$top/examples/tokio/queue/stdout" || { cat "$work/log" >&2 && exit 1; }
    passed=$((passed + 1))
fi
echo "vendor_check: $passed passed, and a program of $name runs in a repository of its own: $said"
