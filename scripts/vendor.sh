#!/usr/bin/env bash
# Takes crates into another project, as a crate can depend only on those of its own, and the kit's.
#
#     bash scripts/vendor.sh CRATE.. FOLDER          copies the crates, or adds further ones
#     bash scripts/vendor.sh --update FOLDER         brings what was copied on to the last release
#     bash scripts/vendor.sh --program NAME FOLDER   makes a program there, a copy of the reply slot
#     bash scripts/vendor.sh --proved FOLDER         lends the copy what `rt ci` has proved here
#     bash scripts/vendor.sh --to RELEASE ..         the first three, at this release or commit
#
# FOLDER is the project's `crates`. All of a copy is of one commit, which FOLDER/railyarrow/VERSION
# names: at first the last release that RELEASES does not call withdrawn. Only --update moves it,
# forward, if the last release is not withdrawn, and --to, anywhere. Crates come with those that
# they stand on, without deliberate bugs. A call finishes one that was cut off. It writes nothing if
# a file was changed, and tells which. It keeps its part of crates.txt; HANDLES and .gitignore are
# written, or what they lack is printed. By .gitattributes of a crate a call knows of which tree it
# was, and git keeps its lines. Over what --proved lends, a first `rt check` proves the project's
# own crates alone. `rt ci` ignores what was lent. Only copies of 0.4.0 or later can be lent it.
set -eu
[ "${BASH_VERSION:-}" ] || { echo 'vendor: call it by bash' >&2 && exit 2; }
set -o pipefail
unset TAR_OPTIONS POSIXLY_CORRECT CDPATH
top=$(cd "$(dirname "$(readlink -f "$0")")/.." && pwd)
work=$(mktemp -d) made=''
trap 'rm -rf "$work"; [ -z "$made" ] || rmdir "$made" 2>/dev/null' EXIT
kit=$(dirname "$(dirname "$(readlink -f "$(command -v rt)")")")
# The pages of a copy, as calls of 0.2.0 made it, and as it is made now.
old='GUIDE|DEFINITIONS' now='GUIDE|DEFINITIONS|PROMISES|CHANGELOG'
refuse() { printf 'vendor: %s\n' "$*" >&2 && exit 1; }
names_of() { sed -n 's/^\([a-z0-9_]*\):.*/\1/p' "$@"; }
git() { command git -c core.autocrlf=false --git-dir="$top/.git" "$@"; }

# The lines of a crates.txt for these crates, and for what they stand on of it: FILE CRATE..
lines_of() {
    local all='' more="${*:2}"
    while [ "$more" != "$all" ]; do
        all=$more
        more=$(sed -nE "/^(${all// /|}):/p" "$1" | tr -s ': ' '\n' | sort -u | paste -sd ' ')
    done
    sed -nE "/^(${all// /|}):/p" "$1" | sort
}

# Links of folders' pages that lead elsewhere than to those of the copy become plain words.
link() {
    find "$@" -maxdepth 1 -name '*.md' -exec sed -zEi "
        s,\]\((\.\./(\.\./)?)?(docs/)?(($pages)\.md),](../railyarrow/\4,g
        s,\[([^]]*)\]\((\.\./[^r]|[A-Z])[^)]*\),\1,g" {} +
}

# Lays out a tree of git, or these paths of it: FOLDER TREE [PATH..]
lay() {
    local why
    mkdir -p "$1"
    why=$({ git archive "${@:2}" | tar -x -C "$1"; } 2>&1) || refuse "$work: ${why%%$'\n'*}"
}

# Says in a crate of a copy of which tree it is: FOLDER CRATE TREE
mark() {
    [ "$pages" = "$old" ] || printf '# %s of tree %s\n* -text\n' "${@:2}" >"$1/.gitattributes"
}

# Lays out in $work a crate of a copy: NAME CRATE TREE
lay_crate() {
    local to=$work/$1/$2
    lay "$to" "$3"
    rm -rf "$to"/{bugs*,must-fail}
    mark "$to" "${@:2}"
    link "$to"
}

# Lays out in $work what a copy of these crates has: NAME COMMIT CRATE..
lay_out() {
    local it tree to=$work/$1
    mkdir -p "$to/railyarrow"
    git show "$2:crates.txt" >"$to.txt"
    lines_of "$to.txt" "${@:3}" >"$to.lines"
    [ ! -s "$to.lines" ] || lay "$to" "$2:crates" $(names_of "$to.lines")
    rm -rf "$to"/*/{bugs*,must-fail}
    git ls-tree "$2:crates" >"$to.trees"
    while read -r _ _ tree it; do
        [ ! -d "$to/$it" ] || mark "$to/$it" "$it" "$tree"
    done <"$to.trees"
    for it in LICENSE NOTICE CHANGELOG.md docs/{GUIDE,DEFINITIONS,PROMISES}.md; do
        [[ $it != *.md || ${it%.md} =~ ($pages)$ ]] || continue
        ! git cat-file -e "$2:$it" 2>/dev/null || git show "$2:$it" >"$to/railyarrow/${it#docs/}"
    done
    [ "$pages" = "$old" ] || echo '* -text' >"$to/railyarrow/.gitattributes"
    link "$to"/*/
    it=$(sed -En "s/^([^ ]+) $2 ([^ ]+).*/\1, for \2/p" "$work/releases")
    # (this clone may be of before the release: then a copy keeps its name)
    [ "$it" ] || [ "$2" != "$was" ] || it=$(tr -d '\r' <"$version" | sed -n 's/^version //p')
    printf 'version %s\ncommit %s\ncrates %s\n' "${it:-$(name_of "$2")}" "$2" "${*:3}" \
        >"$to/railyarrow/VERSION"
}

# The hash of a release or commit: NAME
commit_of() {
    local it
    it=$(awk -v it="$1" '$1 == it { print $2 }' "$work/releases")
    git rev-parse -q --verify "${it:-$1}^{commit}" ||
        refuse "$top has no $1, of VERSION or --to; git fetch (--unshallow) may get it." \
            "Its releases are $(sed 's/ .*//' "$work/releases" | paste -sd ' ')"
}

# Sets $target, the commit that the copy is to be of, or refuses, with the call that would move it.
decide() {
    local name last words why='' how='To go on'
    name=$(awk 'NF == 3 { it = $1 } END { print it }' "$work/releases")
    read -r last _ _ words <<<"$(tail -n 1 "$work/releases")"
    [ "$option" = --update ] || name=${was:-$name}
    target=$(commit_of "${to:-${name:-HEAD}}")
    if [[ $to || $target = "$was" ]]; then return; fi
    git merge-base --is-ancestor "${was:-$target}" "$target" ||
        why="this would go back to $name from $(name_of "$was")" how='To do so'
    [[ $name && ! ($was && $words) ]] || why="${last:-no release} is ${words:-there}" how='To go on'
    [ "$why" ] || return 0
    [[ ! $was || $(name_of "$was") = "$last"* ]] || withdrawn "$was"
    refuse "$why. $how: bash $0 --to ${name:-HEAD}$(printf ' %q' "${call[@]}")"
}

# Prints of which of these commits' releases it is told that they are withdrawn: COMMIT..
withdrawn() {
    local name
    for it in "$@"; do
        name=$(name_of "$it") && name=${name%% *}
        sed -n "s/^$name [^ ]* [^ ]* /# $name is /p" "$work/releases"
    done | uniq
}

# The release of a commit, or that before it and how many commits came after: COMMIT
name_of() {
    local name commit last=unknown
    while read -r name commit _; do
        ! git merge-base --is-ancestor "$commit" "$1" 2>/dev/null ||
            last="$name plus $(git rev-list --count "$commit..$1") commits"
    done <"$work/releases"
    last=${last% plus 0 *}
    echo "${last/% plus 1 commits/ plus 1 commit}"
}

# Whether a folder is as in $work/NAME, but for how lines end and for what was built in its own
# `out`; if not, $work/told says how it differs: NAME FOLDER
is_as() {
    local told
    told=$(cd "$folder" && {
        diff -rq --no-dereference --strip-trailing-cr "$work/$1/$2" "$2" 2>&1 |
            { if [ -d "$2/out" ]; then grep -vx "Only in $2: out"; else cat; fi; } || true
        [ ! -d "$2" ] || find "$2" -path "$2/out" -prune -o -type f ! -perm -u+w \
            -printf '%p is read-only\n'
    })
    echo "${told//"$work/$1"/"Railyarrow's"}" >"$work/told"
    [ -z "$told" ]
}

# Whether a folder is as a call made it, at VERSION's commit, or of its .gitattributes' tree: FOLDER
is_known() {
    local tree
    if [ -e "$work/was/$1" ] && is_as was "$1"; then return; fi
    tree=$(sed -n "s/^# $1 of tree //p" "$folder/$1/.gitattributes" 2>/dev/null) &&
        git cat-file -e "${tree:-none}^{tree}" 2>/dev/null &&
        lay_crate from "$1" "$tree" && is_as from "$1"
}

# Whether a folder was in a commit up to the copy's, by its .gitattributes' tree: FOLDER
is_older() {
    local tree
    tree=$(sed -n "s/^# $1 of tree //p" "$folder/$1/.gitattributes")
    git rev-list --full-history "$target" -- "crates/$1" | sed "s,$,:crates/$1," |
        git cat-file --batch-check='%(objectname)' | grep -x "${tree:-none}" >/dev/null
}

# Writes the part of crates.txt that is Railyarrow's, in place of what earlier calls had written or
# printed, and the line of a new program: PROGRAM
write_lines() {
    local twice ours begin="# Railyarrow's crates, by its vendor.sh:" end="# (They end.)"
    : >"$work/yours" && [ ! -e "$project/crates.txt" ] || cp "$project/crates.txt" "$work/yours"
    [ "$(grep -c "^$begin" "$work/yours")" = "$(grep -c "^$end" "$work/yours")" ] ||
        refuse "$project/crates.txt has no line '$end'"
    ours=$(sed 's/ / +/g; s/^/(# crates.txt has to have: )?/; s/$/ *\r?/' "$work"/*.lines)
    {
        echo "$begin" && cat "$work/to.lines" && echo "$end"
        sed "/^$begin/,/^$end/d; \$a\\" "$work/yours" | grep -vxE "$ours" || true
        [ ! -s "$work/program" ] || grep -q "^$1:" "$work/yours" || cat "$work/program"
    } >"$work/crates.txt"
    twice=$(names_of "$work/crates.txt" | sort | uniq -d | paste -sd ' ')
    [ -z "$twice" ] || refuse "$project/crates.txt has other lines for $twice: remove these"
}

# Moves the folders $todo of $work/to to their places; railyarrow, which has VERSION, comes last.
replace() {
    local it
    made=
    mkdir -p "$new"
    : >"$new/begun"
    rm -rf "$new/old" "$new/next"
    mkdir "$new/old"
    cp -r "$work/to" "$new/next"
    for it in "${todo[@]}"; do
        [ ! -e "$folder/$it" ] || mv "$folder/$it" "$new/old/"
        [ ! -e "$new/next/$it" ] || mv "$new/next/$it" "$folder/"
        [ ! -d "$new/old/$it/out" ] || [ ! -e "$folder/$it" ] ||
            mv "$new/old/$it/out" "$folder/$it/"
    done
}

# Writes HANDLES, if the sources or programs need one, and .gitignore, or prints what these and
# crates.txt lack: there, which names of crates are Railyarrow's, or were, and not the copy's.
settle() {
    local it words='' has=$project/HANDLES programs=("$folder"/*/src/main.rt)
    for it in Threads Wait; do
        grep -rqsE --include='*.rt' 'thread::(spawn|scope)' "${programs[@]%/*}" ||
            grep -rqw --include='*.rt' "$it" "$work/to" || continue
        words+="${words:+, }$it"
    done
    [ -s "$has" ] || [ -z "$words" ] || echo "Handles allowed: $words." >"$has"
    for it in ${words//,/}; do
        grep '^Handles allowed:' "$has" | grep -qw "$it" || echo "# HANDLES has to have: $it"
    done
    [ -s "$project/.gitignore" ] || echo 'out/' >"$project/.gitignore"
    tr -d '\r' <"$project/.gitignore" | grep -xE '(\*\*/|/?crates/\*/)?out/?' >/dev/null ||
        echo '# .gitignore has to have: out/'
    git show HEAD:crates.txt $(awk '{ print $2 ":crates.txt" }' "$work/releases") 2>/dev/null |
        names_of - "$work"/*.txt | grep -vxFf <(names_of "$work/crates.txt") >"$work/gone" || true
    git show HEAD:crates.txt >"$work/last.txt"
    sed 's/^#.*//' "$work/crates.txt" | grep -nowFf "$work/gone" | while IFS=: read -r words it; do
        words="# crates.txt: line $words names $it, which the copy has not"
        if grep -q "^$it:" "$work/to.txt"; then echo "$words"
        elif grep -q "^$it:" "$work/last.txt"; then echo "$words: it is of a later commit"
        else echo "$words: $top/CHANGELOG.md says what became of it"; fi
    done || true
}

# Sets $ours, the libraries that the copy is to be lent, or refuses: `rt ci` has to have built each
# here, from nothing, of the same files, by this toolchain.
decide_ours() {
    local it at built
    git grep -q -e --proved "$target" -- scripts/vendor.sh ||
        refuse "$(name_of "$target") can be lent nothing: --proved is for 0.4.0 and later"
    ours=$(for it in $(names_of "$work/to.lines"); do
        [ -e "$folder/$it/src/main.rt" ] || echo "$it" # Of a program it builds none.
    done)
    for it in $(sed 's,.*,&/src &/specs &/proofs,' <<<"$ours"); do
        [ -e "$top/crates/$it" ] || [ -e "$folder/$it" ] || continue
        diff -rq --no-dereference {"$top/crates","$folder"}/"$it" >/dev/null 2>&1 ||
            refuse "$top/crates/$it is not as the copy has it: check out its commit there"
    done
    ls "$top"/crates/*/out/rlib/*.rlib/format &>/dev/null ||
        refuse "nothing is proved in $top: first run \`rt ci\` there, which takes an hour"
    for it in $ours; do
        at=$top/crates/$it built=$top/crates/$it/out/rlib/$it.rlib
        # (`rt ci` makes the folder anew, also where a file in it was kept from an earlier run)
        [ ! -e "$at/out/rlib/stamp" ] && [ -e "$built/format" ] &&
            [ "$(sed -n 2p "$built/format")" = "$(sed -n 2p "$kit/rlibs/std.rlib/format")" ] &&
            [ -z "$(cd "$at" && find . -path ./out -prune -o -newer "$built" -type f -print)" ] ||
            refuse "what is built of $it in $top is not by \`rt ci\` of this toolchain, or is" \
                "older than the crate: run \`rt ci\` in a fresh clone of that commit"
    done
}

# Lends the copy those libraries. `rt` takes one as built by the sum in its stamp, which `rt ci`
# leaves out: these sums come from here, last. So what is cut off is not taken.
lend() {
    local it at ours
    decide_ours
    (cd "$project" && python3 -IBc "if True:
        import os, sys
        sys.path.insert(0, sys.argv[1])
        import rtlib
        for it in rtlib.crates_below(os.getcwd() + '/crates'):
            if it.folder == f'{os.getcwd()}/crates/{it.name}' and it.name in sys.argv[2:]:
                print(it.name, it.stamp())" "$kit/bin" $ours) >"$work/stamps"
    for it in $ours; do rm -f "$folder/$it/out/rlib/stamp"; done
    for it in $ours; do
        at=crates/$it/out/rlib
        rm -rf "${project:?}/$at"
        mkdir -p "$project/$at"
        cp -rl "$top/$at/$it.rlib" "$project/$at/" 2>/dev/null ||
            { rm -rf "$project/$at/$it.rlib" && cp -r "$top/$at/$it.rlib" "$project/$at/"; }
    done
    while read -r it at; do printf %s "$at" >"$folder/$it/out/rlib/stamp"; done <"$work/stamps"
    echo "# Lent: $(wc -w <<<"$ours") libraries. A first \`rt check\` there takes them as proved."
}

# Prints where a copy moved, and if a release, or that before a commit, is withdrawn or not for rt.
warn() {
    local kit has
    [ "${was:-$target}" = "$target" ] ||
        echo "# $(name_of "$was") became $(name_of "$target"): see $top/CHANGELOG.md."
    withdrawn $was "$target"
    kit=$(sed -n 's/^version .*, for //p' "$work/to/railyarrow/VERSION")
    has=$(rt version 2>/dev/null </dev/null | cut -d ' ' -f 1) || true
    [[ -z $has || ${kit:-$has} = "$has" ]] ||
        echo "# This release is for $kit, and rt is of $has, which may not find each proof."
    [ "$target" != "$(git rev-parse HEAD)" ] ||
        git --work-tree="$top" diff --quiet HEAD -- "$top/crates" ||
        echo "# $top has changes that are in no commit; they did not come along."
}

to='' option=''
[ "${1:-}" != --to ] || { to=${2:-"''"} && shift $(($# < 2 ? 1 : 2)); }
call=("$@")
case ${1:-} in --update | --program | --proved) option=$1 && shift ;; esac
form='^(--(update|proved)1|--program2|[2-9]|[1-9][0-9]+)$'
[[ $to$option != ?*--proved && $option$# =~ $form ]] ||
    { sed -n '4,8s/^# *//p' "$0" >&2 && exit 2; }
given=("${@:1:$#-1}") folder=$(realpath -ms "${@: -1}")
project=$(realpath -m "$(dirname "$folder")")
folder=$project/${folder##*/}
new=$folder/.railyarrow version=$folder/railyarrow/VERSION
[[ $folder = */crates && $folder/ != "$top"/* ]] ||
    refuse "$folder is not the folder 'crates' of a project of yours"
[[ $to =~ ^([0-9A-Za-z][0-9A-Za-z./_~^-]*)?$ ]] || refuse "no name of a release: $to"
git rev-parse -q --verify HEAD >/dev/null 2>"$work/why" ||
    refuse "$top is no clone with a commit, as a copy needs it: $(cat "$work/why")"
git show HEAD:RELEASES 2>/dev/null | sed '/^#/d' >"$work/releases" || true
for it in "$folder" "$version" "$project"/{crates.txt,HANDLES,.gitignore}; do
    [ "$(realpath -m "$it")" = "$it" ] || refuse "$it is a link"
    [ ! -e "$it" ] || [[ -d $folder && $it = "$folder" ]] || iconv -f utf-8 "$it" &>/dev/null ||
        refuse "$it is no text"
done
[ ! -e "$new" ] || [ -f "$new/begun" ] || rmdir "$new" 2>/dev/null ||
    refuse "$new is none that this script made"
[[ $option != --@(update|proved) || -e $version || -e $new/old/railyarrow ]] ||
    refuse "$folder has no copy of these crates"
[ -e "$folder" ] || made=$folder
mkdir -p "$folder" || refuse "$folder cannot be made"
exec 9<"$folder"
flock -w 10 9 || refuse "another call is at work in $folder"

# What a call that was cut off had moved away and not replaced, or built, comes back first.
for it in "$new"/old/*; do
    name=${it##*/}
    [ ! -e "$it" ] || [ -e "$folder/$name" ] || mv "$it" "$folder/"
    [ ! -d "$it/out" ] || [ -e "$folder/$name/out" ] || mv "$it/out" "$folder/$name/"
done

# What the copy was, and what it is to be. The rest was changed.
names=() todo=() copied='' was='' said='' gone='' changed='' pages=$old
if [ -e "$version" ]; then
    state='^(version .* )?commit ([0-9a-f]{40}) crates ([a-z0-9_][a-z0-9_ ]*)$'
    [[ $(tr -d '\r' <"$version" | paste -sd ' ') =~ $state ]] ||
        refuse "$version is damaged: take it from your repository's history"
    was=$(commit_of "${BASH_REMATCH[2]}") copied=${BASH_REMATCH[3]}
    read -ra names <<<"$copied"
    [ ! -e "$folder/railyarrow/CHANGELOG.md" ] || pages=$now
    lay_out was "$was" "${names[@]}"
    cp "$version" "$work/was/railyarrow/" # However it names that commit.
fi
case $option in '') names+=("${given[@]}") ;; --program) names+=(async_cell_sync) ;; esac
for it in "${names[@]}" "${given[@]}"; do
    [[ $it =~ ^[a-z][a-z0-9_]*$ ]] || refuse "no name of a crate: $it"
done
mapfile -t names < <(printf '%s\n' "${names[@]}" | awk '!seen[$0]++')
pages=$now
decide
lay_out to "$target" "${names[@]}"
for it in "${names[@]}"; do
    ! grep -q "^$it:" "$work/to.txt" || continue
    [[ " $copied " = *" $it "* ]] || refuse "no crate $it in $(name_of "$target"):" \
        "there are $(names_of "$work/to.txt" | paste -sd ' ')"
    gone+=" $it"
done
[ ! "$gone" ] || refuse "no crate$gone in $(name_of "$target"): in the line 'crates' of $version" \
    "take each out, or write the name that $top/CHANGELOG.md gives it, or go --to another release"
if [ "$option" = --program ]; then
    ! grep -qw -- "$1" <<<"$(sed 's/^#.*//' "$work/to.txt") railyarrow out std alloc" &&
        [ ! -e "$kit/rlibs/$1.rlib" ] ||
        refuse "a program cannot be named $1: a library or a crate has that name"
    if [ -d "$folder/$1/src" ]; then said="was there, and stays"; else
        [ ! -e "$folder/$1" ] || refuse "$folder/$1 is no crate"
        said='is a program now, a copy of the reply slot'
        lay_crate to "$1" "$(git rev-parse "$target:crates/example_reply_slot")"
        rm "$work/to/$1/.gitattributes"
    fi
    sed -n "s/^example_reply_slot:/$1:/p" "$work/to.txt" >"$work/program"
fi
for it in $({ ls "$work/to" && [ ! "$was" ] || ls "$work/was"
    sed -nE 's/^# ([a-z0-9_]+) of tree .*/\1/p' "$folder"/*/.gitattributes 2>/dev/null
} | sort -u); do
    [ ! -L "$folder/$it" ] || refuse "$folder/$it is a link"
    if [ -e "$work/to/$it" ] && is_as to "$it"; then continue; fi
    todo+=("$it")
    [ -e "$folder/$it" ] || continue
    is_known "$it" || changed+=$'\n'$(cat "$work/told")
    [ "$changed$was$to" ] || is_older "$it" ||
        refuse "$folder/$it is of a later commit than $(name_of "$target"): name it by --to"
done
[ -z "$changed" ] || refuse "nothing was written, for these are not as they were copied:$changed"

write_lines "$1"
[ ${#todo[@]} -eq 0 ] || replace
if ! cmp -s "$work/crates.txt" "$project/crates.txt"; then
    cp "$work/crates.txt" "$project/.crates.txt.new"
    mv "$project/.crates.txt.new" "$project/crates.txt"
fi
if [ -e "$new" ]; then rm -rf "$new/old" "$new/next" && rm -rf "$new"; fi
settle
[ ! "$said" ] || printf '# %s\n' "$folder/$1 $said. To run it, and to prove it:" \
    "(cd '$folder/$1' && rt try && rt check)"
[ "$option" != --proved ] || lend
warn
