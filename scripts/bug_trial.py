"""Tries deliberate bugs: has the prover check copies of crates with bugs put in.

It works on a copy, whose crates `rt ci` proves first, or over the crates that the gate's `rt ci` has
just proved. A crate is then checked with bugs, from nothing, over the libraries that were built
there. A bug changes the body of one function
and no contract, so bugs of many functions share a check: the first of each function the first, the
second of each the second. Other functions are passed over there, but those that they call and that
have proof files. A bug is refused if the prover complains of its function, at a line of it or in a
file of its proof. One of which a check says nothing is tried in a check of its own, which reads all
that its function calls. If that comes to no verdict, or if the bug changes more than a body, it is
tried alone: the whole crate is checked, and any complaint is about it. Prints a line for each check
and each bug.
"""
import glob
import os
import re
import shutil
import subprocess
import tempfile
from collections import Counter
from concurrent.futures import ThreadPoolExecutor

from bug import FN, above_of, groups_of, with_files
from lay_out import READ, TOP, lay, reached, read, uses_of, write
from try_kit import KIT

PARTS = ("src", "specs", "proofs")
# Runs a command that can write to no file. So a check saves nothing, and offers no proof files for
# what is not proved: to make them takes a tenth of its time.
UNSAVED = ["sh", "-c", 'trap "" XFSZ; ulimit -f 0; exec "$@"', "sh"]
# A complaint of the prover: a line, and what is below it. What it says of a function: at a line of
# it, or in a file of its proof. That such a file names what a bug took away, or that a limit of
# steps was met, says nothing of a contract (that `search` gave up is what it says of most clauses
# that are false).
SAID = re.compile(r"^(?:note: |fn |\./|proofs/).*\n(?:[ \t].*\n)*", re.M)
TOLD = re.compile(
    r"note: (?:\./)?(?P<file>src/\S+?):(?P<line>\d+):\d+: it is not proved .*"
    r"|(?:\./)?proofs/(?P<of>\S+)/\w+\.antt:\d+:\d+: error: `(?P<goal>[^`]*)`: .*"
    r"|fn \S+: no proof: expected a measure in (?:\./)?proofs/(?P<loop>\S+)/\w+\.antt.*"
)
TAKEN = re.compile(r"has no field|is not in scope|has no `|was not admitted")
LIMIT = re.compile(r"(step|resource) limit")
UNREAD = re.compile(r"^(?:\./)?(?P<file>src/\S+?):(?P<line>\d+):\d+: error.*", re.M)


def proved_in(folder, bugs):
    """Returns the bugs that can be of the function whose proof is in a folder below proofs/. Where
    bugs of two functions of its name are tried, that is told by the file. The folder is named by
    the type, so a function may stand in another file."""
    module, name = os.path.split(folder)
    named = [it for it in bugs if it.is_of(name)]
    return [it for it in named if it.is_in(module)] or named


def with_below(names):
    """Returns crates and those of the repository that they stand on."""
    uses = uses_of(".")
    return reached(names, lambda name: [it for it in uses[name] if it in uses])


def run(folder, *command):
    """Runs a command in a folder, and returns its status, what it said, and the seconds that
    processors took for it."""
    with subprocess.Popen(command, cwd=folder, errors="replace", **READ) as ran:
        said = ran.stdout.read()
        _, status, usage = os.wait4(ran.pid, 0)
        ran.returncode = os.waitstatus_to_exitcode(status)
    return ran.returncode, said, usage.ru_utime + usage.ru_stime


def command(proved, crate):
    """Returns the command that checks a crate over the libraries that were built in a folder."""
    root = "main" if os.path.isfile(f"crates/{crate}/src/main.rt") else "lib"
    words = [*UNSAVED, f"{KIT}/bin/rattle", "check", "--crate-name", crate, f"src/{root}.rt"]
    words += ["--antt-project", f"{KIT}/rattle/logic/antt-project.json"]
    words += ["--logic-built", f"{KIT}/logic_built", "--jobs", "1"]
    uses = uses_of(".")
    folders = {it: f"{proved}/crates/{it}/out/rlib" for it in with_below([crate]) - {crate}}
    for it in (f"{KIT}/rlibs", *sorted(folders.values())):
        words += ["-L", f"dependency={it}"]
    for it in ("std", *uses[crate]):
        words += ["--extern", f"{it}={folders.get(it, f'{KIT}/rlibs')}/{it}.rlib"]
    return words


def sources_of(folder):
    return glob.glob(f"{folder}/src/**/*.rt", recursive=True)


def pass_over_others(folder, bugs):
    """Has the prover pass over the functions in this folder, but those of a name that has one of
    these bugs, or proof files, or that a function with proof files calls: these are not read before
    that is proved. An attribute is put into a line, so that none moves."""
    has_files = with_files(folder)
    kept = has_files | {it[0] for bug in bugs for it in bug.functions if it}
    texts = {it: read(it).split("\n") for it in sources_of(folder)}
    for lines in texts.values():
        name = None
        for line in lines:
            name = FN.match(line)[2] if FN.match(line) else name
            kept |= {*re.findall(r"\b(\w+)\(", line)} if name in has_files else set()
    for path, lines in texts.items():
        for at, found in enumerate(map(FN.match, lines)):
            if found and found[2] not in kept:
                tactics = [it for it in above_of(lines, at) if "#[tactic(" in lines[it]]
                for it in tactics:
                    lines[it] = f"{found[1]}#[tactic(none)]"
                if not tactics:
                    lines[at] = f"{found[1]}#[tactic(none)] {lines[at].lstrip()}"
        write(path, "\n".join(lines))


def only(proved, bugs):
    """Returns the words by which a check is of the functions with these bugs, and of those that
    they call: all of such a name, where none is in the bug's file. Returns none where some cannot
    be found, as of a program, of which no library was built."""
    crate, asked = bugs[0].crate, []
    built = f"{proved}/crates/{crate}/out/rlib/{crate}.rlib/toolchain/checked.json"
    text = read(built) if os.path.isfile(built) else ""
    paths = re.findall(rf'"part/Rattle-{crate}-proofs\.([^"]+)\.Code"', text)
    traits = re.findall(r"\btrait (\w+)", "".join(map(read, sources_of(f"crates/{crate}"))))
    # (not closures, nor functions that a trait declares)
    paths = [it.split(".") for it in paths]
    paths = [it for it in paths if "fn" not in it and not {*it[-2:-1]} & {*traits}]
    for bug in bugs:
        named = [it for it in paths if bug.is_of(it[-1])]
        found = [it for it in named if bug.is_in("/".join(it[:-1]))] or named
        if not found:
            return []
        asked += ["::".join(it) for it in found]
    return [word for it in dict.fromkeys(asked) for word in ("--only", it)]


def checked(proved, bugs, kept="files", is_put_in=True):
    """Checks a crate with these bugs, or without. What is read beside their functions is what these
    call and has "files", all "calls", or the whole "crate". Returns whether it is proved too, what
    is told of functions (nothing if it came to no verdict), and what cannot be read."""
    crate, is_alone = bugs[0].crate, kept == "crate"
    with tempfile.TemporaryDirectory(prefix="bugs-") as room:
        for it in (it for it in PARTS if os.path.isdir(f"crates/{crate}/{it}")):
            shutil.copytree(f"crates/{crate}/{it}", f"{room}/{it}")
        for it in bugs if is_put_in else ():
            it.apply(f"{room}/{it.file}", f"{room}/{it.file}")
        if kept == "files":
            pass_over_others(room, bugs)
        words = [] if is_alone else only(proved, bugs)
        status, said, seconds = run(room, *command(proved, crate), *words)
        if words and status == 2:
            # (it knows no function of such a name: then it checks all)
            print(f"{crate}: {said.strip()[-300:]}\n", end="", flush=True)
            status, said, seconds = run(room, *command(proved, crate))
    of = f"`{bugs[0].name}` and its {kept}" if kept != "files" else f"{len(bugs)} bugs"
    print(f"{crate}: a check of {of} took {seconds:.0f} s of processors\n", end="", flush=True)
    # (a function that is passed over may leave something undetermined)
    unread = [it for it in UNREAD.finditer(said) if is_alone or any(bug.is_at(it) for bug in bugs)]
    is_judged = status == 1 and re.search(r"^(logic=not-proved|only=)", said, re.M) and not unread
    all_said = [(it[0], TOLD.match(it[0])) for it in SAID.finditer(said if is_judged else "")]
    all_said = [it for it in all_said if it[1] and not LIMIT.search(it[0])]
    told = [it for text, it in all_said if not (it["of"] and TAKEN.search(text))]
    return not status, told, unread


def try_alone(proved, bug):
    """Tries a bug alone."""
    is_proved, told, unread = checked(proved, [bug], "crate")
    why = "the crate is still proved with it" if is_proved else None
    why = why or unread and f"it does not compile: {unread[0][0]}"
    why = why or not told and "the check came to no complaint about a contract"
    told = [it for it in told if bug.counts(it)]
    bug.judge(why or not told and f"no complaint was of the clause `{bug.clause}`", told)


def try_group(proved, bugs, kept="files"):
    """Tries bugs in one check, and those that cannot be read there, or of which it says nothing, in
    checks of their own, and last alone."""
    if None in bugs[0].functions:
        # (it is beside no other)
        return try_alone(proved, bugs[0])
    is_proved, told, unread = checked(proved, bugs, kept)
    left = [it for it in bugs if any(map(it.is_at, unread))]
    if left and len(left) < len(bugs):
        try_group(proved, [it for it in bugs if it not in left], kept)
    for bug, lines in () if left else [*told_of(bugs, told)]:
        bug.judge(None, lines) if lines else left.append(bug)
    for it in left:
        if kept == "files":
            try_group(proved, [it], "calls")
        elif is_proved:
            it.judge("its function is still proved with it")
        else:
            try_alone(proved, it)


def told_of(bugs, told):
    """Yields each bug, and what of this counts against it."""
    of = [proved_in(it["of"] or it["loop"] or "", bugs) for it in told]
    for bug in bugs:
        lines = [it for it, found in zip(told, of) if bug.is_at(it) or found == [bug]]
        yield bug, [it for it in lines if bug.counts(it)]


def is_told_without(proved, bugs):
    """Returns whether a check complains of the function of one of these bugs without any bug."""
    told = checked(proved, bugs, is_put_in=False)[1]
    found = [bug for bug, lines in told_of(bugs, told) if lines]
    for it in found:
        it.judge("its function is complained of without it, too")
    return bool(found)


def try_all(bugs, is_over_ci):
    """Tries bugs, as many checks at a time as there are processors. Proves their crates first, in a
    copy, but where `rt ci` has just proved them here, from nothing."""
    names = {it.crate for it in bugs}
    with tempfile.TemporaryDirectory(prefix="bugs-") as room:
        proved = TOP if is_over_ci else f"{room}/proved"
        if not is_over_ci:
            lay(proved, with_below(names))
            status, said, seconds = run(proved, "rt", "ci")
            print(f"the crates without a bug took {seconds:.0f} s of processors", flush=True)
            if status:
                print(f"{said[-3000:]}\nthe crates are not proved without a bug", flush=True)
                return
        groups = groups_of(bugs)
        # (that a complaint comes of a bug is seen by a check of one function with none put in)
        of_crate = Counter(it.crate for it in bugs)
        if is_told_without(proved, min(groups, key=lambda it: of_crate[it[0].crate])[:1]):
            return
        with ThreadPoolExecutor(len(os.sched_getaffinity(0))) as pool:
            [*pool.map(lambda it: try_group(proved, it), groups)]
