"""Runs all tests without a proof: what scripts/tests.sh calls, with words of their names, or none.

The tests of tests/code are compiled as one program, and each is run in a process of its own; those
of tests/again.txt once more, in the way that stands there. Beside them scripts/cases.py plays the
cases of tests/cases, if no word is given. Prints a line for each folder of tests as it ends, the
output of each test that fails, and at the end how many passed and failed.
"""
import contextlib
import glob
import itertools
import os
import re
import resource
import subprocess
import sys
import tempfile
import time
from concurrent.futures import ThreadPoolExecutor

import cases
import lay_out
import try_kit
from lay_out import TOP

# How a test ends where std found no memory for a request of its own: as a `Fail` prints, or, of a
# test that returns an `AllocError`, as that does. A call of a cell answers Refusal::Memory.
OWN_ERRORS = {"error: AllocError", "Error: AllocError", "error: AllocFailed { .. }"}
OWN_ERRORS |= {"error: Kind(OutOfMemory)"}
SMALL_STACK = 64 * 1024
# What ends a test: its processors' time, and, as one that waits for what never comes uses none, so
# many looks, one a second, at which all its threads slept. On a busy machine neither comes sooner:
# a thread that wants a processor and gets none, or that is stopped, does not sleep.
SECONDS_OF_PROCESSORS = 60
LOOKS_ASLEEP = 60
# A test that can show nothing.
EMPTY = re.compile(r"#\[test\]\s*fn (\w+)\([^)]*\)[^{;]*\{(?:\s|//.*)*(?:Ok\(\(\)\))?\s*\}")


class Tally:
    """What is printed, with the seconds that it took, and how many tests passed and failed."""

    def __init__(self):
        self.begun, self.passed, self.failed = time.monotonic(), 0, 0

    def say(self, text):
        print(f"{time.monotonic() - self.begun:4.0f} s  {text}", flush=True)

    def count(self, name, complaint):
        """Counts a test, and prints it if there is a complaint."""
        self.passed += not complaint
        self.failed += bool(complaint)
        if complaint:
            self.say(f"failed {name}:\n{complaint}")


def limit(is_small):
    """Sets the limits of a process: no core file, some time, and perhaps a small stack."""
    resource.setrlimit(resource.RLIMIT_CORE, (0, 0))
    resource.setrlimit(resource.RLIMIT_CPU, (SECONDS_OF_PROCESSORS, SECONDS_OF_PROCESSORS))
    if is_small:
        resource.setrlimit(resource.RLIMIT_STACK, (SMALL_STACK, SMALL_STACK))


def ended(ran):
    """Waits until a process ends, or ends it. Returns its status, or why it has none."""
    asleep = 0
    while asleep < LOOKS_ASLEEP:
        with contextlib.suppress(subprocess.TimeoutExpired):
            return ran.wait(timeout=1)
        with contextlib.suppress(OSError):  # (a thread may end meanwhile)
            states = map(lay_out.read, glob.glob(f"/proc/{ran.pid}/task/*/stat"))
            asleep += all(") S " in it for it in states)
    ran.kill()
    ran.wait()
    return f"none, as all its threads slept at {asleep} looks, one a second"


def run_once(program, test, refuse=0, is_small=False):
    """Runs a test, with the request for memory of this number refused (0: none), or on a small
    stack. Returns its status, what it said, and whether a request was refused."""
    with tempfile.TemporaryFile() as told, tempfile.TemporaryFile() as said:
        tell = told.fileno()
        how = {"stdin": subprocess.DEVNULL, "stdout": said, "stderr": said, "pass_fds": [tell]}
        how["env"] = {"REFUSE": str(refuse), "TELL": str(tell)} if refuse else {}
        how["preexec_fn"] = lambda: limit(is_small)
        status = ended(subprocess.Popen([*program, test], **how))
        said.seek(0)
        return status, said.read().decode(errors="replace"), os.fstat(tell).st_size > 0


def refused_in_turn(program, test):
    """Runs a test until it asks for no more memory. It has to hold, or to end with the error of a
    request of its own. Returns a complaint, or None."""
    has_held = False
    for number in itertools.count(1):
        status, said, is_refused = run_once(program, test, refuse=number)
        if status and not (is_refused and OWN_ERRORS & set(said.splitlines())):
            return f"with request {number} refused: status {status}\n{said}"
        if not is_refused:
            break
        has_held = has_held or not status
    return None if has_held else f"each of the {number - 1} requests refused was the test's own"


def complaint_of(program, test, way):
    """Runs a test in a way: "once", or one of the list. Returns a complaint, or None."""
    if way == "refused":
        return refused_in_turn(program, test)
    if way not in ("once", "small"):
        return f"tests/again.txt: no way is named {way}"
    status, said, _ = run_once(program, test, is_small=way == "small")
    return f"status {status}\n{said}" if status else None


def build(told, room, words):
    """Lays the tests out, those of one module if the words name it, and compiles them. Returns the
    words by which the program is called, or None, and what the compiler said."""
    modules = {word.split("::")[0].removesuffix("_unsync") for word in words}
    named = [it for it in modules if lay_out.texts_of(it)]
    lay_out.lay_out(f"{room}/project", [*named, "checks"] if named else None)
    told.say("compiling, about a minute")
    refuses = try_kit.compiled(f"{TOP}/scripts/refuse.c", f"{room}/refuse.o")
    return try_kit.built(f"{room}/project", "tests", [refuses], f"{room}/built")


def listed(program, sources):
    """Returns the names of the tests that the program lists, and a complaint if these texts have
    more, as one to be ignored, or to panic, is not listed, and nothing would run it; or if the body
    of one is empty."""
    how = {"env": {}, "stdout": subprocess.PIPE, "text": True, "check": True}
    every = re.findall(r"^(.*): test$", subprocess.run([*program, "--list"], **how).stdout, re.M)
    texts = "".join(map(lay_out.read, glob.glob(f"{sources}/**/*.rt", recursive=True)))
    wanted, empty = len(re.findall(r"(?m)^ *#\[test\]", texts)), EMPTY.findall(texts)
    lost = f"the texts have {wanted} tests, {empty} with no body; the program lists {len(every)}"
    return every, lost if empty or wanted != len(every) else None


def chosen(every, words):
    """Returns (group, test, way) for each run that the words choose of these tests."""
    runs = [(it.split("::")[0], it, "once") for it in every]
    again = lay_out.read(f"{TOP}/tests/again.txt").split("\n")
    for way, it in (line.split() for line in again if line and not line.startswith("#")):
        # (of a test that was left out, as the words name another module, no run is wanted)
        if not words or it in every:
            runs.append((f"again, {way}", it, way))
    return [it for it in runs if not words or any(word in it[1] for word in words)]


def run(program, runs, told):
    """Runs the tests, as many side by side as there are processors, and tells of each group."""
    with ThreadPoolExecutor(len(os.sched_getaffinity(0))) as pool:
        begun = [(*it, pool.submit(complaint_of, program, *it[1:])) for it in runs]
        for group, tests in itertools.groupby(begun, key=lambda it: it[0]):
            passed, failed = told.passed, told.failed
            for _, test, way, ended in tests:
                told.count(test if way == "once" else f"{test}, {way}", ended.result())
            told.say(f"{group}: {told.passed - passed} passed, {told.failed - failed} failed")


def add_cases(played, told):
    """Waits until the cases are played, which say what did not come out right, and counts them."""
    passed, failed = played.result()
    told.passed, told.failed = told.passed + passed, told.failed + failed
    told.say(f"cases: {passed} passed, {failed} failed")


def main(words):
    told, beside = Tally(), ThreadPoolExecutor(1)
    played = None if words else beside.submit(cases.run, [])
    for it in [] if words else lay_out.formatted():
        told.count(f"tests/{it}", "not as `python3 scripts/lay_out.py --format` writes it")
    with tempfile.TemporaryDirectory(prefix="tests-") as room:
        program, said = build(told, room, words)
        every, lost = listed(program, f"{room}/project/crates/tests/src") if program else ([], None)
        runs = chosen(every, words) if program else []
        if lost:
            told.count("the list of tests", lost)
        if runs:
            told.say(f"compiled: {len(runs)} runs of tests")
            run(program, runs, told)
        else:
            told.count("the tests", f"{said}\nnot each test ran in each way")
    if played:
        add_cases(played, told)
    print(f"{told.passed} passed, {told.failed} failed")
    return 1 if told.failed else 0


if __name__ == "__main__":
    sys.exit(main(sys.argv[1:]))
