#!/usr/bin/env python3
"""Runs the built `cellrun`, and has it proved and built first if a source is newer.

Plays the scripts of program.txt and the calls of its usage, gives it arguments, refuses each
request for memory in turn, and has it read and write streams that are closed, full, interrupted,
fail, or come by parts: what the proof of `script` does not say. What is wanted is worked out by
hand from CALLING.md. Prints each case that failed, and last 'N passed, M failed'; the status is 0
if none failed.
"""
import contextlib
import fcntl
import itertools
import os
import pty
import re
import signal
import socket
import struct
import subprocess
import sys
import tempfile
import time

import try_kit
from lay_out import TOP, read

PROGRAM = try_kit.program_of("cellrun")
# How long the cases of one kind may take.
SECONDS = try_kit.by_the_clock(60)
# Answers that are longer together than the pipes and sockets below hold.
LONG = b"set -9223372036854775808\n" + 1_300 * b"debug\n"
ANSWERS = b"done\n" + 1_300 * b"AsyncCell::Full(-9223372036854775808)\n"
COUNTS = {True: 0, False: 0}


def same(name, got, wanted):
    """Counts the case, and prints it if what came is not what is wanted."""
    COUNTS[got == wanted] += 1
    if got != wanted:
        print(f"failed {name}\n  wanted {str(wanted)[:400]}\n  got    {str(got)[:400]}")


def start(**streams):
    """Starts the program, with pipes for the streams that are not given."""
    pipes = dict.fromkeys(("stdin", "stdout", "stderr"), subprocess.PIPE)
    return subprocess.Popen([PROGRAM], bufsize=0, **{**pipes, **streams})


def send(program, text):
    """Sends the bytes, also where nobody reads them any more."""
    with contextlib.suppress(BrokenPipeError):
        program.stdin.write(text)


def ended(program, written=None):
    """What the program wrote last, or what is given, its standard error and its status."""
    if program.stdin:
        program.stdin.close()
    written = program.stdout.read() if written is None else written
    return written, program.stderr.read(), program.wait()


def run(script, command=(PROGRAM,)):
    """What the program writes for the script, its standard error and its status."""
    ran = subprocess.run(command, input=script, capture_output=True)
    return ran.stdout, ran.stderr, ran.returncode


def scripts():
    """The cases of program.txt, whose head says how they are written, and CALLING.md's example."""
    text = re.sub(r"(?m)^#.*\n", "", read(f"{TOP}/scripts/program.txt")).replace("\n  ", " ")
    found = re.findall(r"^(.*)\n-> ?(.*?)(?: ?! (\d+))?$", text, re.MULTILINE)
    same("the lines of program.txt, two a case", text.count("\n"), 2 * len(found))
    for script, printed, bad in found:
        given, wanted = ("".join(f"{it}\n" for it in said.split(" / ") if it).encode()
                         for said in (script, printed))
        given = re.sub(rb"(^|\n)\$\n\Z", b"", given)
        told = f"bad line {bad}\n".encode() if bad else b""
        same(script, run(given), (wanted, told, 2 if bad else 0))
    page = read(f"{TOP}/crates/cellrun/CALLING.md")
    example = r"(?s)```text\n(take .*?)```\n\nStandard error is `(.*?)`"
    table, told = re.search(example, page).groups()
    wanted = "".join(f"{it}\n" for it in re.findall(r"  +(.*)", table))
    got = run(re.sub(r"  +.*", "", table).encode())
    same("CALLING.md's example", got, (wanted.encode(), f"{told}\n".encode(), 2))


def failing_streams():
    """Streams that are closed, full or a folder: nothing is written, and the status is this."""
    for redirected, script, status in [
        (">&-", b"own\n", 1), (">/dev/full", b"own\n", 1), (">/dev/full", b"own\nsett\n", 1),
        (">/dev/full", b"own", 1), (">/dev/full", b"\n", 0), (">&-", b"\n", 0),
        ("2>&-", b"sett\n", 2), ("2>/dev/full", b"sett\n", 2), ("--help 2>&-", b"", 2),
        ("--help 2>/dev/full", b"", 2), ("<&-", b"", 1), ("</", b"", 1),
    ]:
        got = run(script, ("bash", "-c", f'exec "$0" {redirected}', PROGRAM))
        same(f"{redirected} {script}", got, (b"", b"", status))


def readers_that_leave():
    """The other end of standard output is closed after so many answers."""
    for answers, rest, wanted in [
        *((it, b"own\n", (b"", 1)) for it in range(4)), (1, b"", (b"", 0)), (1, b"\n", (b"", 0)),
        (1, b"sett\n", (b"bad line 2\n", 2)), (1, b"own\nsett\n", (b"", 1)), (1, b"own", (b"", 1)),
    ]:
        program = start()
        for _ in range(answers):
            send(program, b"is_set\n")
            same("an answer", program.stdout.readline(), b"false\n")
        program.stdout.close()
        send(program, rest)
        same(f"closed after {answers}, {rest}", ended(program, b"")[1:], wanted)


def wait_for_state(program, wanted):
    """Waits until the system says that the program sleeps (S) or is stopped (T)."""
    while f") {wanted} " not in read(f"/proc/{program.pid}/stat"):
        time.sleep(0.002)


def interrupt(program):
    """Stops the program where it sleeps in a call to the system, and continues it."""
    wait_for_state(program, "S")
    program.send_signal(signal.SIGSTOP)
    wait_for_state(program, "T")
    program.send_signal(signal.SIGCONT)


def patient_pair(option):
    """Two sockets: a stop while a call on the second waits makes it fail as interrupted."""
    ours, theirs = socket.socketpair()
    theirs.setsockopt(socket.SOL_SOCKET, option, struct.pack("ll", 3 * SECONDS, 0))
    theirs.setsockopt(socket.SOL_SOCKET, socket.SO_SNDBUF, 4_096)
    return ours, theirs


def small_pipe(is_patient):
    """A pipe that holds 4,096 bytes. A write that finds it full waits, or fails."""
    read, write = os.pipe()
    fcntl.fcntl(write, fcntl.F_SETPIPE_SZ, 4_096)
    os.set_blocking(write, is_patient)
    return read, write


def rest_of(stream):
    """All that is left in the stream, whose other end nobody holds any more."""
    with os.fdopen(stream, "rb") as file:
        return file.read()


def interrupted_streams():
    """A read is interrupted, at the start of a line and in its midst, and a write that waits."""
    ours, theirs = patient_pair(socket.SO_RCVTIMEO)
    program = start(stdin=theirs)
    for text, answer in ((b"own\n", b"owners 2\n"), (b"own\nen", b"owners 3\n")):
        ours.send(text)
        same("an answer before", program.stdout.readline(), answer)
        interrupt(program)
    ours.send(b"d\n")
    ours.close()
    same("interrupted reads", ended(program), (b"owners 2\n", b"", 0))
    ours, theirs = patient_pair(socket.SO_SNDTIMEO)
    program = start(stdout=theirs)
    theirs.close()
    send(program, LONG)
    program.stdin.close()
    for _ in range(3):
        interrupt(program)
    same("interrupted writes", ended(program, rest_of(ours.detach())), (ANSWERS, b"", 0))


def writes_that_fail():
    """Standard output is full, or is closed, in the midst of the answers: nothing comes later."""
    for filling, script, wanted in [(b"", LONG, ANSWERS[:4_096]), (4_096 * b"x", b"own\n", b"")]:
        read, write = small_pipe(False)
        os.write(write, filling)
        program = start(stdout=write)
        send(program, script)
        program.wait()
        filled = os.read(read, len(filling))
        send(program, b"own\n")
        os.close(write)
        same(f"a full pipe of {len(filled)} bytes", ended(program, rest_of(read)), (wanted, b"", 1))
    read, write = small_pipe(True)
    program = start(stdout=write)
    os.close(write)
    send(program, LONG)
    text = os.read(read, 1_000)
    wait_for_state(program, "S")
    os.close(read)
    same("closed in the midst", ended(program, text), (ANSWERS[:1_000], b"", 1))


def reads_by_parts():
    """Each answer is there before more is sent, whatever part of a line is there too."""
    program = start()
    for part, answer in [
        (b"own\n\ne", b"owners 2\n"), (b"nd\nset ", b"owners 1\n"), (b"-5\n\n\ntry", b"done\n"),
        (b"_get\n", b"some -5\n"), (b"get 1\n", b"ready -5\n"),
    ]:
        send(program, part)
        same(f"after {part}", program.stdout.readline(), answer)
    for start_of_line in (b"sett\n", b"set " + 61 * b"0"):
        program = start()
        send(program, b"own\n" + start_of_line)
        same("a bad line, and the input stays open", program.wait(), 2)
        same("what it printed", ended(program), (b"owners 2\n", b"bad line 2\n", 2))
    read, write = os.pipe()
    os.set_blocking(read, False)
    os.write(write, b"own\nen")
    same("a read that fails", ended(start(stdin=read)), (b"owners 2\n", b"", 1))
    ours, theirs = pty.openpty()
    os.write(ours, b"own\x04\x04own\n")
    same("the end of a terminal", ended(start(stdin=theirs)), (b"owners 2\n", b"", 0))


def memory():
    """A long input takes no more memory than a short one."""
    peaks = []
    for lines in (2_000, 40_000):
        program = start(stdout=subprocess.DEVNULL)
        send(program, b"set -9223372036854775808\n" + lines * b"debug\n")
        wait_for_state(program, "S")
        peaks.append(int(re.search(r"VmHWM:\s+(\d+)", read(f"/proc/{program.pid}/status"))[1]))
        same("it ends", ended(program, b""), (b"", b"", 0))
    same("at most a megabyte more", peaks[1] - peaks[0] <= 1_024, True)


def no_memory():
    """Each request for memory is refused in turn. A poll that would add a waker may be refused; or
    the run ends with status 1, the first answers written whole. It may have written nothing only if
    its request comes before one with answers before it: later ones may not lose these."""
    calls = b"take 1\ntake 1\nget 2\ntake 1\nset 7\nget 3\ntry_take\ntry_take\n"
    four, rest = 4 * b"pending\n", b"ready 7\nsome 7\nnone\n"
    every = (0, four + b"done woke 1 2\n" + rest)
    refused = (0, four[:16] + b"refused memory\n" + four[24:] + b"done woke 1\n" + rest)
    seen, is_refused = [], True
    with tempfile.TemporaryDirectory() as room:
        refuse = try_kit.compiled(f"{TOP}/scripts/refuse.c", f"{room}/refuse.so", "-DPRELOADED")
        for number in itertools.count(1):
            with tempfile.TemporaryFile() as told:
                env = {"LD_PRELOAD": refuse, "REFUSE": f"{number}", "TELL": f"{told.fileno()}"}
                ran = subprocess.run([PROGRAM], input=calls, stdout=subprocess.PIPE,
                                     stderr=subprocess.STDOUT, env=env, pass_fds=[told.fileno()])
                is_refused = os.fstat(told.fileno()).st_size > 0
            seen.append((ran.returncode, ran.stdout))
            if not is_refused:
                break
    allowed = {every, refused, (1, four), (1, b"")}
    for number, ended in enumerate(seen, 1):
        same(f"request {number} is refused: {ended}", ended in allowed, True)
        allowed -= {(1, b"")} if ended in (refused, (1, four)) else set()
    same("no request is refused", seen[-1], every)
    same("a poll and an answer found none", {refused, (1, four)} <= {*seen}, True)


def usage():
    """Arguments are refused, and each call prints on each cell what the usage says of it."""
    source = read(f"{TOP}/crates/cellrun/src/main.rt")
    text = re.search(r'USAGE: &str = "\\\n(.*?)";', source, re.DOTALL)[1]
    for arguments in (["--help"], ["program.txt"], [""], [b"\xff"], ["-", "-"]):
        got = run(b"own\nsett\n", (PROGRAM, *arguments))
        same(f"arguments {arguments}", got, (b"", text.encode(), 2))
    calls = re.findall(r"^  (\S.*?)  +([^;\n]+)", text, re.MULTILINE)
    same("the calls of the usage", len(calls), 16)
    for call, results in calls:
        texts = re.sub(r"\b[XN]\b", "-?[0-9]+", re.escape(results))
        for before in ("", "set 5\n", "own\n", "end\n"):
            script = before + re.sub(r"\b[VW]\b", "1", call)
            line = run(script.encode())[0].decode().split("\n")[-2]
            is_listed = any(re.fullmatch(it, line) for it in re.split(r",\\ or\\ |,\\ ", texts))
            same(f"{script!r} prints {line!r}", is_listed, True)


def late(*_):
    raise TimeoutError("it does not end")


def main():
    """Runs all, each in turn: one that does not end has failed, and the others go on."""
    signal.signal(signal.SIGPIPE, signal.SIG_IGN)
    signal.signal(signal.SIGALRM, late)
    for check in (
        scripts, usage, failing_streams, readers_that_leave, interrupted_streams, writes_that_fail,
        reads_by_parts, memory, no_memory,
    ):
        signal.alarm(SECONDS)
        try:
            check()
        except (OSError, ValueError, IndexError) as why:
            same(check.__name__, repr(why), "no error")
    print(f"{COUNTS[True]} passed, {COUNTS[False]} failed")
    sys.exit(bool(COUNTS[False]) or not COUNTS[True])


main()
