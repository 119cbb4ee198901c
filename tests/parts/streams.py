"""Streams that fail or come in pieces: a failed read prints no answer, a failed or short write is reported, input in pieces is read to its end."""

import os
import signal
import socket
import subprocess
import tempfile
import time
from contextlib import contextmanager

from means.listing import show
from means.named import D, LONGEST, P_FILE, longest_translation, output, refused, split
from means.programs import HANGS, PAUSE, TIME_LIMIT, Programs, put_table
from means.transducer import table_file
from means.workers import spread

GROUP = "stream"
D_FILE = table_file(D)
P_LISTING = split(1, [1], [0], [1], [5], [6], 0)
SEEN_FILE = 13_203  # bytes of a file that are read
SEEN_WORD = 256  # codes of a word that are read

AGAIN = "Resource temporarily unavailable"
FOLDER = "Is a directory"
CLOSED = "Bad file descriptor"
FULL = "No space left on device"


def complaint(program, stream, error):
    """The line on standard error."""
    return f"{program}: {stream}: {error}\n".encode()


# --- standard input and output for a program: each is made for one start, and is a file or a number that subprocess takes -------------------------


@contextmanager
def pipe(*pieces, blocking=True):
    """A pipe that holds these pieces and that a writer keeps open."""
    reading, writing = os.pipe()
    os.set_blocking(reading, blocking)
    for piece in pieces:
        os.write(writing, piece)
    try:
        yield reading
    finally:
        os.close(reading)
        os.close(writing)


@contextmanager
def opened(path, flags):
    number = os.open(path, flags)
    try:
        yield number
    finally:
        os.close(number)


@contextmanager
def given(content):
    """A file with this content."""
    with tempfile.TemporaryFile() as file:
        file.write(content)
        file.seek(0)
        yield file


@contextmanager
def kept(stream):
    """A stream that someone else closes."""
    yield stream


@contextmanager
def nothing():
    """No such stream: the number is closed."""
    yield None


def folder():
    return opened(".", os.O_RDONLY)


def full_device():
    return opened("/dev/full", os.O_WRONLY)


def start(program, source, target=None):
    """What the program prints, and what it says on standard error; standard output is read here where no target is given."""
    with source as stdin, (target or nothing()) as stdout:
        closed = ([0] if stdin is None else []) + ([1] if target and stdout is None else [])
        child = subprocess.Popen([program], stdin=stdin, stdout=stdout if target else subprocess.PIPE, stderr=subprocess.PIPE,
                                 preexec_fn=lambda: [os.close(number) for number in closed])
        return finish(child)


def finish(child, *rest):
    """The end of a program that was started: what it printed and said."""
    try:
        printed, said = child.communicate(*rest, timeout=TIME_LIMIT)
    except subprocess.TimeoutExpired:
        child.kill()
        child.communicate()
        return None, HANGS.encode()
    return printed or b"", said + (b"" if child.returncode == 0 else f"exit status {child.returncode}".encode())


# --- reads and writes that fail -------------------------------------------------------------------------------------------------------------------

# name, how standard input is made for the verdict program, what it says; it prints nothing
VERDICT_READS = (
    ("a pipe that does not wait, the rest of the file late", lambda: pipe(P_FILE[:20], blocking=False), AGAIN),
    ("a pipe that does not wait, the whole file late", lambda: pipe(blocking=False), AGAIN),
    ("a pipe that does not wait, its end late", lambda: pipe(P_FILE, blocking=False), AGAIN),
    ("standard input is a folder", folder, FOLDER),
    ("standard input is closed", nothing, CLOSED),
)

# the same for the translating program, with table D
TRANSLATE_READS = (
    ("a pipe that does not wait, the rest of the word late", lambda: pipe(b"\1", blocking=False), AGAIN),
    ("a pipe that does not wait, the whole word late", lambda: pipe(blocking=False), AGAIN),
    ("standard input is a folder", folder, FOLDER),
    ("standard input is closed", nothing, CLOSED),
)

# name, how standard output is made, what either program says
WRITES = (
    ("a full device", full_device, FULL),
    ("standard output is closed", nothing, CLOSED),
)


def faults_of(run, printed, said):
    """In what a start went another way than to print and to say this."""
    seen_printed, seen_said = run
    faults = [] if seen_said == said else [f"expected on standard error {said!r}, said {seen_said[:200]!r}"]
    if seen_printed != printed:
        faults.append(f"expected {printed[:100]!r}, printed {(seen_printed or b'')[:100]!r}")
    return faults


def failing_reads(programs):
    """(name, faults, file) for each read that fails."""
    for name, source, error in VERDICT_READS:
        yield f"verdict: {name}", faults_of(start(programs.verdict_path, source()), b"", complaint("verdict", "standard input", error)), P_FILE
    put_table(D_FILE)
    for name, source, error in TRANSLATE_READS:
        yield f"translate: {name}", faults_of(start(programs.translate_path, source()), b"", complaint("translate", "standard input", error)), D_FILE
    put_table(None)
    os.mkdir("table")
    yield "translate: `table` is a folder", faults_of(start(programs.translate_path, given(b"\1")), b"", complaint("translate", "table", FOLDER)), b""
    os.rmdir("table")
    os.symlink("no such file", "table")
    yield "translate: `table` is a link to nothing, and counts as empty", faults_of(start(programs.translate_path, given(b"\1")), refused(1), b""), b""
    put_table(None)


def failing_writes(programs):
    """(name, faults, file) for each write that fails."""
    for name, target, error in WRITES:
        said = complaint("verdict", "standard output", error)
        yield f"verdict: {name}", faults_of(start(programs.verdict_path, given(P_FILE), target()), b"", said), P_FILE
        put_table(D_FILE)
        said = complaint("translate", "standard output", error)
        yield f"translate: {name}", faults_of(start(programs.translate_path, given(b"\1\2"), target()), b"", said), D_FILE
    yield "translate: a pipe takes a part of the listing", *short_write(programs)


def short_write(programs):
    """The longest listing into a pipe that holds less: what was taken is its beginning, and the rest is reported."""
    transducer, word, codes = longest_translation()
    content, listing = table_file(transducer), show(("X", (len(codes), *codes)))
    put_table(content)
    reading, writing = os.pipe()
    os.set_blocking(writing, False)
    child = subprocess.Popen([programs.translate_path], stdin=subprocess.PIPE, stdout=writing, stderr=subprocess.PIPE)
    os.close(writing)
    _, said = finish(child, bytes(word))
    with open(reading, "rb") as pipe_end:
        taken = pipe_end.read()
    faults = faults_of((b"", said), b"", complaint("translate", "standard output", AGAIN))
    if not (0 < len(taken) < len(listing) and listing.startswith(taken)):
        faults.append(f"{len(taken)} bytes were taken, which are not a beginning of the {len(listing)}")
    return faults, content


# --- input that comes in its own time ---------------------------------------------------------------------------------------------------------------


def fed(program, pieces, between):
    """The program with its input in pieces; between two of them something is done to it."""
    child = subprocess.Popen([program], bufsize=0, stdin=subprocess.PIPE, stdout=subprocess.PIPE, stderr=subprocess.PIPE)
    for piece in pieces:
        child.stdin.write(piece)
        time.sleep(PAUSE)
        between(child)
    return finish(child)


def wait(child):
    """Nothing is done."""


def stop_and_go(child):
    """The program is stopped while it waits for input, and goes on."""
    for number in (signal.SIGSTOP, signal.SIGCONT):
        child.send_signal(number)
        time.sleep(PAUSE)


def from_socket(program, content, size):
    """The program with a socket for its input, which hands over pieces of this size."""
    here, there = socket.socketpair()
    child = subprocess.Popen([program], stdin=there, stdout=subprocess.PIPE, stderr=subprocess.PIPE)
    there.close()
    for begin in range(0, len(content), size):
        here.sendall(content[begin:begin + size])
    here.close()
    return finish(child)


def slow_input(programs):
    """(name, faults, file) for each input that is read to its end, or as far as it is looked at, whatever its pieces."""
    singly = [P_FILE[at:at + 1] for at in range(len(P_FILE))]
    yield "verdict: the file byte by byte", faults_of(fed(programs.verdict_path, singly, wait), P_LISTING, b""), P_FILE
    halves = (P_FILE[:30], P_FILE[30:])
    yield "verdict: stopped and continued", faults_of(fed(programs.verdict_path, halves, stop_and_go), P_LISTING, b""), P_FILE
    seen = (LONGEST + b"x" * 5_000)[:SEEN_FILE]
    with pipe(seen[:5_000], seen[5_000:]) as source:
        yield "verdict: 13,203 bytes, and the pipe stays open", faults_of(start(programs.verdict_path, kept(source)), refused(6, 321), b""), seen
    yield "verdict: from a socket", faults_of(from_socket(programs.verdict_path, seen, 1_000), refused(6, 321), b""), seen
    put_table(D_FILE)
    yield "translate: the word byte by byte", faults_of(fed(programs.translate_path, (b"\1", b"\2"), wait), output(5, 6), b""), D_FILE
    yield "translate: stopped and continued", faults_of(fed(programs.translate_path, (b"\1", b"\2"), stop_and_go), output(5, 6), b""), D_FILE
    with pipe(b"\1" * SEEN_WORD) as source:
        yield "translate: 256 codes, and the pipe stays open", faults_of(start(programs.translate_path, kept(source)), refused(9), b""), D_FILE


# --- running them -----------------------------------------------------------------------------------------------------------------------------------


PARTS = {"failing reads": failing_reads, "failing writes": failing_writes, "slow input": slow_input}


def compare_all(programs, findings):
    """All of them, in the current folder; the report has how many of each kind were run."""
    for kind, part in PARTS.items():
        for name, faults, content in part(programs):
            findings.check(GROUP, faults, content, name)
            findings.count("streams", kind)


def run(findings):
    spread(Programs, [(compare_all,)], findings)
