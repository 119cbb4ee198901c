"""Finds the two programs and runs them: one start for each file or word."""

import shutil
import subprocess
import time
from pathlib import Path

from means.settings import chosen, setting
from means.tools import Missing

ROOT = Path(__file__).resolve().parents[2]
TIME_LIMIT = 20  # seconds; a program that takes longer counts as one that does not end
HANGS = f"did not end within {TIME_LIMIT} seconds"
PAUSE = 0.02  # seconds between two pieces of standard input


class Broken(Exception):
    """The program did not end in time, or not with status 0."""


def stale(built):
    """Whether what is built is missing or older than some source."""
    sources = [ROOT / "crates.txt", *ROOT.glob("crates/*/src/**/*.rt")]
    return not built.exists() or built.stat().st_mtime < max(source.stat().st_mtime for source in sources)


def build(name):
    """Builds a program, or the archive of the library."""
    print(f"building: tools/build {name}", flush=True)
    try:
        built = subprocess.run([ROOT / "tools" / "build", name], stdout=subprocess.PIPE, stderr=subprocess.STDOUT, text=True, check=False)
    except OSError as error:
        raise Missing(f"tools/build {name}: {error}") from error
    if built.returncode != 0:
        raise Missing(f"tools/build {name}: exit status {built.returncode}: {built.stdout[-1000:]}")


def find(variable):
    """The path of a program, built if it is missing or old; the variable names another."""
    if not chosen(variable) and stale(ROOT / setting(variable)):
        build(variable.lower())
    path = shutil.which(str(ROOT / setting(variable)))
    if path is None:
        raise Missing(f"no program at {ROOT / setting(variable)}: build it, or name it in {variable}")
    return path


def pieces_to(child, pieces):
    """Standard input in pieces, with a pause after each; a child that has stopped reading gets no more."""
    try:
        for piece in pieces:
            child.stdin.write(piece)
            child.stdin.flush()
            time.sleep(PAUSE)
    except BrokenPipeError:
        pass


def start(program, *pieces):
    """What the program prints when this is on its standard input. With several pieces, a single read of it sees only the first."""
    child = subprocess.Popen([program], bufsize=0, stdin=subprocess.PIPE, stdout=subprocess.PIPE, stderr=subprocess.PIPE)
    pieces_to(child, pieces[:-1])
    try:
        printed, complaint = child.communicate(pieces[-1], timeout=TIME_LIMIT)
    except subprocess.TimeoutExpired as error:
        child.kill()
        child.communicate()
        raise Broken(HANGS) from error
    if child.returncode != 0 or complaint:
        raise Broken(f"exit status {child.returncode}, standard error {complaint[:200]!r}")
    return printed


def run_program(*words):
    """Exit status, standard output, standard error."""
    try:
        done = subprocess.run(words, capture_output=True, text=True, timeout=TIME_LIMIT, check=False)
    except subprocess.TimeoutExpired:
        return None, "", HANGS
    return done.returncode, done.stdout, done.stderr


def put_table(content):
    """The file named table in the current folder; none for no content."""
    table = Path("table")
    table.unlink(missing_ok=True)
    if content is not None:
        table.write_bytes(content)


class Programs:
    """The programs under test. `translate` writes the file `table` in the current folder, so each worker needs a folder of its own."""

    def __init__(self):
        self.verdict_path = find("VERDICT")
        self.translate_path = find("TRANSLATE")

    def verdict(self, *pieces):
        return start(self.verdict_path, *pieces)

    def translate(self, content, *pieces):
        """With the table file of this content; None for no such file."""
        put_table(content)
        return start(self.translate_path, *pieces)
