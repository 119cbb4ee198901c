"""The library (include/yotselina.h) as a shared object: where it is, how it is made from the archive, and its calls."""

import ctypes
import os
import shlex
import subprocess
import tempfile
from pathlib import Path
from typing import NamedTuple

from .refusals import Failed, Refused

ROOT = Path(__file__).resolve().parent.parent.parent
ARCHIVE = ROOT / "target/staticlib/libunit.a"
SHARED = ROOT / "target/staticlib/libyotselina.so"
VARIABLE = "YOTSELINA_LIBRARY"

# The sizes of include/yotselina.h, under its names.
STATES = 32
TABLE = 3_171
FILE = 13_202
OUTPUT = 65_528
ACCEPTS_INPUT = 63
ACCEPTS_OUTPUT = 127
WITNESS = 2_047
WITNESS_OUTPUT = 16_376
PAIRS = 1_024
VERDICT_ANSWER = 8
TRANSLATE_ANSWER = 1
ACCEPTS_ANSWER = 1
PAIRS_ANSWER = 1
WRITE_ANSWER = 1


class Witness(NamedTuple):
    """An input word, two accepting paths (line numbers) that read it, what they write, and how many codes these outputs have in common at the
    beginning."""

    word: tuple
    path_a: tuple
    path_b: tuple
    output_x: tuple
    output_y: tuple
    shared: int


# --- the shared object -----------------------------------------------------------------------------------------------


def build_command(target):
    return ["gcc", "-shared", "-o", str(target), "-Wl,--whole-archive", str(ARCHIVE), "-Wl,--no-whole-archive"]


def build():
    """Makes the shared object from the archive. It is put in place whole, so another run never loads half of it."""
    command = shlex.join(build_command(SHARED))
    try:
        with tempfile.TemporaryDirectory(dir=SHARED.parent) as folder:
            made = Path(folder) / SHARED.name
            done = subprocess.run(build_command(made), capture_output=True, text=True, errors="replace", check=False)
            if done.returncode != 0:
                raise Failed(f"the shared object could not be made by\n    {command}\n{done.stderr.strip()}")
            os.replace(made, SHARED)
    except OSError as error:
        raise Failed(f"the shared object could not be made by\n    {command}\n{error}") from error


def out_of_date():
    """Whether the shared object has to be made: it is missing, or older than the archive."""
    if not ARCHIVE.exists():
        return False
    return not SHARED.exists() or SHARED.stat().st_mtime < ARCHIVE.stat().st_mtime


def find(named):
    """The path of the shared object: the one named by the option or the environment, else that of the build, made from the archive on first use."""
    named = named or os.environ.get(VARIABLE)
    if named:
        if not os.path.exists(named):
            raise Failed(f"no library at {named} (named by --library or {VARIABLE})")
        return os.path.abspath(named)
    if out_of_date():
        build()
    if not SHARED.exists():
        raise Failed(f"no library at {SHARED}: make its archive with\n    cd {ROOT} && tools/build unit\n"
                     f"or name another shared object with --library or {VARIABLE}")
    return str(SHARED)


# --- the calls -------------------------------------------------------------------------------------------------------


def lent(kind, places):
    """A list to lend: so many places, or these items."""
    return (kind * places)() if isinstance(places, int) else (kind * len(places))(*places)


class Library:
    """The calls of the header: on the bytes of a file, and on tables that are held (`read`, `join`); a refusal is raised."""

    VERSION = 0x00020000  # of the header

    def __init__(self, named=None):
        path = find(named)
        try:
            self.loaded = ctypes.CDLL(path)
        except OSError as error:
            raise Failed(f"the library cannot be loaded: {error}") from error
        self.path = path

    def function(self, name):
        try:
            function = getattr(self.loaded, f"yotselina_{name}")
        except AttributeError as error:
            raise Failed(f"the library {self.path} has no call yotselina_{name}: make it again, or name another") from error
        function.restype = ctypes.c_uint32
        return function

    def call(self, name, *lists, file=None):
        """One call, each list as a pointer and its number of places; a refusal knows the file whose bytes are lent."""
        returned = self.function(name)(*(argument for places in lists for argument in (places, ctypes.c_size_t(len(places)))))
        if returned:
            raise Refused(returned & 0xffff, returned >> 16, file)

    def check(self, file):
        self.call("check", lent(ctypes.c_uint8, file), file=file)

    def must_fit(self):
        """What a held table is depends on the version: the header's major number, and all of its calls."""
        version = self.function("version")()
        if version >> 16 != self.VERSION >> 16 or version < self.VERSION:
            raise Failed(f"the library {self.path} is of another version, {version:#010x}: make it again, or name another")

    def read(self, file):
        """The table of a file, held."""
        self.must_fit()
        table = lent(ctypes.c_uint8, TABLE)
        self.call("read", lent(ctypes.c_uint8, file), table, file=file)
        return table

    def write(self, table):
        """The bytes of the table's file."""
        out, answer = lent(ctypes.c_uint8, FILE), lent(ctypes.c_uint64, WRITE_ANSWER)
        self.call("write", table, out, answer)
        return bytes(out[:answer[0]])

    def verdict(self, table):
        """u, and a Witness where the table is split, else None."""
        lists = (lent(ctypes.c_uint8, WITNESS), lent(ctypes.c_uint16, WITNESS), lent(ctypes.c_uint16, WITNESS),
                 lent(ctypes.c_uint8, WITNESS_OUTPUT), lent(ctypes.c_uint8, WITNESS_OUTPUT))
        answer = lent(ctypes.c_uint64, VERDICT_ANSWER)
        self.call("verdict", table, *lists, answer)
        split, useful, *counts, shared = answer
        return useful, Witness(*(tuple(places[:count]) for places, count in zip(lists, counts)), shared) if split else None

    def translate(self, table, word):
        """The output's codes."""
        output, answer = lent(ctypes.c_uint8, OUTPUT), lent(ctypes.c_uint64, TRANSLATE_ANSWER)
        self.call("translate", table, lent(ctypes.c_uint8, word), output, answer)
        return tuple(output[:answer[0]])

    def accepts(self, table, word, output):
        """Whether an accepting path reads the word and writes the output."""
        answer = lent(ctypes.c_uint64, ACCEPTS_ANSWER)
        self.call("accepts", table, lent(ctypes.c_uint8, word), lent(ctypes.c_uint8, output), answer)
        return answer[0] == 1

    def useful_states(self, table):
        """A flag for each of the 32 states."""
        flags = lent(ctypes.c_uint8, STATES)
        self.call("useful_states", table, flags)
        return list(flags)

    def useful_pairs(self, table):
        """u, and for each state p the states q for which (p, q) is useful."""
        flags, answer = lent(ctypes.c_uint8, PAIRS), lent(ctypes.c_uint64, PAIRS_ANSWER)
        self.call("useful_pairs", table, flags, answer)
        return answer[0], [[q for q in range(STATES) if flags[STATES * p + q]] for p in range(STATES)]

    def join(self, first, second):
        """The joined table, held."""
        result = lent(ctypes.c_uint8, TABLE)
        self.call("join", first, second, result)
        return result
