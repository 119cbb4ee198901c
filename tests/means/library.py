"""The unit's library, called as C calls it: the archive as a shared object, and lent memory that is compared whole."""

import ctypes
import functools
import os
import re
import subprocess
import time
from ctypes import c_uint8, c_uint16, c_uint32, c_uint64

from means.held import HELD
from means.listing import MAX_TRANSLATION, MAX_WITNESS, MAX_WITNESS_OUTPUT, Refusal
from means.programs import ROOT, build as build_part, stale
from means.settings import chosen, setting
from means.tools import Missing, debian
from means.transducer import LINE_PLACES, MAX_FILE, MAX_STATES

PAIRS = MAX_STATES * MAX_STATES
SHARED = ROOT / "target" / "tests" / "libyotselina.so"
HEADER = ROOT / "include" / "yotselina.h"
SOURCES = ROOT / "tests" / "c"
STRICT = ("-Wall", "-Wextra", "-Werror", "-pedantic", f"-I{HEADER.parent}")  # for C and C++ that others may compile so
GUARD = 64  # bytes on either side of what is lent

BY_VALUE = ("number",)  # what a call is given as it is: no memory is lent for it
# for each call, what is lent with a content, and what is lent to be written: name, type, places that are enough for any answer
CALLS = {
    "version": ((), ()),
    "check": (("file",), ()),
    "read": (("file",), (("table", c_uint8, HELD),)),
    "write": (("table",), (("out", c_uint8, MAX_FILE), ("answer", c_uint64, 1))),
    "verdict": (("table",), (("word", c_uint8, MAX_WITNESS), ("path_a", c_uint16, MAX_WITNESS), ("path_b", c_uint16, MAX_WITNESS),
                             ("output_x", c_uint8, MAX_WITNESS_OUTPUT), ("output_y", c_uint8, MAX_WITNESS_OUTPUT), ("answer", c_uint64, 8))),
    "translate": (("table", "input"), (("output", c_uint8, MAX_TRANSLATION), ("answer", c_uint64, 1))),
    "accepts": (("table", "input", "output"), (("answer", c_uint64, 1),)),
    "useful_states": (("table",), (("flags", c_uint8, MAX_STATES),)),
    "look": (("table",), (("flags", c_uint8, MAX_STATES),)),
    "useful_pairs": (("table",), (("flags", c_uint8, PAIRS), ("answer", c_uint64, 1))),
    "append": (("table", "line"), ()),
    "remove": (("table", "number"), ()),
    "join": (("first", "second"), (("result", c_uint8, HELD),)),
    "difference": (("x", "y"), (("answer", c_uint64, 2),)),
}
OF_FILES = ("check", "read")
OF_TABLES = tuple(name for name, (read, _) in CALLS.items() if read[:1] == ("table",))
EDITS = ("append", "remove")  # these write to the table that they are given
FIXED = {"table": HELD, "first": HELD, "second": HELD, "line": LINE_PLACES}  # places of what has a content, without which a call cannot begin


def full_sizes(name):
    """The places that are enough, by the list's name."""
    return {lent: size for lent, _, size in CALLS[name][1]}


def refusal_of(returned):
    """What the number that a call returned says; None for done."""
    return Refusal(returned & 0xFFFF, returned >> 16) if returned else None


def header_version():
    """YOTSELINA_VERSION of the header."""
    return int(re.search(r"^#define YOTSELINA_VERSION (\w+)$", HEADER.read_text(encoding="utf-8"), re.MULTILINE)[1], 16)


# --- the archive -----------------------------------------------------------------------------------------------------


def find_archive():
    """The archive, built if it is missing or old; the variable UNIT names another."""
    archive = ROOT / setting("UNIT")
    if not chosen("UNIT") and stale(archive):
        build_part("unit")
    if not archive.exists():
        raise Missing(f"no archive at {archive}: build it (tools/build unit), or name it in UNIT")
    return archive


def compile_c(*words):
    """Runs gcc or g++ (the first word), and returns what it complains of."""
    done = subprocess.run([debian(words[0]), *words[1:]], capture_output=True, text=True, check=False)
    return done.stderr or (f"exit status {done.returncode}" if done.returncode else "")


def link_shared(shared, archive, *sources):
    """All of the archive, and C beside it, as a shared object."""
    complaint = compile_c("gcc", "-O1", "-fPIC", "-shared", "-o", shared, *sources, "-Wl,--whole-archive", archive, "-Wl,--no-whole-archive")
    if complaint:
        raise Missing(f"{archive} as a shared object: {complaint}")


@functools.cache
def build():
    """The archive as a shared object, once for all parts and put in its place in one step; returns the archive."""
    archive = find_archive()
    SHARED.parent.mkdir(parents=True, exist_ok=True)
    new = SHARED.with_name(f"{SHARED.name}.{os.getpid()}")
    link_shared(new, archive)
    new.replace(SHARED)
    return archive


# --- lent memory -----------------------------------------------------------------------------------------------------


class Lent:
    """A list that is lent: its places between guard bytes, all of random content unless a content is given. What it held is kept."""

    def __init__(self, random, kind, places, content=None):
        self.kind = kind
        self.places = places
        # lists of bytes may begin anywhere
        self.start = GUARD + (random.randrange(8) if kind is c_uint8 else 0)
        middle = random.randbytes(places * ctypes.sizeof(kind)) if content is None else content
        self.held = random.randbytes(self.start) + middle + random.randbytes(GUARD)
        self.memory = ctypes.create_string_buffer(self.held, len(self.held))

    def argument(self):
        """Pointer and length."""
        return ctypes.c_void_p(ctypes.addressof(self.memory) + self.start), ctypes.c_size_t(self.places)

    def items(self, count):
        """What the first places hold now."""
        return tuple((self.kind * count).from_buffer(self.memory, self.start))

    def content(self):
        """What a list of bytes holds now."""
        return self.memory.raw[self.start:self.start + self.places]

    def keep(self):
        """What it holds now counts as what it held: it is lent to another call."""
        self.held = self.memory.raw

    def holds(self, items):
        """Whether these items stand at the beginning, and everything else is as it was, the guard bytes included."""
        written = items if isinstance(items, bytes) else bytes((self.kind * len(items))(*items))
        return self.memory.raw == self.held[:self.start] + written + self.held[self.start + len(written):]


class Call:
    """One call: what is lent, and once it is made what it returned and when. What has a content may be a list that is lent already."""

    def __init__(self, random, name, inputs, sizes):
        read, written = CALLS[name]
        self.name, self.sizes = name, sizes
        self.inputs = tuple(given.content() if isinstance(given, Lent) else given for given in inputs)
        self.read = {lent: given if isinstance(given, Lent) else Lent(random, c_uint8, len(given), given)
                     for lent, given in zip(read, inputs) if lent not in BY_VALUE}
        self.lent = {lent: Lent(random, kind, sizes[lent]) for lent, kind, _ in written}
        self.returned = self.begun = self.ended = None

    def arguments(self):
        """What the function is given, in its order."""
        for lent, given in zip(CALLS[self.name][0], self.inputs):
            yield from (ctypes.c_size_t(given),) if lent in BY_VALUE else self.read[lent].argument()
        for lent in self.lent.values():
            yield from lent.argument()

    def make(self, library):
        arguments = list(self.arguments())
        self.begun = time.perf_counter_ns()
        self.returned = library.functions[self.name](*arguments)
        self.ended = time.perf_counter_ns()
        return self

    def lend_only(self, name, places):
        """Of a list with a content, lends only the first places from now on; what stands behind them is there, as the guard bytes are."""
        self.read[name].places = places

    def refusal(self):
        return refusal_of(self.returned)

    def changed(self, owed):
        """The lists that do not hold what they owe: what is owed by name at the beginning, else what they held."""
        return [name for name, lent in (self.read | self.lent).items() if not lent.holds(owed.get(name, ()))]

    def __str__(self):
        return f"{self.name}, lent {self.sizes}, read {[lent.places for lent in self.read.values()]} bytes"


class Library:
    """The functions of the shared object."""

    def __init__(self, path=SHARED):
        shared = ctypes.CDLL(str(path))
        self.functions = {}
        for name in CALLS:
            try:
                self.functions[name] = shared[f"yotselina_{name}"]
            except AttributeError as error:
                raise Missing(f"the library has no yotselina_{name}") from error
            self.functions[name].restype = c_uint32

    def call(self, random, name, *inputs, **sizes):
        """A call with enough of everything, or of the sizes given."""
        return Call(random, name, inputs, full_sizes(name) | sizes).make(self)
