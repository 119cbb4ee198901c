"""The library linked to a C program (boundary.c) and a C++ program, under valgrind and between guard pages; the header; what the archive has in it."""

import re
import signal
import subprocess
import tempfile
from pathlib import Path
from typing import NamedTuple

from means import damage, generate, lines, named, series
from means.calls import BROKEN, P_HELD, check
from means.compare import randomness
from means.editing import NAMED
from means.held import HELD, held_of
from means.library import BY_VALUE, CALLS, EDITS, HEADER, SOURCES, STRICT, compile_c, find_archive, full_sizes, header_version, refusal_of
from means.listing import MAX_TRANSLATION, MAX_WITNESS, MAX_WITNESS_OUTPUT
from means.namedjoins import LIMITS
from means.owed import CLASH, FIRST_AHEAD, LEVEL, SECOND_AHEAD
from means.refusals import numbers_of_code
from means.stack import guarded, run_stack
from means.tools import debian
from means.transducer import (LINE_PLACES, MAX_CODE, MAX_FILE, MAX_STATES, MAX_TESTED_INPUT, MAX_TESTED_OUTPUT, MAX_TRANSITIONS, MAX_WORD, places_of,
                        table_file)

GROUP = "library, linked"
DRIVER = SOURCES / "boundary.c"
COMPILERS = (("gcc", "-std=c99"), ("gcc", "-std=c11"), ("gcc", "-std=c17"), ("gcc", "-std=c2x"), ("g++", "-std=c++11"), ("g++", "-std=c++17"),
             ("g++", "-std=c++20"))
TIME_LIMIT = 300
# what boundary.c prints of the header: the sizes, the verdicts and the differences, places of answers
NUMBERS = (MAX_STATES, MAX_TRANSITIONS, HELD, MAX_FILE, LINE_PLACES, MAX_WORD, MAX_TRANSLATION, MAX_TESTED_INPUT, MAX_TESTED_OUTPUT, MAX_WITNESS,
           MAX_WITNESS_OUTPUT, MAX_STATES * MAX_STATES,
           *(full_sizes(name)["answer"] for name in ("write", "verdict", "translate", "accepts", "useful_pairs", "difference")),
           0, 1, LEVEL, FIRST_AHEAD, SECOND_AHEAD, CLASH, 0, 1, 7, 0, 0, 0, 1)
MACROS = (6, 321, 7, 0x8000)  # and number and record of 6 in record 321 and of 0x80000007, which an int has held
UNUSED = "#include \"yotselina.h\"\nint main(void) { yotselina_check(0, 0); return 0; }\n"  # what is returned is not looked at
FOUND = 99  # exit status where valgrind has found something
VALGRIND = ("-q", f"--error-exitcode={FOUND}", "--leak-check=full", "--errors-for-leak-kinds=all")
TAKEN = {"memcpy", "memmove", "memset", "memcmp", "bcmp"}  # what the archive may take from C


# --- header and archive ----------------------------------------------------------------------------------------------


def check_header(findings, folder):
    """Every compiler takes the header alone, and the program over it."""
    for compiler, standard in COMPILERS:
        language = "c" if compiler == "gcc" else "c++"
        complaint = compile_c(compiler, standard, *STRICT, "-fsyntax-only", "-x", language, HEADER)
        findings.check("library, header", [complaint] if complaint else [], b"", f"{compiler} {standard}")
        complaint = compile_c(compiler, standard, *STRICT, "-c", "-o", folder / "driver.o", "-x", language, DRIVER)
        findings.check("library, header", [complaint] if complaint else [], b"", f"{compiler} {standard}, the program")
        (folder / "unused.c").write_text(UNUSED, encoding="ascii")
        complaint = compile_c(compiler, standard, *STRICT, "-c", "-o", folder / "unused.o", "-x", language, folder / "unused.c")
        said = "unused-result" in complaint
        findings.check("library, header", [] if said else [f"not said: {complaint}"], b"", f"{compiler} {standard}, what is returned is not looked at")


def check_texts(findings, texts, title):
    """Each number has a text of its own, also with a record above it, and all that is no number the same."""
    numbers = {0, *numbers_of_code()}
    own, others = [texts[number] for number in sorted(numbers)], {text for number, text in enumerate(texts) if number not in numbers}
    faults = [] if len({*own, *others}) == len(own) + 1 == len(numbers) + 1 else [f"{own}, and of other numbers {others}"]
    findings.check(GROUP, faults, b"", f"{title}: texts")


def check_archive(findings, archive):
    """The archive has the functions that the header declares and no others, takes next to nothing from C (no heap), and has no memory of its own."""
    listed = subprocess.run([debian("nm", "binutils"), "-P", archive], capture_output=True, text=True, check=True).stdout
    symbols = [line.split()[:2] for line in listed.splitlines() if len(line.split()) > 1]
    declared = set(re.findall(r"^YOTSELINA_CALL (\w+)\(", HEADER.read_text(encoding="utf-8"), re.MULTILINE))
    functions = {name for name, kind in symbols if kind in "TW"}
    faults = [] if functions == declared == {f"yotselina_{name}" for name in CALLS} else [f"declared {sorted(declared)}, there {sorted(functions)}"]
    findings.check("library, archive", faults, b"", "functions")
    taken = {name for name, kind in symbols if kind == "U"} - TAKEN
    findings.check("library, archive", [f"takes {sorted(taken)}"] if taken else [], b"", "what it takes from C")
    kept = [name for name, kind in symbols if kind in "bBdDcC"]
    findings.check("library, archive", [f"keeps {kept}"] if kept else [], b"", "memory of its own")


def check_guard(findings, folder, archive):
    """A call with too little stack ends at a guard page below it, and writes nothing beyond."""
    ends = guarded(run_stack(folder, archive))
    faults = [] if set(ends.values()) == {"at the guard"} and len(ends) > 5 else [f"{ends}"]
    findings.check("library, stack", faults, b"", "a guard page")


# --- the program -----------------------------------------------------------------------------------------------------


class Items:
    """A list as it is printed: only what was written."""

    def __init__(self, items):
        self.printed = items

    def items(self, count):
        return self.printed[:count]


class Sample(NamedTuple):
    """What the program is given: a table file, a held table, an input word, an output word, a held table to be joined with the first, the places of a
    line to be appended, the number of a line to be removed."""

    file: bytes
    table: bytes
    input: bytes = b""
    output: bytes = b""
    second: bytes = P_HELD
    line: bytes = bytes(LINE_PLACES)
    number: bytes = b"0"

    def lent(self, name, way):
        """What a call reads under this name, whole; `way` is how the two tables are joined."""
        if name == "number":
            return int(self.number)
        if name in ("first", "second"):
            return self.second if (name, way) in (("second", ""), ("first", "behind")) else self.table
        return getattr(self, {"x": "file", "y": "input"}.get(name, name))


class Printed:
    """A line of the program, to be compared like a call."""

    def __init__(self, line, sample):
        head, _, rest = line.partition(":")
        name, *places = head.split()
        self.name, _, way = name.partition("-")
        returned, *lists = rest.split("|")
        number, record = map(int, returned.split())
        self.returned, places = number + (record << 16), list(map(int, places))
        read, names = CALLS[self.name][0], [lent for lent, _, _ in CALLS[self.name][1]]
        self.inputs = [sample.lent(lent, way) if lent in BY_VALUE else sample.lent(lent, way)[:places.pop(0)] for lent in read]
        self.sizes = dict(zip(names, places))
        printed = [tuple(map(int, items.split())) for items in lists] or [()] * len(names)
        self.edited = bytes(printed[0]) if self.name in EDITS else None
        self.lent = {name: Items(items) for name, items in zip(names, printed)}

    def refusal(self):
        return refusal_of(self.returned)

    def changed(self, owed):
        """An edited table is printed whole, what else is written as far as it is owed."""
        others = [name for name, lent in self.lent.items() if lent.printed != tuple(owed.get(name, ()))]
        table = bytes(owed.get("table", b"")) if self.edited is not None else b""
        return others if self.edited is None or self.edited == table + self.inputs[0][len(table):] else ["table", *others]

    def __str__(self):
        return f"{self.name}, lent {self.sizes}, read {[given if isinstance(given, int) else len(given) for given in self.inputs]}"


def longest_table():
    """A table of the longest file, on which the verdict is soon found: two lines of state 0 read 1 and write different codes."""
    most = ((0, 0, 1 + i % MAX_CODE, 1 + i // MAX_CODE, *[MAX_CODE] * 7) for i in range(MAX_TRANSITIONS))
    return named.table(MAX_STATES, range(MAX_STATES), range(MAX_STATES), *most)


def of_table(transducer, *more):
    return Sample(table_file(transducer), held_of(transducer), *more)


def samples():
    """Files, tables, input words and output words: those of document 01, the largest, damaged ones, and some of each sort at random; two tables;
    edits."""
    longest, word, output = named.longest_translation()
    p_file, d_file, most = named.P_FILE, table_file(named.D), longest_table()
    yield from (of_table(named.P, b"\1\1", b"\5\6"), of_table(named.D, b"\1\2", b"\5\6"), of_table(named.D_SPLIT, b"\1\2", b"\5"),
                of_table(named.ONE_STATE, b"", b"", held_of(most)), of_table(longest, bytes(word), bytes(output)), of_table(most, b"\1\2", b"\1\xfa"),
                *(of_table(transducer, b"\1") for _, transducer, _ in named.PART_LATE),
                of_table(named.D, b"\1" * 256, b"\0" * 128), of_table(named.D, b"\0", b"\0"), of_table(named.D, b"\1", b"\0"),
                of_table(named.P, b"\1" * MAX_TESTED_INPUT, b"\5\6" * 31 + b"\5"), of_table(longest, b"\1", bytes(output[:MAX_TESTED_OUTPUT])),
                of_table(named.P, b"\1" * (MAX_TESTED_INPUT + 1), b"\5", BROKEN["no state"]),
                of_table(named.P, b"\1", b"\5" * (MAX_TESTED_OUTPUT + 1), P_HELD[:-1]),
                Sample(p_file + b" ", P_HELD + b"\xff", b"\1", b"\5"), Sample(b"", b""), Sample(named.LONGEST[:-1], bytes(HELD), b"\1"),
                Sample(d_file[:-1], b"\xff" * HELD, b"\1\2", b"\5\6"))
    yield from (Sample(named.NO_FILE, held, b"\1", b"\5") for held in BROKEN.values())
    for kind in ("random, small", "most lines read nothing", "periodic output", "two copies, a code changed", "coprime cycles", "full size, random"):
        random = randomness("library, linked", kind)
        transducer, _ = generate.KINDS[kind][1](random)
        yield of_table(transducer, generate.input_words(random, transducer)[0])
        yield of_table(transducer, *generate.word_tests(random, transducer)[0])
        yield Sample(damage.damaged(random, table_file(transducer))[0], damage.damaged_held(random, held_of(transducer))[0])
    pairs = [(first, second) for _, first, second, _ in LIMITS]
    pairs += [make(randomness("library, linked", kind)) for kind, (_, make) in series.KINDS.items()]
    yield from (of_table(first, b"", b"", held_of(second)) for first, second in pairs)
    for name, transducer in NAMED.items():
        random, count = randomness("library, linked, edits", name), len(transducer.transitions)
        good = places_of(lines.good_line(random, transducer))
        appended = [good, good + b"\xff", *(lines.any_line(random, transducer) for _ in range(4))]
        removed = (lines.numbers_there(random, count) + lines.numbers_not_there(random, count))[:len(appended)]
        yield from (of_table(transducer, b"", b"", P_HELD, line, str(number).encode()) for line, number in zip(appended, removed))


def write_samples(folder):
    """The samples as files; returns them with their names."""
    given, names = list(samples()), []
    for number, parts in enumerate(given):
        for what, content in zip(Sample._fields, parts):
            names.append(folder / f"{what}{number}")
            names[-1].write_bytes(content)
    return given, names


def check_tool(findings, memory, command):
    """valgrind or the guard pages themselves: they see a place beside a list that is touched."""
    done = subprocess.run(command, capture_output=True, text=True, timeout=TIME_LIMIT, check=False)
    seen = done.returncode == FOUND and "Invalid read of size 1" in done.stderr if memory == "plain" else done.returncode == -signal.SIGSEGV
    findings.check_apart("valgrind and guard pages themselves", [] if seen else [f"exit status {done.returncode}: {done.stderr[:600]}"], b"", memory)


def run_driver(findings, command, given, title):
    """One run of the program over all samples, each line compared."""
    try:
        done = subprocess.run(command, capture_output=True, text=True, timeout=TIME_LIMIT, check=False)
    except subprocess.TimeoutExpired:
        findings.check(GROUP, [f"did not end within {TIME_LIMIT} seconds"], b"", title)
        return
    faults = [f"exit status {done.returncode}: {done.stderr[:3000]}"] if done.returncode or done.stderr else []
    findings.check(GROUP, faults, b"", f"{title}: nothing to complain of")
    head, *parts = re.split(r"^sample \d+\n", done.stdout, flags=re.MULTILINE)
    first, *texts = head.splitlines()
    numbers, expected = tuple(map(int, first.partition(":")[2].split())), (*NUMBERS, header_version(), header_version(), *MACROS)
    findings.check(GROUP, [] if numbers == expected else [f"the header has {numbers}, not {expected}"], b"", f"{title}: numbers")
    check_texts(findings, texts, title)
    findings.check(GROUP, [] if len(parts) == len(given) else [f"{len(parts)} of {len(given)} samples are done"], b"", title)
    for sample, part in zip(given, parts):
        calls = [Printed(line, sample) for line in part.splitlines()]
        for call in calls:
            check(findings, "linked", call, title)
        missing = sorted(CALLS.keys() - {"version", *(call.name for call in calls)})
        findings.check(GROUP, [f"not called: {missing}"] if missing else [], sample.file, title)


def run(findings):
    """Needs include/yotselina.h, gcc, g++ and valgrind; what is missing of these is installed, or fails the run."""
    archive, valgrind = find_archive(), debian("valgrind")
    runs = (("gcc", "c", "plain", (valgrind, *VALGRIND)), ("gcc", "c", "behind", ()), ("g++", "c++", "before", ()))
    with tempfile.TemporaryDirectory() as name:
        folder = Path(name)
        check_header(findings, folder)
        check_archive(findings, archive)
        check_guard(findings, folder, archive)
        given, names = write_samples(folder)
        for compiler, language, memory, tool in runs:
            program = folder / f"driver-{language}"
            complaint = compile_c(compiler, *STRICT, "-g", "-o", program, "-x", language, DRIVER, "-x", "none", archive)
            findings.check(GROUP, [complaint] if complaint else [], b"", f"{compiler}: linked")
            if complaint:
                continue
            check_tool(findings, memory, [*tool, program, memory])
            run_driver(findings, [*tool, program, memory, *names], given, f"{compiler}, {'under valgrind' if tool else f'guard pages {memory} each list'}")
