"""Tries to get the gate and the tests to pass while something is wrong.

.ci/run is tried in a folder of its own, with a small `rt` and a small tests/run in place of the real ones; tests/run is tried with programs and tools
that are broken or missing, and its part wrong in a repository of one crate.
"""

import os
import re
import shutil
import subprocess
import sys
import tempfile
from pathlib import Path

from means.programs import ROOT
from means.settings import DEFAULTS

GROUP = "the gate refuses"
TIME_LIMIT = 120  # seconds for one try
COUNTS = re.compile(r"(\d+) passed, (\d+) failed")
OUTSIDE = {name: value for name, value in os.environ.items() if name not in DEFAULTS}


def script(path, *lines):
    """A program for the shell."""
    path.parent.mkdir(parents=True, exist_ok=True)
    path.write_text("\n".join(("#!/bin/sh", *lines, "")), encoding="ascii")
    path.chmod(0o755)


def faults_of(command, outside, expected, *says):
    """In what a run is not as expected: (passed, failed) of its last line, None in place of a number for 'at least one'; and what it must say."""
    try:
        done = subprocess.run(command, env=outside, stdin=subprocess.DEVNULL, stdout=subprocess.PIPE, stderr=subprocess.STDOUT,
                              text=True, timeout=TIME_LIMIT, check=False)
    except subprocess.TimeoutExpired:
        return [f"did not end within {TIME_LIMIT} seconds"]
    last = COUNTS.fullmatch(done.stdout.removesuffix("\n").rpartition("\n")[2])
    if last and all(words in done.stdout for words in says):
        passed, failed = counts = tuple(map(int, last.groups()))
        as_counted = all(have == want or want is None and have > 0 for have, want in zip(counts, expected))
        if as_counted and (done.returncode == 0) == (passed > 0 and failed == 0):
            return []
    return [f"expected {expected} and {says!r}; exit status {done.returncode}, printed .. {done.stdout[-600:]}"]


# --- .ci/run ---------------------------------------------------------------------------------------------------------

TRIED = "rt: ok; handles allowed: none; must-fail edits: 74 refused"
RT = ('test "$*" = ci && echo "3 passed, 0 failed"',)
RUN = ('echo "5 passed, 0 failed"',)
CLEARED = tuple(f'test -z "${{{name}+set}}" || {{ echo "{name} is set"; exit 1; }}' for name in DEFAULTS)
GIVEN = {name: "1" for name in DEFAULTS}

# what is tried, `rt`, tests/run (None: not there), expected counts
GATES = (
    ("nothing where nothing is wrong", RT, RUN, (8, 0)),
    ("no tests/run", RT, None, (3, 1)),
    ("a tests/run that counts nothing", RT, ('echo "0 passed, 0 failed"',), (3, 1)),
    ("a tests/run that prints nothing", RT, (), (3, 1)),
    ("a tests/run that fails", RT, ('echo "5 passed, 2 failed"', "exit 1"), (8, 2)),
    ("a tests/run that counts failures and hides them in its status", RT, ('echo "5 passed, 2 failed"',), (8, 2)),
    ("a tests/run that dies after its count", RT, (*RUN, "kill -9 $$"), (8, 1)),
    ("a tests/run whose count is not its last line", RT, (*RUN, "echo more"), (3, 1)),
    ("an rt that counts nothing", ('echo "0 passed, 0 failed"',), RUN, (5, 1)),
    ("an rt that fails", ('echo "3 passed, 1 failed"', "exit 1"), RUN, (8, 1)),
    ("an rt that stops without a count", ("exit 2",), RUN, (5, 1)),
    ("an rt that could not try an edit", (f'echo "{TRIED}, 1 bad; every proof was done in this run"', *RT), RUN, (8, 1)),
    ("nothing where every edit is refused", (f'echo "{TRIED}; every proof was done in this run"', *RT), RUN, (8, 0)),
    ("variables of the surroundings", RT, (*CLEARED, *RUN), (8, 0)),
)


def make(folder, rt, run):
    """A folder with the gate, an rt and a tests/run; returns its surroundings."""
    (folder / ".ci").mkdir()
    shutil.copy(ROOT / ".ci" / "run", folder / ".ci" / "run")
    script(folder / "bin" / "rt", *rt)
    if run is not None:
        script(folder / "tests" / "run", *run)
    return OUTSIDE | GIVEN | {"PATH": f"{folder / 'bin'}:{os.environ['PATH']}"}


def try_gates(findings):
    for name, rt, run, expected in GATES:
        with tempfile.TemporaryDirectory() as folder:
            outside = make(Path(folder), rt, run)
            findings.check(GROUP, faults_of([Path(folder) / ".ci" / "run"], outside, expected), b"", name)
    with tempfile.TemporaryDirectory() as folder:
        outside = make(Path(folder), RT, RUN)
        (Path(folder) / "tests" / "run").chmod(0o644)
        findings.check(GROUP, faults_of([Path(folder) / ".ci" / "run"], outside, (3, 1)), b"", "a tests/run that is not executable")


# --- tests/run -------------------------------------------------------------------------------------------------------

# a foma that answers every question of its script by TRUE
ALWAYS = 'while read -r word rest; do test "$word" != echo || { echo "$rest"; echo "1 (1 = TRUE, 0 = FALSE)"; }; done < "$3"'

# what is tried, the part that is run, a program by that name that comes first, variables, expected counts, what is said
RUNS = (
    ("a foma that says nothing", "foma", ("foma", "exit 0"), {}, (0, 1), "0 answers to 6 questions"),
    ("a foma that fails", "foma", ("foma", "exit 1"), {}, (0, 1), "exit status 1"),
    ("a foma that always says the same", "foma", ("foma", ALWAYS), {}, (0, 1), "is answered by"),
    ("a worker that dies", "tables", ("verdict", "kill -9 $PPID"), {}, (0, 1), "a worker died"),
    ("a program that fails", "tables", ("verdict", "exit 1"), {}, (None, None), "exit status 1"),
    ("a program that prints nothing", "tables", ("verdict", "exit 0"), {}, (None, None), "nothing is printed"),
    ("no program", "tables", None, {"VERDICT": "target/none"}, (0, 1), "no program at"),
    ("no archive of the library", "library", None, {"UNIT": "target/none.a"}, (0, 1), "no archive at"),
    ("an archive that is none", "library", None, {"UNIT": "tests/README.md"}, (0, 1), "as a shared object"),
    ("foma left out by name, and nothing else run", "foma", None, {"TESTS_WITHOUT_FOMA": "1"}, (0, 0), "LEFT OUT"),
)


def try_runs(findings):
    """tests/run itself, on a small share."""
    for name, part, program, variables, expected, says in RUNS:
        with tempfile.TemporaryDirectory() as folder:
            outside = OUTSIDE | {"TESTS_SHARE": "1", "PATH": f"{folder}:{os.environ['PATH']}"} | variables
            if program:
                script(Path(folder) / program[0], program[1])
                if program[0] == "verdict":
                    outside["VERDICT"] = f"{folder}/verdict"
            findings.check(GROUP, faults_of([ROOT / "tests" / "run", part], outside, expected, says), b"", name)
    with tempfile.TemporaryDirectory() as folder:
        script(Path(folder) / "apt-get", "exit 1")
        faults = faults_of([sys.executable, ROOT / "tests" / "run", "foma"], OUTSIDE | {"PATH": folder}, (0, 1), "foma is not installed")
        findings.check(GROUP, faults, b"", "no foma, which cannot be installed")


# --- the part wrong ----------------------------------------------------------------------------------------------------

AS_IT_MUST = "refused, as it must be: proofs/Small.antt:1:1: error: 1 is not 2"

# what `rt must-fail` says of an edit of the small crate (None: nothing), and what the part then says
EDITS = {
    "taken": ("NOT REFUSED: it is proved", "NOT REFUSED"),
    "cannot_be_made": ("BAD EDIT: an 'old:' text is in src/lib.rt 0 times, and not once", "BAD EDIT"),
    "not_tried": ("NOT TRIED: its check was killed", "NOT TRIED"),
    "shape": ("refused, as it must be (only because a proof file names what the edit took away, so this says little of the contract", "that it is refused shows nothing"),
    "cannot_tell": ("refused, as it must be (only by a limit of the prover, which gave no verdict, so this says less of the contract", "that it is refused shows nothing"),
    "passed_over": (None, "nothing is said of it"),
}
GOOD = {"proof": AS_IT_MUST, "definition": AS_IT_MUST.replace("proofs/", "specs/")}

# what is tried, what is said of each edit, whether the crate is proved, expected counts, what the part says
WRONG = (
    ("edits that are refused", GOOD, True, (2, 0), ("tried 2",)),
    ("a crate that is not proved", GOOD, False, (0, 2), ("small/proof: its crate is not proved without it",)),
    ("edits that are not", GOOD | {name: said for name, (said, _) in EDITS.items()}, True, (2, len(EDITS)),
     tuple(f"small/{name}: {says}" for name, (_, says) in EDITS.items())),
    ("no edit", {}, True, (0, 1), ("nothing was compared",)),
)


def make_repository(folder, name, edits):
    """A repository of one crate with these edits, and with the tests."""
    shutil.copytree(ROOT / "tests", folder / "tests")
    (folder / "crates.txt").write_text(f"{name}: # alone\n", encoding="ascii")
    (folder / "crates" / name / "wrong").mkdir(parents=True)
    for label, text in edits.items():
        (folder / "crates" / name / "wrong" / f"{label}.edit").write_text(text, encoding="utf-8")
    return [folder / "tests" / "run", "wrong"]


def make_small(folder, said, proved):
    """The same with a stand-in for rt, which says whether the crate is proved, and then of each edit what is given, and of none that does not stand in
    must-fail/; returns the surroundings, too."""
    (folder / "crates" / "small" / "src").mkdir(parents=True)
    lines = (f'test ! -e crates/small/must-fail/{name}.edit || echo "rt: must-fail small/{name}.edit: {words}"' for name, words in said.items() if words)
    script(folder / "bin" / "rt", f'test "$1 $2" != "all check" || exit {0 if proved else 1}', 'test "$*" = "must-fail small" || exit 2', *lines)
    edits = {name: "# a wrong program\nfile: src/lib.rt\nold: 1\nnew: 2\n" for name in said}
    return make_repository(folder, "small", edits), OUTSIDE | {"PATH": f"{folder / 'bin'}:{os.environ['PATH']}"}


def edit(new, old, file="src/lib.rt"):
    return f"# a wrong program\nfile: {file}\nold: {old}\nnew: {new}\n"


# edits of the smallest crate, and what rt itself says of those that are not refused for a fact
REAL = {
    "place": (edit("    at + 0", "    at + 1"), None),
    "remark": (edit("// Puts one byte, at", "// Puts one byte at"), "NOT REFUSED"),
    "no_type": (edit("    at + true", "    at + 1"), "BAD EDIT"),
    "not_there": (edit("    at + 1", "    at + 5"), "BAD EDIT"),
    "there_twice": (edit("at: u16", "at"), "BAD EDIT"),
    "no_file": (edit("1", "2", "src/none.rt"), "BAD EDIT"),
    "outside": (edit("    at + 0", "    at + 1", "src/../src/lib.rt"), "BAD EDIT"),
    "nothing": ("# nothing\n", "BAD EDIT"),
}


def try_wrong(findings):
    """The part wrong with a stand-in for rt, and once with rt itself on the smallest crate."""
    for name, said, proved, expected, says in WRONG:
        with tempfile.TemporaryDirectory() as folder:
            findings.check(GROUP, faults_of(*make_small(Path(folder), said, proved), expected, *says), b"", name)
    for name, proved in (("rt itself", True), ("rt itself, of a crate that is not proved", False)):
        with tempfile.TemporaryDirectory() as folder:
            edits = {label: text for label, (text, _) in REAL.items()} if proved else {"place": REAL["place"][0]}
            command = make_repository(Path(folder), "buffers", edits)
            shutil.copytree(ROOT / "crates" / "buffers", Path(folder) / "crates" / "buffers", dirs_exist_ok=True,
                            ignore=lambda *_: ("must-fail", "wrong", "out", *(() if proved else ("put_byte",))))
            says = [f"buffers/{label}: {said}" for label, (_, said) in REAL.items() if said] if proved else ["buffers/place: its crate is not proved without it"]
            findings.check(GROUP, faults_of(command, OUTSIDE, (1, len(REAL) - 1) if proved else (0, 1), *says), b"", name)


def run(findings):
    try_gates(findings)
    try_runs(findings)
    try_wrong(findings)
