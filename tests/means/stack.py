"""The stack that each call takes, by stack.c."""

import re

from means.library import SOURCES, STRICT, compile_c
from means.named import longest_translation
from means.namedjoins import LARGEST
from means.owed import COMPARISONS
from means.programs import run_program
from means.transducer import table_file

LISTS = (1_000, 1_000_000)  # codes of the lists whose difference stack.c measures


def run_stack(folder, *linked):
    """stack.c with what is linked to it, run on the table with the longest translation and on two tables with the largest join."""
    names = [folder / name for name in ("table", "first", "second")]
    for name, transducer in zip(names, (longest_translation()[0], *LARGEST)):
        name.write_bytes(table_file(transducer))
    complaint = compile_c("gcc", "-std=c99", *STRICT, f"-I{SOURCES}", "-o", folder / "stack", SOURCES / "stack.c", *linked)
    return (None, "", complaint) if complaint else run_program(folder / "stack", *names)


def guarded(run):
    """How each call of more than a few pages of stack ends where there is only half of it, and a guard page below."""
    return dict(re.findall(r"^(\w+) on half of it ends (.*)$", run[1], re.MULTILINE))


def stack_of_lists(run):
    """For each kind of difference the bytes of stack with short lists and with long ones; None where that was not measured."""
    lines = re.findall(r"^(\d+) codes, kind (\d+): (\d+)$", run[1], re.MULTILINE)
    taken = {(kind, int(codes)): int(number) for codes, kind, number in lines}
    return {name: tuple(taken.get((str(kind), codes)) for codes in LISTS) for kind, name in enumerate(COMPARISONS)}
