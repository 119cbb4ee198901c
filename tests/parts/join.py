"""The library's join of two tables (yotselina_join)."""

from means import generate, reference, series
from means.calls import SOME_TABLES, check, held_by
from means.compare import randomness
from means.joins import (GROUP, as_second, compare_alike, compare_known, compare_limits, compare_mixed, compare_pair, compare_refusals,
                         look_at_joined)
from means.library import Library, build
from means.namedjoins import BLANK, ECHO
from means.owed import table_held
from means.series import held_pair
from means.settings import share
from means.transducer import Transducer, table_file
from means.workers import spread

MIXED = 1_500  # pairs of held tables of which many are damaged, with any sizes
ALIKE = 800  # pairs of tables with a pair that is alike


def useful_part(transducer):
    """The useful states, numbered anew, and the lines between them; the blank table if there are none."""
    names = {state: name for name, state in enumerate(sorted(generate.useful_states(transducer)))}
    if not names:
        return BLANK
    lines = (line._replace(source=names[line.source], target=names[line.target]) for line in transducer.transitions
             if line.source in names and line.target in names)
    return Transducer(len(names), *(tuple(names[state] for state in states if state in names) for states in transducer[1:3]), tuple(lines))


def compare_echo(library, findings, kind, index):
    """A table behind or before one that writes each code as it reads it: its useful part, with the lines in another order."""
    random = randomness(GROUP, "echo", kind, index)
    transducer, _ = generate.KINDS[kind][1](random)
    shorter = series.one_code_each(random, transducer, ECHO, 0)
    for pair, expected in (((ECHO, transducer), transducer), ((shorter, ECHO), shorter)):
        call = library.call(random, "join", *held_pair(pair))
        note = as_second(call.inputs[1])
        if check(findings, f"{GROUP}, with an echo", call, note):
            faults = [] if reference.alike(table_held(held_by(call)).transducer, useful_part(expected)) else ["not the useful part of the table"]
            findings.check(f"library, {GROUP}, with an echo", faults, table_file(pair[0]), note)
            look_at_joined(library, findings, random, call)


def run(findings):
    build()
    jobs = [(compare_pair, kind, index) for kind, (count, _) in series.KINDS.items() for index in range(share(count))]
    jobs += [(compare_echo, kind, index) for kind, (count, _) in generate.KINDS.items() for index in range(share(-(-count // SOME_TABLES)))]
    jobs += [(compare, index) for compare, count in ((compare_mixed, MIXED), (compare_alike, ALIKE)) for index in range(share(count))]
    jobs += [(compare_known,), (compare_limits,), (compare_refusals,)]
    spread(Library, jobs, findings)
