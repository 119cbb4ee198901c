"""Comparisons of held tables: every byte of one changed; the same table made in several ways, and tables that differ in little."""

from means import generate, lines, named
from means.calls import check, held_by, look_at, owes_only, written, written_by
from means.compare import randomness
from means.editing import FULL
from means.held import HELD, INVALID, held_of
from means.namedjoins import ECHO
from means.transducer import LINE_PLACES, MAX_TRANSITIONS, places_of, table_file

GROUP = "held tables"
VALUES = (0, 1, 2, 31, 32, 33, 250, 251, 255)  # what each byte becomes, beside one more than it is
FEWER = (0, 255)  # the same in a table with many lines
TABLES = {"table D": (named.D, VALUES), "32 states, no lines": (FULL._replace(transitions=()), VALUES), "256 lines": (FULL, FEWER)}
PIECE = 151  # bytes that are changed in one comparison: 21 of them make a table
# calls that are made beside the writer and the look, one for each change in turn, with what they read beside the table and what is lent that is not full
OTHERS = (("verdict", (), {}), ("translate", (b"\1\2",), {"output": 8}), ("accepts", (b"\1\2", b"\5\6"), {}), ("useful_states", (), {}),
          ("useful_pairs", (), {}), ("append", (bytes(LINE_PLACES),), {}), ("remove", (0,), {}), ("join", (held_of(ECHO),), {}))


# --- every byte ------------------------------------------------------------------------------------------------------


def compare_byte(library, findings, random, held, turn):
    """A held table with one byte changed: the writer, one of the other calls, and the join with the table behind the other; each refuses it, and leaves
    all as it was, or does what it owes. The look shows what is kept. One that is taken is what its own written file reads to."""
    name, beside, sizes = OTHERS[turn % len(OTHERS)]
    call = library.call(random, "write", held)
    good = check(findings, f"{GROUP}, every byte", call)
    check(findings, f"{GROUP}, every byte", library.call(random, "look", held))
    check(findings, f"{GROUP}, every byte", library.call(random, name, held, *beside, **sizes))
    if name == "join":
        check(findings, f"{GROUP}, every byte", library.call(random, name, *beside, held))
    if good and not call.returned:
        faults = owes_only(library.call(random, "read", written_by(call)), table=held)
        findings.check(f"library, {GROUP}, what its own file reads to", faults, held)
    findings.count(f"library, {GROUP}, a byte changed", "refused" if call.returned == INVALID else "taken")


def compare_bytes(library, findings, name, first):
    """Some bytes of a held table, each at several values; at the next byte the next call meets the same value."""
    random = randomness(GROUP, name, first)
    held, values = held_of(TABLES[name][0]), TABLES[name][1]
    for at in range(first, min(first + PIECE, HELD)):
        for turn, value in enumerate(sorted({*values, (held[at] + 1) % 256} - {held[at]}), at):
            compare_byte(library, findings, random, lines.changed(held, at, value), turn)


# --- the same table exactly when the bytes are the same --------------------------------------------------------------


def ways_to(library, random, transducer):
    """The table as it is read, made of one without lines by appending each, and read with lines more that are removed again."""
    yield "read", held_by(library.call(random, "read", table_file(transducer)))
    held = held_by(library.call(random, "read", table_file(transducer._replace(transitions=()))))
    for line in transducer.transitions:
        held = held_by(library.call(random, "append", held, places_of(line)))
    yield "appended", held
    more = [lines.good_line(random, transducer) for _ in range(min(3, MAX_TRANSITIONS - len(transducer.transitions)))]
    held = held_by(library.call(random, "read", table_file(transducer._replace(transitions=(*more, *transducer.transitions)))))
    for _ in more:
        held = held_by(library.call(random, "remove", held, 0))
    yield "removed", held


def compare_same(library, findings, kind, index):
    """A generated table made in several ways, each time the same bytes; and one that differs in a line, in the order or in the repeats of its lines, or
    in nothing: the bytes are the same exactly where the files are."""
    random = randomness(GROUP, "same", kind, index)
    one = generate.KINDS[kind][1](random)[0]
    held = held_of(one)
    for way, made in ways_to(library, random, one):
        findings.check(f"library, {GROUP}, made in several ways", [] if made == held else [f"{way}: other bytes"], table_file(one))
    look_at(library, findings, random, f"{GROUP}, look", held, generate.useful_states(one))
    written(library, findings, random, GROUP, held, table_file(one))
    for other in (generate.one_line_changed(random, one), generate.same_lines(random, one), one):
        calls = [library.call(random, "write", held_by(library.call(random, "read", table_file(table)))) for table in (one, other)]
        same_bytes, same_files = calls[0].inputs == calls[1].inputs, written_by(calls[0]) == written_by(calls[1])
        faults = [] if same_bytes == same_files == (one == other) else [f"the same bytes: {same_bytes}, the same file: {same_files}"]
        findings.check(f"library, {GROUP}, the same exactly when the bytes are", faults, table_file(one), table_file(other).decode())
        findings.count(f"library, {GROUP}, two tables", "the same" if one == other else "others")
