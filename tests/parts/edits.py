"""The library's edits (yotselina_append, yotselina_remove), and the look (yotselina_look) at what edits, or edits and joins, have made; each table that
is made is written, and read again."""

from itertools import product

from means import generate, lines, reference, series
from means.calls import as_note, check
from means.compare import randomness
from means.editing import (GROUP, NAMED, REFUSED, Edited, compare_each, compare_known, compare_list, compare_looks, compare_refusals,
                           compare_ways)
from means.held import held_of
from means.library import Library, build
from means.settings import share
from means.transducer import LINE_PLACES, MAX_CODE, MAX_OUTPUTS, MAX_STATES, MAX_TRANSITIONS, Transition, places_of, table_file
from means.workers import spread

SOME_TABLES = 8  # for one table of a kind in so many, a list of edits
LISTS = 5  # lists from each named table
PAST = 5  # edits beyond a full table, and beyond an empty one
MAKINGS = 150  # of edits and joins in any order
CALLS_OF_A_MAKING = 12

# tables that are filled, and from where they are emptied then
FILLED = (("the least file", "first"), ("table P", "any"), ("no lines", "last"), ("the longest file", "any"))


def compare_filled(library, findings, name, order):
    """A table filled to 256 lines and past it, then emptied from one end, from the other or anywhere, and past that."""
    random = randomness(GROUP, "filled", name, order)
    edited = Edited(library, findings, random, NAMED[name])
    more = MAX_TRANSITIONS - len(edited.table.transitions)
    fill = [lambda random, held: ("to fill it", "append", places_of(lines.good_line(random, held)))] * (more + PAST)
    numbers = {"first": lambda count: 0, "last": lambda count: max(0, count - 1), "any": lambda count: random.randrange(count or 1)}
    empty = [lambda random, held: ("to empty it", "remove", numbers[order](len(held.transitions)))] * (MAX_TRANSITIONS + PAST)
    edited.edit_all(fill + empty)


# lines without outputs, with some, with the most
LINES = (Transition(0, 0, 0), Transition(0, 0, MAX_CODE, (1, MAX_CODE, 5)), Transition(0, 0, 1, (MAX_CODE,) * MAX_OUTPUTS))


def compare_bytes(library, findings, line):
    """Every byte at each place of a line."""
    random = randomness(GROUP, "bytes", line)
    for name in ("table P", "no lines"):
        held = held_of(NAMED[name])
        for at, value in product(range(LINE_PLACES), range(256)):
            places = lines.changed(places_of(line), at, value)
            check(findings, f"{GROUP}, every byte", library.call(random, "append", held, places), as_note([places]))


# --- edits and joins in any order ------------------------------------------------------------------------------------


class Made(Edited):
    """A table that edits and joins make, in any order."""

    group = "makings"

    def join(self, what, pair):
        """The table joined with another that stands before it or behind it: like an edit."""
        call = self.library.call(self.random, "join", *(self.lent if one is self.table else held_of(one) for one in pair))
        note = f"{what}\nthe second file:\n{table_file(pair[1]).decode()}"
        self.findings.count(f"library, {self.group}, join", f"{what}, {'refused' if call.returned else 'taken'}")
        if not check(self.findings, f"{self.group}, join", call, note):
            return False
        return bool(call.returned) or self.take(call, reference.join(*pair), note)

    def make(self, growing):
        """An edit or a join; then what yotselina_useful_states works out must be what the look shows. Returns whether all is so."""
        kind = self.random.random()
        if kind < 0.3:
            done = self.join("another behind it", series.put_behind(self.random, self.table))
        elif kind < 0.5:
            done = self.join("another before it", series.put_before(self.random, self.table))
        else:
            done = self.edit(*lines.any_edit(self.random, self.table, growing))
        calls = [self.library.call(self.random, name, self.lent) for name in ("look", "useful_states")]
        shown, found = ((call.returned, call.lent["flags"].items(MAX_STATES)) for call in calls)
        faults = [] if shown == found else [f"the look shows {shown}, yotselina_useful_states {found}"]
        self.findings.check(f"library, {self.group}, look and useful_states show the same", faults, self.held())
        return done and not faults


def compare_making(library, findings, index):
    """Edits and joins of a generated table, often of one with at most one code on a line; ends with a blank table, which no call makes useful."""
    random = randomness("makings", index)
    kinds = list(generate.KINDS)
    transducer, _ = generate.KINDS[kinds[index % len(kinds)]][1](random)
    if random.random() < 0.6:
        transducer = transducer._replace(transitions=tuple(line._replace(output=line.output[:1]) for line in transducer.transitions))
    made, growing = Made(library, findings, random, transducer), random.choice((0.3, 0.5, 0.7))
    for _ in range(CALLS_OF_A_MAKING):
        if not made.make(growing) or made.table == reference.BLANK:
            break
    findings.count("library, makings, end", "blank" if made.table == reference.BLANK else "not blank")


def run(findings):
    build()
    jobs = [(compare_list, kind, index) for kind, (count, _) in generate.KINDS.items() for index in range(share(-(-count // SOME_TABLES)))]
    jobs += [(compare_list, name, index) for name in NAMED for index in range(share(LISTS))]
    jobs += [(compare_filled, *filled) for filled in FILLED] + [(compare_bytes, line) for line in LINES]
    jobs += [(compare, name) for compare in (compare_each, compare_ways) for name in NAMED]
    jobs += [(compare_refusals, *refused) for refused in REFUSED] + [(compare_known,), (compare_looks,)]
    jobs += [(compare_making, index) for index in range(share(MAKINGS))]
    spread(Library, jobs, findings)
