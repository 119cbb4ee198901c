"""Comparisons of the library's edits (yotselina_append, yotselina_remove): lists of them, where a table is held, with the lists of lines that they
make, each call with what it owes (owed.py), and files that are known by hand; and of the look (yotselina_look) at each table that edits have made."""

from means import generate, lines, named, reference
from means.calls import TABLES, as_note, check, held_by, look_at, owes_only, same_refusal, written
from means.compare import randomness, size_name
from means.held import HELD, INVALID, LIST_TOO_SHORT, held_of
from means.named import LINE, header, table
from means.transducer import LINE_PLACES, MAX_CODE, MAX_OUTPUTS, MAX_STATES, MAX_TRANSITIONS, Transition, places_of, table_file

GROUP = "edits"
ITSELF = "reference itself, edits"
LENGTH = 40  # edits of a list
MANY = 40  # lines: of a table with fewer, verdict and translations are asked for after each edit of a list
ASKED = 20  # of any other after one in so many, and after the last
EDITS = {"append": reference.append, "remove": reference.remove}

# 256 different lines, some with each count of outputs
FULL = table(MAX_STATES, range(0, MAX_STATES, 3), range(1, MAX_STATES, 3),
             *((i % MAX_STATES, 7 * i % MAX_STATES, i % (MAX_CODE + 1), *[1 + i % MAX_CODE] * (i % (MAX_OUTPUTS + 1)))
               for i in range(MAX_TRANSITIONS)))
ALMOST_FULL = FULL._replace(transitions=FULL.transitions[:-1])
STATES_ONLY = FULL._replace(transitions=())
NAMED = {
    "the least file": reference.read(named.LEAST), "table P": named.P, "the longest file": reference.read(named.LONGEST), "256 lines": FULL,
    "255 lines": ALMOST_FULL, "no lines": STATES_ONLY, "one state, no lines": named.ONE_STATE,
}


def by_text(content, name, given):
    """The file after an edit that is taken, by its text alone: another count in the first record, and one record more or less."""
    first, *records = content.splitlines(keepends=True)
    count = int(first[13:])
    if name == "append":
        records.append(b"L%s\n" % b"".join(b"%4d" % field for field in given[:4 + given[3]]))
    else:
        del records[len(records) - count + given]
    return first[:13] + b"%4d\n" % (count + (1 if name == "append" else -1)) + b"".join(records)


# --- lists of edits --------------------------------------------------------------------------------------------------


class Edited:
    """A table that the library reads and then edits where it is held (`lent`: one memory for all calls, with some places more behind the table), and
    beside it the table that the reference's edits make of the table at first."""

    group = GROUP

    def __init__(self, library, findings, random, transducer):
        self.library, self.findings, self.random = library, findings, random
        self.table, self.useful = transducer, generate.useful_states(transducer)
        call = library.call(random, "read", table_file(transducer), table=HELD + random.choice((0, 1, 9)))
        check(findings, f"{self.group}, read", call)
        self.lent = call.lent["table"]
        self.lent.keep()

    def held(self):
        return self.lent.content()[:HELD]

    def edit(self, what, name, given):
        """One edit: what it owes, a refusal and that nothing which is lent has changed, or the whole table. Returns whether all is so."""
        before, note = table_file(self.table), f"{what}\n{as_note([given])}"
        call = self.library.call(self.random, name, self.lent, given)
        self.findings.count(f"library, {self.group}, {name}", what)
        if not check(self.findings, f"{self.group}, {name}", call, note):
            return False
        if call.returned:
            return True
        made = EDITS[name](self.table, given)
        faults = [] if by_text(before, name, given) == table_file(made) else ["by the text it is another file"]
        self.findings.check_apart(ITSELF, faults, before, note)
        return self.take(call, made, note)

    def take(self, call, made, note):
        """The table that a call made, and the one that the reference makes: they are the same, the look shows the useful states, and writing gives the
        file, which reading turns into the table again. Returns whether it is so."""
        before, useful = table_file(self.table), self.useful
        self.lent, self.table, self.useful = call.lent.get("result", self.lent), made, generate.useful_states(made)
        self.lent.keep()
        faults = [] if self.held() == held_of(made) else ["not the table that the reference makes"]
        self.findings.check(f"library, {self.group}, the table after each call that is taken", faults, before, note)
        self.findings.count(f"library, {self.group}, the useful states after each call that is taken", "others" if useful != self.useful else "the same")
        note = f"{call.name}, {note}"
        return (not faults and self.look(self.useful, "look at each table that is made", note)
                and written(self.library, self.findings, self.random, self.group, self.lent, table_file(made), note))

    def look(self, useful, what, note):
        """The look at the table shows these states."""
        return look_at(self.library, self.findings, self.random, f"{self.group}, {what}", self.lent, useful, note)

    def ask(self):
        """Verdict and translations of the edited table, as of any other."""
        for name, *words in (("verdict",), *(("translate", word) for word in generate.input_words(self.random, self.table))):
            call = self.library.call(self.random, name, self.lent, *words)
            check(self.findings, f"{GROUP}, {name} of the edited table", call, as_note(words))
        self.findings.count(f"library, {GROUP}, lines of a table that is asked about", size_name(len(self.table.transitions)))

    def edit_all(self, edits):
        """A list of edits, each made for the table as it then is; ends where something is wrong, and returns whether nothing is."""
        for place, make in enumerate(edits, 1):
            if not self.edit(*make(self.random, self.table)):
                return False
            if len(self.table.transitions) < MANY or place % ASKED == 0 or place == len(edits):
                self.ask()
        return True

    def there_and_back(self, line):
        """A line appended and removed again, and the last line removed and appended again: each time the table that was, byte for byte."""
        held, count = self.held(), len(self.table.transitions)
        ways = [(("append", places_of(line)), ("remove", count))] if count < MAX_TRANSITIONS else []
        ways += [(("remove", count - 1), ("append", places_of(last))) for last in self.table.transitions[-1:]]
        for way in ways:
            back = all(self.edit("there and back", *edit) for edit in way) and self.held() == held
            self.findings.check(f"library, {GROUP}, there and back", [] if back else ["another table"], held)
            if not back:
                return


def compare_list(library, findings, name, index):
    """A list of any edits from a named table or from a generated one of this kind; then one that is undone."""
    random = randomness(GROUP, name, index)
    transducer = NAMED[name] if name in NAMED else generate.KINDS[name][1](random)[0]
    edited, growing = Edited(library, findings, random, transducer), random.choice((0.3, 0.5, 0.7))
    if edited.edit_all([lambda random, held: lines.any_edit(random, held, growing)] * LENGTH):
        edited.there_and_back(lines.good_line(random, edited.table))


def compare_each(library, findings, name):
    """Each line of a named table removed by itself; and numbers that no line has."""
    random = randomness(GROUP, "each", name)
    held, count = held_of(NAMED[name]), len(NAMED[name].transitions)
    for number in (*range(count), *lines.numbers_not_there(random, count)):
        check(findings, f"{GROUP}, each line removed", library.call(random, "remove", held, number), f"{name}: {number}")


def compare_ways(library, findings, name):
    """Lines with each count of outputs, appended to a named table: good, and with one place wrong, in every way."""
    random = randomness(GROUP, "ways", name)
    held, last = held_of(NAMED[name]), NAMED[name].states - 1
    for count in range(MAX_OUTPUTS + 1):
        line = Transition(last, last, MAX_CODE, (MAX_CODE, 1, 5, 6, 7, 8, 9, 10)[:count])
        for places in (places_of(line), *lines.wrong_lines(NAMED[name], line)):
            check(findings, f"{GROUP}, good and wrong lines", library.call(random, "append", held, places), f"{name}\n{as_note([places])}")


# --- looks at what edits make ----------------------------------------------------------------------------------------


def a_line(source, target, code=1, *output):
    """The places of a line."""
    return places_of(Transition(source, target, code, output))


def in_a_row(*states):
    """Lines from each state to the next."""
    return [(source, target, 1) for source, target in zip(states, states[1:])]


# what it is about, the table, its useful states; edits, with the useful states after each
LOOKS = (
    ("a way to the final state", table(4, [0], [3]), (), (
        ("append", a_line(0, 1), ()), ("append", a_line(1, 3), (0, 1, 3)), ("append", a_line(2, 3), (0, 1, 3)), ("append", a_line(0, 2), (0, 1, 2, 3)),
        ("remove", 0, (0, 2, 3)), ("remove", 0, (0, 2, 3)), ("remove", 0, ()))),
    ("lines of no accepting path", table(4, [0], [1], (0, 1, 1), (0, 2, 1), (3, 1, 1), (2, 2, 1), (3, 2, 1)), (0, 1), (
        ("remove", 4, (0, 1)), ("remove", 3, (0, 1)), ("remove", 1, (0, 1)), ("remove", 1, (0, 1)), ("remove", 0, ()))),
    ("a line that is there twice", table(2, [0], [1], (0, 1, 1, 5), (0, 1, 1, 5)), (0, 1), (
        ("remove", 0, (0, 1)), ("remove", 0, ()), ("append", a_line(0, 1, 1, 5), (0, 1)))),
    ("start and final state in one", table(3, [1], [1]), (1,), (
        ("append", a_line(1, 1), (1,)), ("append", a_line(1, 2), (1,)), ("append", a_line(0, 1), (1,)), ("append", a_line(2, 1), (1, 2)),
        ("append", a_line(2, 0), (0, 1, 2)), ("remove", 1, (1,)))),
    ("a round that does not finish", table(4, [0], [3], (0, 3, 1)), (0, 3), (
        ("append", a_line(0, 1), (0, 3)), ("append", a_line(1, 2), (0, 3)), ("append", a_line(2, 1), (0, 3)), ("append", a_line(2, 3), (0, 1, 2, 3)),
        ("remove", 0, (0, 1, 2, 3)), ("remove", 3, ()))),
    ("lines that read and write nothing", table(3, [0], [2], (0, 1, 0), (1, 2, 0)), (0, 1, 2), (
        ("remove", 1, ()), ("append", a_line(0, 2, 0), (0, 2)), ("append", a_line(1, 2, 0), (0, 1, 2)))),
    ("no start state", table(2, [], [1]), (), (("append", a_line(0, 1), ()), ("append", a_line(1, 0), ()), ("remove", 0, ()))),
    ("no final state", table(2, [0], []), (), (("append", a_line(0, 1), ()), ("append", a_line(1, 0), ()), ("remove", 0, ()))),
    ("32 states in a row", table(32, [0], [31], *in_a_row(*range(31))), (), (
        ("append", a_line(30, 31), range(32)), ("remove", 15, ()), ("append", a_line(15, 31), (*range(16), 31)), ("append", a_line(15, 16), range(32)),
        ("remove", 0, ()))),
    ("32 states in a row, from the last", table(32, [31], [0], *in_a_row(*range(31, 0, -1))), (), (
        ("append", a_line(1, 0), range(32)), ("remove", 0, ()), ("append", a_line(31, 0), (0, 31)))),
    ("the last state alone", table(32, [31], [31]), (31,), (
        ("append", a_line(31, 0), (31,)), ("append", a_line(0, 31), (0, 31)), ("remove", 0, (31,)), ("remove", 0, (31,)))),
    ("the 256th line", table(3, [0], [2], *[(0, 1, 1)] * 255), (), (("append", a_line(1, 2), (0, 1, 2)), ("remove", 255, ()))),
    ("the first of 256 lines", table(3, [0], [2], (1, 2, 1), *[(0, 1, 1)] * 255), (0, 1, 2), (("remove", 0, ()), ("append", a_line(1, 2), (0, 1, 2)))),
)


def compare_looks(library, findings):
    """Lists of edits after each of which the useful states are known by hand; the reference, too, must have these."""
    random, what = randomness(GROUP, "looks"), "look, known states"
    for title, transducer, useful, edits in LOOKS:
        edited = Edited(library, findings, random, transducer)
        edited.look(useful, what, title)
        for name, given, after in edits:
            if not edited.edit("to look at", name, given):
                break
            edited.look(after, what, f"{title}, {name}\n{as_note([given])}")
            findings.check_apart(ITSELF, [] if edited.useful == set(after) else [f"other useful states: {edited.useful}"], edited.held(), title)


# --- known files -----------------------------------------------------------------------------------------------------

P_LINE, P_OTHER = b"L   0   0   1   1   5\n", b"L   0   0   1   1   6\n"
EIGHT = b"L   0   0 250   8   1  22 250   4   5   6   7   8\n"

P_AND_A_LINE = b"""T   1   1   1   3
S   0
F   0
L   0   0   1   1   5
L   0   0   1   1   6
L   0   0   2   0
"""
P_SECOND_LINE = b"""T   1   1   1   1
S   0
F   0
L   0   0   1   1   6
"""
P_NO_LINE = b"""T   1   1   1   0
S   0
F   0
"""


def p_file(*records):
    """Table P's file with other lines, at most nine."""
    return b"T   1   1   1   %d\nS   0\nF   0\n" % len(records) + b"".join(records)


# what it is about, the file, the call with what it is given, the file after it
KNOWN = (
    ("P, a line that writes nothing", named.P_FILE, "append", bytes((0, 0, 2, 0, *[0] * 8)), P_AND_A_LINE),
    ("P, a line that reads nothing", named.P_FILE, "append", bytes((0, 0, 0, 1, 9, *[0] * 7)), p_file(P_LINE, P_OTHER, b"L   0   0   0   1   9\n")),
    ("P, eight outputs", named.P_FILE, "append", bytes((0, 0, 250, 8, 1, 22, 250, 4, 5, 6, 7, 8)), p_file(P_LINE, P_OTHER, EIGHT)),
    ("P, its first line once more", named.P_FILE, "append", bytes((0, 0, 1, 1, 5, *[0] * 7)), p_file(P_LINE, P_OTHER, P_LINE)),
    ("P without its first line", named.P_FILE, "remove", 0, P_SECOND_LINE),
    ("P without its second line", named.P_FILE, "remove", 1, p_file(P_LINE)),
    ("P without a line that was appended", P_AND_A_LINE, "remove", 2, named.P_FILE),
    ("the only line", P_SECOND_LINE, "remove", 0, P_NO_LINE),
    ("a middle line", p_file(P_LINE, EIGHT, P_OTHER), "remove", 1, named.P_FILE),
    ("one of two that are the same", p_file(P_LINE, P_OTHER, P_LINE), "remove", 0, p_file(P_OTHER, P_LINE)),
    ("the least file", b"T   1   0   0   0\n", "append", bytes(12), b"T   1   0   0   1\nL   0   0   0   0\n"),
    ("the tenth line", header(lines=9) + LINE * 9, "append", bytes((0, 0, 1, *[0] * 9)), b"T   1   0   0  10\n" + LINE * 10),
    ("the hundredth line", header(lines=99) + LINE * 99, "append", bytes((0, 0, 1, *[0] * 9)), b"T   1   0   0 100\n" + LINE * 100),
    ("the 256th line", header(lines=255) + LINE * 255, "append", bytes((0, 0, 1, *[0] * 9)), b"T   1   0   0 256\n" + LINE * 256),
    ("255 lines are left", header(lines=256) + LINE * 255 + b"L   0   0   2   0\n", "remove", 255, b"T   1   0   0 255\n" + LINE * 255),
    ("99 lines are left", header(lines=100) + b"L   0   0   2   0\n" + LINE * 99, "remove", 0, b"T   1   0   0  99\n" + LINE * 99),
    ("9 lines are left", header(lines=10) + LINE * 10, "remove", 5, b"T   1   0   0   9\n" + LINE * 9),
    ("states 31", b"T  32   1   1   0\nS  31\nF   0\n", "append", bytes((31, 30, 10, *[0] * 9)),
     b"T  32   1   1   1\nS  31\nF   0\nL  31  30  10   0\n"),
)


def compare_known(library, findings):
    """A file read, the table edited and written: the file after it, byte for byte."""
    random = randomness(GROUP, "known")
    for title, content, name, given, expected in KNOWN:
        call = library.call(random, name, held_by(library.call(random, "read", content)), given)
        faults = [f"returned {call.returned}"] if call.returned else []
        faults += owes_only(library.call(random, "write", held_by(call)), out=expected, answer=(len(expected),))
        findings.check(f"library, {GROUP}, known files", faults, content, f"{title}\n{as_note([given])}")


# --- refusals --------------------------------------------------------------------------------------------------------

GOOD, WRONG = bytes(LINE_PLACES) + b"\xff", b"\xff" * (LINE_PLACES + 1)  # and a place more, which is not looked at
GIVEN = (*(("append", line[:size]) for line in (GOOD, WRONG) for size in range(LINE_PLACES + 2)),
         *(("remove", number) for number in (0, 1, 2, 254, 255, 256, 2**8 + 1, 2**16, 2**32, 2**32 + 1, lines.MAX_NUMBER)))
FULL_HELD = held_of(FULL)
# held tables, with their own refusals and the count of their lines
REFUSED = (*((held, refused, len(named.P.transitions)) for held, refused in TABLES), (FULL_HELD, None, MAX_TRANSITIONS),
           (lines.changed(FULL_HELD, 0, MAX_STATES + 1), INVALID, MAX_TRANSITIONS), (held_of(ALMOST_FULL), None, MAX_TRANSITIONS - 1))


def own_refusals(count, name, given):
    """The numbers of the refusals of an edit that hold on a table of so many lines, in their order."""
    if name == "remove":
        return [18] * (given >= count)
    return [19] * (given[:1] == WRONG[:1]) + [17] * (count == MAX_TRANSITIONS)


def compare_refusals(library, findings, held, broken, count):
    """Every refusal, and every two and more of them at once: a table or a line that is too short, the table, the call's own."""
    random = randomness(GROUP, "refusals", held)
    for name, given in GIVEN:
        short = broken == LIST_TOO_SHORT or (name == "append" and len(given) < LINE_PLACES)
        refusals = [LIST_TOO_SHORT] * short + [broken] * bool(broken) + own_refusals(count, name, given)
        for behind in (b"", random.randbytes(7)) if len(held) >= HELD else (b"",):
            call = library.call(random, name, held + behind, given)
            if refusals:
                same_refusal(findings, f"{GROUP}, which refusal goes first", call, refusals[0], note=as_note([given]))
            else:
                check(findings, f"{GROUP}, no refusal", call, as_note([given]))
