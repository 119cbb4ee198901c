"""Tables, files and words by name: those of document 01, the limits of the file and of words, repeated lines, and the plausible and false ideas
that document 01 warns of."""

from means.listing import MAX_TRANSLATION, show
from means.transducer import MAX_FILE, MAX_WORD, Transducer, Transition, record, table_file


def table(states, starts, finals, *lines):
    """A transducer; a line is (source, target, input, outputs..)."""
    return Transducer(states, tuple(starts), tuple(finals), tuple(Transition(*line[:3], tuple(line[3:])) for line in lines))


P_LINES = ((0, 0, 1, 5), (0, 0, 1, 6))
P = table(1, [0], [0], *P_LINES)
D = table(4, [0], [3], (0, 1, 1, 5, 6), (1, 3, 2), (0, 2, 1), (2, 3, 2, 5, 6))
D_SPLIT = table(4, [0], [3], (0, 1, 1, 5, 6), (1, 3, 2), (0, 2, 1), (2, 3, 2, 6, 5))
D_TWICE = D._replace(transitions=D.transitions * 2)
ONE_STATE = table(1, [0], [0])
EIGHT = (1, 2, 3, 4, 5, 6, 7, 250)  # as many codes as a line can write

P_FILE = b"""T   1   1   1   2
S   0
F   0
L   0   0   1   1   5
L   0   0   1   1   6
"""
NO_FILE = b"x"  # refused 2 at record 0
LATE = P_FILE + b" "  # refused 6 at record 5


def single(useful):
    return show(("V", (0, useful)))


def split(useful, word, left, right, left_output, right_output, shared):
    named = zip("WABXY", (word, left, right, left_output, right_output))
    return show(("V", (1, useful)), *((letter, (len(items), *items)) for letter, items in named), ("D", (shared,)))


def refused(number, at=0):
    return show(("R", (number, at)))


def output(*codes):
    return show(("X", (len(codes), *codes)))


# --- document 01's small tables, the ideas it calls plausible and false, and repeated lines --------------------------

# name, table, what the verdict program prints byte for byte
VERDICTS = (
    ("no start state", table(2, [], [0, 1], (0, 1, 1, 5), (0, 1, 1, 6)), single(0)),
    ("one state, start and final, no lines", ONE_STATE, single(1)),
    ("table P", P, split(1, [1], [0], [1], [5], [6], 0)),
    ("a loop that reads nothing and writes 5", table(1, [0], [0], (0, 0, 0, 5)), split(1, [], [], [0], [], [5], 0)),
    ("a loop that reads and writes nothing", table(1, [0], [0], (0, 0, 0)), single(1)),
    ("table D", D, single(6)),
    ("table D, the last line writing 6 5", D_SPLIT, split(6, [1, 2], [0, 1], [2, 3], [5, 6], [6, 5], 0)),
    ("a line twice", table(1, [0], [0], P_LINES[0], P_LINES[0]), single(1)),
    ("table D, each line twice", D_TWICE, single(6)),
    ("P's lines at a state that is not reached", table(2, [0], [0], (1, 1, 1, 5), (1, 1, 1, 6)), single(1)),
    ("a clash at a pair that cannot finish",
     table(4, [0], [1], (0, 1, 1, 5), (0, 2, 1, 6), (2, 2, 1, 7), (1, 3, 2, 8), (2, 3, 2, 9)), single(2)),
    ("one side reads nothing", table(3, [0], [2], (0, 2, 1, 5), (0, 1, 0, 6), (1, 2, 1)), split(5, [1], [0], [1, 2], [5], [6], 0)),
    ("5 ahead and 5 behind are not equal",
     table(4, [0], [3], (0, 1, 1, 5), (0, 2, 1), (0, 1, 2), (0, 2, 2, 5), (1, 3, 3), (2, 3, 3, 5)),
     split(6, [2, 3], [2, 4], [3, 5], [], [5, 5], 0)),
    ("paths of different lengths", table(3, [0], [2], (0, 2, 1, 5), (0, 1, 1, 5), (1, 2, 0, 6)),
     split(5, [1], [0], [1, 2], [5], [5, 6], 1)),
    ("Y is a beginning of X", table(3, [0], [2], (0, 1, 1, 5), (1, 2, 0, 6), (0, 2, 1, 5)), split(5, [1], [0, 1], [2], [5, 6], [5], 1)),
    ("a clash behind eight codes in common", table(3, [0], [2], (0, 1, 1, *EIGHT), (1, 2, 2, 5), (1, 2, 2, 6)),
     split(3, [1, 2], [0, 1], [0, 2], [*EIGHT, 5], [*EIGHT, 6], 8)),
    ("a line in common that writes nothing", table(3, [0], [2], (0, 1, 1), (1, 2, 2, 5), (1, 2, 2, 6)),
     split(3, [1, 2], [0, 1], [0, 2], [5], [6], 0)),
    ("codes in common at the end only", table(1, [0], [0], (0, 0, 1, 5, 7), (0, 0, 1, 6, 7)), split(1, [1], [0], [1], [5, 7], [6, 7], 0)),
    ("a clash long before the end",
     table(6, [0], [5], (0, 1, 1, 5), (0, 2, 1, 6), (1, 3, 2), (2, 4, 2), (3, 5, 3), (4, 5, 3)),
     split(10, [1, 2, 3], [0, 2, 4], [1, 3, 5], [5], [6], 0)),
    ("two starts", table(3, [0, 1], [2], (0, 2, 1, 5), (1, 2, 1, 6)), split(5, [1], [0], [1], [5], [6], 0)),
    ("lines 254 and 255 differ", table(1, [0], [0], *[(0, 0, 1)] * 254, (0, 0, 2, 5), (0, 0, 2, 6)), split(1, [2], [254], [255], [5], [6], 0)),
    ("state 31", table(32, [31], [31], (31, 31, 250, 5), (31, 31, 250, 6)), split(1, [250], [0], [1], [5], [6], 0)),
    ("input and output codes of the same number", table(2, [0], [1], (0, 1, 5, 5), (0, 1, 6, 5)), single(2)),
)

ONES = (1,) * 8


def parting_late(turning, *more):
    """A table of 32 states, from 0 to 31, whose outputs part late. Of its states so many turn: input 1 moves each to the next, 2 moves the last to the
    first and leaves the others (Cerny's automaton). Two paths begin together and turn; at the last state input 3 takes them half a turn apart, and from
    there they come through every pair of different states, the last and the first at the end, where input 2 takes them together again. Each of these
    lines writes eight ones. More are given: both paths read 4 at different states only if these are the last and the first."""
    last = turning - 1
    turns = [line for state in range(turning) for line in ((state, (state + 1) % turning, 1), (state, state if state < last else 0, 2))]
    return table(32, [0], [31], *((*line, *ONES) for line in (*turns, (last, 0, 3), (last, turning // 2, 3))), *more)


# name, with the least number of lines of two paths that read one word and write different outputs; table; the least number of codes that these outputs
# have in common
PART_LATE = (
    ("X is a beginning of Y, 1,055 lines", parting_late(32, (31, 16, 4, *ONES), (0, 0, 4, *ONES[1:])), 8 * 1_055 - 1),
    ("Y is a beginning of X, 1,055 lines", parting_late(32, (31, 16, 4, *ONES[1:]), (0, 0, 4, *ONES)), 8 * 1_055 - 1),
    ("a clash with the last code of one, 992 lines", parting_late(31, (30, 15, 4, *ONES), (0, 0, 4, *ONES[1:]), (30, 31, 5, *ONES[1:], 2)), 8 * 992 - 2),
    ("a clash of the last codes, 498 lines", parting_late(32, (31, 31, 4, *ONES), (0, 31, 4, *ONES[1:], 2)), 8 * 498 - 1),
)

# name, table, word, what the translating program prints byte for byte
TRANSLATIONS = (
    ("no start state, empty word", table(1, [], [0]), [], refused(11)),
    ("no start state, 255 codes", table(1, [], [0], (0, 0, 1)), [1] * MAX_WORD, refused(11)),
    ("one state, the empty word", ONE_STATE, [], output()),
    ("one state, the word 1", ONE_STATE, [1], refused(11)),
    ("table D", D, [1, 2], output(5, 6)),
    ("table D, half a word", D, [1], refused(11)),
    ("table D, each line twice", D_TWICE, [1, 2], output(5, 6)),
    ("table D, each line twice, half a word", D_TWICE, [1], refused(11)),
    ("no final state", table(1, [0], [], (0, 0, 1)), [1], refused(11)),
    ("255 codes", table(1, [0], [0], (0, 0, 1, 7)), [1] * 255, output(*[7] * 255)),
    ("256 codes", table(1, [0], [0], (0, 0, 1, 7)), [1] * 256, refused(9)),
    ("300 codes", table(1, [0], [0], (0, 0, 1, 7)), [1] * 300, refused(9)),
    ("256 codes, one of them 0", ONE_STATE, [1] * 255 + [0], refused(9)),
    ("code 0", ONE_STATE, [0], refused(10)),
    ("code 250", table(1, [0], [0], (0, 0, 250, 250)), [250], output(250)),
    ("code 251", ONE_STATE, [251], refused(10)),
    ("code 255 in a word that no path reads", ONE_STATE, [1, 255], refused(10)),
    ("byte 10 is a code", table(1, [0], [0], (0, 0, 10, 10)), [10, 10], output(10, 10)),
    ("reads nothing at both ends", table(4, [0], [3], (0, 1, 0, 5), (1, 2, 1, 6), (2, 3, 0, 7)), [1], output(5, 6, 7)),
    ("line 255", table(1, [0], [0], *[(0, 0, 1)] * 255, (0, 0, 2, 7)), [2], output(7)),
    ("state 31", table(32, [31], [31], (31, 31, 1, 9)), [1], output(9)),
    ("eight outputs", table(2, [0], [1], (0, 1, 1, 8, 7, 6, 5, 4, 3, 2, 1)), [1], output(8, 7, 6, 5, 4, 3, 2, 1)),
    ("a silent loop", table(2, [0], [1], (0, 0, 0), (0, 1, 1, 6), (1, 1, 0)), [1], output(6)),
)


def longest_translation():
    """Every state at every position: 8,191 transitions of eight codes each."""
    lines = [(state, state + 1, 0, *EIGHT) for state in range(31)] + [(31, 0, 1, *EIGHT)]
    return table(32, [0], [31], *lines), [1] * MAX_WORD, EIGHT * (MAX_TRANSLATION // 8)


# --- files at the limits ---------------------------------------------------------------------------------------------


def header(states=1, starts=0, finals=0, lines=0):
    return record("T", (states, starts, finals, lines)).encode()


LINE = b"L   0   0   1   0\n"
LEAST = header()
LONGEST = table_file(table(32, range(32), range(32), *[(31, 31, 250, *[250] * 8)] * 256))

# name, file, what the verdict program prints byte for byte
FILES = (
    ("n is 32", header(states=32), single(0)),
    ("n is 33", header(states=33), refused(4)),
    ("n is 0", header(states=0), refused(4)),
    ("k is 256", header(lines=256) + LINE * 256, single(0)),
    ("k is 257", header(lines=257) + LINE * 257, refused(4)),
    ("32 start states", header(32, 32) + b"".join(b"S%4d\n" % s for s in range(32)), single(0)),
    ("33 start states", header(32, 33), refused(4)),
    ("33 final states", header(32, 0, 33), refused(4)),
    ("the field `  00`", b"T   1   0  00   0\n", refused(3)),
    ("the field `  01`", b"T  01   0   0   0\n", refused(3)),
    ("the field `    `", b"T       0   0   0\n", refused(3)),
    ("the field `1   `", b"T1      0   0   0\n", refused(3)),
    ("the field ` 1 0`", b"T 1 0   0   0   0\n", refused(3)),
    ("the field `  +1`", b"T  +1   0   0   0\n", refused(3)),
    ("the field `9999`", b"T9999   0   0   0\n", refused(4)),
    ("an empty file", b"", refused(1)),
    ("only a letter", b"T", refused(1)),
    ("a wrong letter", b"t   1   0   0   0\n", refused(2)),
    ("three bytes of a field", b"T   1   0   0  x", refused(1)),
    ("no record end", b"T   1   0   0   0", refused(1)),
    ("a wrong record end", b"T   1   0   0   0\r\n", refused(2)),
    ("no S record", header(starts=1), refused(1, 1)),
    ("an F record for an S record", header(starts=1) + b"F   0\n", refused(2, 1)),
    ("a start state that is n", header(2, 1) + b"S   2\n", refused(4, 1)),
    ("a start state twice", header(2, 2) + b"S   1\nS   1\n", refused(5, 2)),
    ("start states that fall", header(2, 2) + b"S   1\nS   0\n", refused(5, 2)),
    ("more start states than states", header(1, 2) + b"S   0\nS   1\n", refused(4, 2)),
    ("the first final state is below the last start state", header(2, 1, 1) + b"S   1\nF   0\n", single(0)),
    ("final states that fall", header(2, 1, 2) + b"S   1\nF   1\nF   0\n", refused(5, 3)),
    ("a fault in the record end after a state that does not rise", header(2, 2) + b"S   1\nS   1 ", refused(5, 2)),
    ("a line that leaves state n", header(lines=1) + b"L   1   0   0   0\n", refused(4, 1)),
    ("a line that enters state n", header(lines=1) + b"L   0   1   0   0\n", refused(4, 1)),
    ("input 250", header(lines=1) + b"L   0   0 250   0\n", single(0)),
    ("input 251", header(lines=1) + b"L   0   0 251   0\n", refused(4, 1)),
    ("8 outputs", header(lines=1) + b"L   0   0   1   8" + b" 250" * 8 + b"\n", single(0)),
    ("9 outputs", header(lines=1) + b"L   0   0   1   9" + b" 250" * 9 + b"\n", refused(4, 1)),
    ("output 0", header(lines=1) + b"L   0   0   1   1   0\n", refused(4, 1)),
    ("output 251", header(lines=1) + b"L   0   0   1   1 251\n", refused(4, 1)),
    ("fewer outputs than counted", header(lines=1) + b"L   0   0   1   2   5\n", refused(1, 1)),
    ("more outputs than counted", header(lines=1) + b"L   0   0   1   1   5   6\n", refused(2, 1)),
    ("one line too few", header(lines=2) + LINE, refused(1, 2)),
    ("one line too many", header(lines=1) + LINE * 2, refused(6, 2)),
    ("a byte after the last record", header() + b"\n", refused(6, 1)),
    ("a byte after the last record of table P", P_FILE + b" ", refused(6, 5)),
    ("a byte after the longest file", LONGEST + b"\n", refused(6, 321)),
    ("a million bytes after the longest file", LONGEST + b"x" * 1_000_000, refused(6, 321)),
    ("a million bytes", b"T" * 1_000_000, refused(3)),
)

BEHIND = "bytes behind the last record"
MOST_BEHIND = 20_000
FILLERS = {"line ends": b"\n", "spaces": b" ", "lines": LINE}  # what stands behind the last record
# name, file, count of its records
WHOLE = (("the least file", LEAST, 1), ("table P", P_FILE, 5), ("the longest file", LONGEST, 321))


def behind(filler, count):
    """So many bytes to stand behind the last record."""
    return (filler * count)[:count]


def files_with_bytes_behind():
    """The whole files with bytes behind the last record: one, as many as make them about as long as the longest file or 20,000 bytes long, and the
    most. What it is, the file, the count of its records."""
    for name, content, records in WHOLE:
        lengths = {len(content) + 1, *range(MAX_FILE - 1, MAX_FILE + 3), MOST_BEHIND, len(content) + MOST_BEHIND}
        for count in sorted(length - len(content) for length in lengths if length > len(content)):
            for filling, filler in FILLERS.items():
                yield f"{name}, bytes behind: {count:,}, {filling}", content + behind(filler, count), records
