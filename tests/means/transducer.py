"""A transducer (document 01: a table with its lines), and the file that holds it."""

from typing import NamedTuple

MAX_STATES = 32
MAX_TRANSITIONS = 256
MAX_OUTPUTS = 8
LINE_PLACES = 4 + MAX_OUTPUTS  # places of a line that is lent: state left, state entered, input, count of outputs, the outputs
MAX_CODE = 250
MAX_WORD = 255
MAX_TESTED_INPUT = 63  # codes of the input word of a word test
MAX_TESTED_OUTPUT = 127  # codes of its output word
MAX_FILE = 13_202
FILE_SEEN = MAX_FILE + 1  # what the programs read of a table file
WORD_SEEN = MAX_WORD + 1  # what the translating program reads of standard input


class Transition(NamedTuple):
    """A line: the state it leaves, the state it enters, its input (0 reads nothing) and what it writes."""

    source: int
    target: int
    input: int
    output: tuple = ()


class Transducer(NamedTuple):
    """A table. Start and final states rise; transitions are numbered from 0."""

    states: int
    starts: tuple
    finals: tuple
    transitions: tuple


def places_of(line):
    """A line as it is lent: the places of its outputs beyond their count hold 0."""
    return bytes((line.source, line.target, line.input, len(line.output), *line.output)).ljust(LINE_PLACES, b"\0")


def record(letter, numbers, width=4):
    """One record: a letter, its number fields, byte 10."""
    return letter + "".join(str(number).rjust(width) for number in numbers) + "\n"


def table_file(transducer):
    """The bytes of the table file of a transducer."""
    states, starts, finals, transitions = transducer
    records = [record("T", (states, len(starts), len(finals), len(transitions)))]
    records += [record("S", (state,)) for state in starts]
    records += [record("F", (state,)) for state in finals]
    for line in transitions:
        records.append(record("L", (line.source, line.target, line.input, len(line.output), *line.output)))
    return "".join(records).encode("ascii")
