"""The table of a file that the library has taken, for naming its lines and drawing them."""

from typing import NamedTuple


class Line(NamedTuple):
    """A line of the table. `place` is the line of the file, counted from 1."""

    number: int
    place: int
    source: int
    target: int
    input: int
    output: tuple


class Table(NamedTuple):
    states: int
    starts: tuple
    finals: tuple
    lines: tuple


def fields(record):
    return [int(record[column:column + 4]) for column in range(1, len(record), 4)]


def parse(content):
    """The table. The content must be of a file that the library takes: nothing is checked here."""
    records = [fields(record) for record in content.decode("ascii").split("\n")[:-1]]
    states, starts, finals, _ = records[0]
    first = 1 + starts + finals  # the record of line 0
    lines = (Line(number, first + number + 1, source, target, code, tuple(output))
             for number, (source, target, code, _, *output) in enumerate(records[first:]))
    return Table(states, tuple(state for state, in records[1:1 + starts]), tuple(state for state, in records[1 + starts:first]), tuple(lines))
