"""A held table: a table as the bytes that callers of the library lend, by include/yotselina.h alone. Beside reference.py the second implementation of
it: what is held is a table exactly if that table is held so."""

import functools

from means.generate import useful_states
from means.reference import Refused
from means.transducer import LINE_PLACES, MAX_CODE, MAX_OUTPUTS, MAX_STATES, MAX_TRANSITIONS, Transducer, Transition, places_of

STARTS = 1  # where the flags begin; the number of states stands before them
FINALS = STARTS + MAX_STATES
USEFUL = FINALS + MAX_STATES
COUNT = USEFUL + MAX_STATES  # two bytes, the lower first
LINES = COUNT + 2
HELD = LINES + MAX_TRANSITIONS * LINE_PLACES  # bytes of a held table: 3,171
INVALID = 8
LIST_TOO_SHORT = 100


def flags_of(states):
    """A flag for each state that a table may have: 1 for these."""
    return bytes(int(state in states) for state in range(MAX_STATES))


@functools.lru_cache(maxsize=400)
def held_of(transducer):
    """The bytes of a held table."""
    states, starts, finals, lines = transducer
    flags = b"".join(map(flags_of, (starts, finals, useful_states(transducer))))
    return (bytes((states,)) + flags + len(lines).to_bytes(2, "little") + b"".join(map(places_of, lines))).ljust(HELD, b"\0")


def line_in(states, places):
    """The line of these places, of which those beyond its outputs are not looked at; refuses one that breaks a range."""
    source, target, code, count, *outputs = places
    output = tuple(outputs[:count])
    if max(source, target) >= states or code > MAX_CODE or count > MAX_OUTPUTS or any(not 1 <= written <= MAX_CODE for written in output):
        raise Refused(INVALID)
    return Transition(source, target, code, output)


def table_in(held):
    """The table of a held one, of which the first bytes are looked at; refuses what is none."""
    if len(held) < HELD:
        raise Refused(LIST_TOO_SHORT)
    states, count = held[0], int.from_bytes(held[COUNT:LINES], "little")
    if not 1 <= states <= MAX_STATES or count > MAX_TRANSITIONS:
        raise Refused(INVALID)
    starts, finals = (tuple(state for state in range(states) if held[flags + state] == 1) for flags in (STARTS, FINALS))
    lines = tuple(line_in(states, held[at:at + LINE_PLACES]) for at in range(LINES, LINES + count * LINE_PLACES, LINE_PLACES))
    transducer = Transducer(states, starts, finals, lines)
    if held_of(transducer) != held[:HELD]:
        raise Refused(INVALID)
    return transducer


def kept_in(held):
    """The flags that the look shows, of any bytes."""
    return bytes(int(byte == 1) for byte in held[USEFUL:COUNT])
