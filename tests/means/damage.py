"""Damaged table files: each damage takes the bytes of a file and gives other bytes, most of which the reader must refuse. And held tables that are
damaged, most of which the calls must refuse."""

from means.held import COUNT, FINALS, HELD, LINES, STARTS, USEFUL
from means.lines import changed
from means.transducer import FILE_SEEN, LINE_PLACES, MAX_FILE, MAX_STATES, MAX_TRANSITIONS

# what is damaged: kinds of generated tables
DAMAGED_KINDS = ("random, small",) * 5 + ("random, middle", "branches", "periodic output", "coprime cycles", "ring", "full size, random")

BYTES = b"TSFLtl 0123456789\n\r\t-+.\x00\x0b/:\x7f\xff"
FIELDS = (b"  00", b"   0", b"   1", b"   8", b"   9", b"  31", b"  32", b"  33", b" 250", b" 251", b" 256", b" 257", b"9999", b"0001",
          b"    ", b"1   ", b" 1 2", b"  -1", b"  +1", b" 1.0", b" 0x1", b"   \n", b"  1\n", b"\t\t\t1", b"  \xb21")


def truncated(random, text):
    return text[:random.randint(0, len(text))]


def truncated_near_end(random, text):
    return text[:max(0, len(text) - random.randint(1, 8))]


def byte_changed(random, text):
    at = random.randrange(len(text))
    return text[:at] + bytes([random.choice(BYTES)]) + text[at + 1:]


def any_byte_changed(random, text):
    at = random.randrange(len(text))
    return text[:at] + bytes([random.randrange(256)]) + text[at + 1:]


def byte_inserted(random, text):
    at = random.randint(0, len(text))
    return text[:at] + bytes([random.choice(BYTES)]) + text[at:]


def byte_deleted(random, text):
    at = random.randrange(len(text))
    return text[:at] + text[at + 1:]


def field_changed(random, text):
    """A whole field of some record, in the right columns."""
    records = text.splitlines(keepends=True)
    at = random.randrange(len(records)) if random.random() < 0.7 else 0
    fields = (len(records[at]) - 2) // 4
    if fields < 1:
        return text
    column = 1 + 4 * random.randrange(fields)
    records[at] = records[at][:column] + random.choice(FIELDS) + records[at][column + 4:]
    return b"".join(records)


def count_changed(random, text):
    """A count of the first record, up or down by one."""
    column = 1 + 4 * random.randrange(4)
    count = max(0, int(text[column:column + 4]) + random.choice((-1, 1)))
    return text[:column] + str(count).rjust(4).encode() + text[column + 4:]


def records_swapped(random, text):
    records = text.splitlines(keepends=True)
    a, b = random.randrange(len(records)), random.randrange(len(records))
    records[a], records[b] = records[b], records[a]
    return b"".join(records)


def record_twice(random, text):
    records = text.splitlines(keepends=True)
    at = random.randrange(len(records))
    return b"".join(records[:at + 1] + records[at:])


def record_dropped(random, text):
    records = text.splitlines(keepends=True)
    del records[random.randrange(len(records))]
    return b"".join(records)


def state_repeated(random, text):
    """A start or final state that is the same as the one before, or less."""
    records = text.splitlines(keepends=True)
    places = [i for i in range(1, len(records)) if records[i][:1] in b"SF" and records[i][:1] == records[i - 1][:1]]
    if not places:
        return byte_changed(random, text)
    at = random.choice(places)
    records[at] = records[at - 1] if random.random() < 0.5 else records[at][:1] + b"   0\n"
    return b"".join(records)


def bytes_after(random, text):
    return text + random.choice((b"\n", b" ", b"\x00", b"T", text[:1], text, b"L   0   0   1   0\n"))


def too_long(random, text):
    """Over the longest file, by little or much."""
    length = random.choice((MAX_FILE, FILE_SEEN, FILE_SEEN + 1, 20_000, 80_000))
    return text + random.choice((b"\n", b" ", b"L   0   0   1   0\n")) * max(0, length - len(text))


def line_ends(random, text):
    """Other line ends, or none after the last record."""
    return random.choice((text.replace(b"\n", b"\r\n"), text.replace(b"\n", b"\r"), text.replace(b"\n", b" \n"), text[:-1], text.lower()))


def replaced(random, text):
    """Something that never was a table file."""
    return random.choice((b"", b"\n", b"T", b"T   1", bytes(random.randrange(256) for _ in range(random.randint(0, 40))),
                          bytes(random.choice(BYTES) for _ in range(random.randint(0, 40)))))


DAMAGES = (truncated, truncated_near_end, byte_changed, any_byte_changed, byte_inserted, byte_deleted, field_changed, field_changed,
           count_changed, records_swapped, record_twice, record_dropped, state_repeated, bytes_after, too_long, line_ends, replaced)


def damaged(random, text):
    """The text with one damage, sometimes two; and the name of the first."""
    first = random.choice(DAMAGES)
    result = first(random, text)
    if result.startswith(b"T") and len(result) > 18 and random.random() < 0.15:
        result = random.choice((byte_changed, truncated, byte_inserted))(random, result)
    return result, first.__name__.replace("_", " ")


# --- held tables -----------------------------------------------------------------------------------------------------


def any_place_changed(random, held):
    return changed(held, random.randrange(HELD), random.randrange(256))


def number_of_states_changed(random, held):
    return changed(held, 0, random.choice((0, held[0] - 1, held[0] + 1, MAX_STATES, MAX_STATES + 1, 255)))


def flag_changed(random, held):
    """Of a start, final or useful state, also of one that the table does not have; sometimes to neither 0 nor 1."""
    at = random.choice((STARTS, FINALS, USEFUL, USEFUL)) + random.randrange(random.choice((held[0], MAX_STATES)))
    return changed(held, at, random.choice((1 - held[at], 1 - held[at], 1 - held[at], 2, 255)))


def no_flags(random, held):
    """All flags of one sort are 0, or 1."""
    at = random.choice((STARTS, FINALS, USEFUL))
    return held[:at] + bytes((random.randrange(2),)) * MAX_STATES + held[at + MAX_STATES:]


def count_of_lines_changed(random, held):
    """By one, its bytes exchanged, or any other."""
    count = int.from_bytes(held[COUNT:LINES], "little")
    other = random.choice((count + 1, max(0, count - 1), int.from_bytes(held[COUNT:LINES], "big"), random.randrange(MAX_TRANSITIONS + 2), 65_535))
    return held[:COUNT] + other.to_bytes(2, "little") + held[LINES:]


def place_of_a_line_changed(random, held):
    """In a line that is there, or in one of the first that are not."""
    count = int.from_bytes(held[COUNT:LINES], "little")
    at = LINES + LINE_PLACES * random.randrange(min(count + 2, MAX_TRANSITIONS)) + random.randrange(LINE_PLACES)
    return changed(held, at, random.choice((0, 1, 8, 9, held[0] - 1, held[0], 250, 251, 255, (held[at] + 1) % 256)))


def lines_moved(random, held):
    """The lines a few places on, or back."""
    by = random.choice((-LINE_PLACES, -1, 1, LINE_PLACES))
    rest = held[LINES:]
    return held[:LINES] + (bytes(by) + rest[:-by] if by > 0 else rest[-by:] + bytes(-by))


def cut_short(random, held):
    return held[:random.choice((HELD - 1, HELD - 1, LINES, 1, 0, random.randrange(HELD)))]


def not_held(random, _):
    """Something that never was a table."""
    return random.choice((bytes(HELD), b"\xff" * HELD, b"\1" * HELD, random.randbytes(HELD), b"\1" + bytes(HELD)))


HELD_DAMAGES = (any_place_changed, number_of_states_changed, flag_changed, flag_changed, no_flags, count_of_lines_changed, place_of_a_line_changed,
                place_of_a_line_changed, lines_moved, cut_short, not_held)


def damaged_held(random, held):
    """The held table with one damage, and the name of it."""
    damage = random.choice(HELD_DAMAGES)
    return damage(random, held), damage.__name__.replace("_", " ")
