"""Edits to test with, from a random number generator: lines to append, good ones and such that are wrong in each single way, and numbers of lines to
remove."""

from means.generate import codes_read, codes_written
from means.transducer import LINE_PLACES, MAX_CODE, MAX_OUTPUTS, MAX_TRANSITIONS, Transition, places_of

OUTPUTS_AT = LINE_PLACES - MAX_OUTPUTS  # where the outputs begin among the places of a line
MAX_NUMBER = 2**64 - 1
ROUND = (2**8, 2**16, 2**32, 2**63)  # a number that is cut somewhere below one of these is another number


def changed(places, at, value):
    return places[:at] + bytes((value,)) + places[at + 1:]


# --- lines to append -------------------------------------------------------------------------------------------------


def good_line(random, transducer):
    """A line between any states, often with the last state and with codes that the table has, or the least and the greatest."""
    states = [*range(transducer.states), transducer.states - 1]
    inputs, outputs = [0, 1, MAX_CODE, *codes_read(transducer)], [1, MAX_CODE, *codes_written(transducer)]
    count = random.choice((0, 1, 1, 2, MAX_OUTPUTS, random.randint(0, MAX_OUTPUTS)))
    return Transition(random.choice(states), random.choice(states), random.choice(inputs), tuple(random.choices(outputs, k=count)))


def ways_to_be_wrong(transducer, line):
    """For each of them, what makes a good line so: a place, and what it holds. Under another count an output is 0, or something stands beyond it."""
    count, states = len(line.output), transducer.states
    over = (MAX_CODE + 1, 255)
    places = range(OUTPUTS_AT, LINE_PLACES)
    return {
        "it leaves no state": [(0, states), (0, 255)],
        "it enters no state": [(1, states), (1, 255)],
        "its input": [(2, code) for code in over],
        "over eight outputs": [(3, MAX_OUTPUTS + 1), (3, 255)],
        "another count": [(3, other) for other in range(MAX_OUTPUTS + 1) if other != count],
        "an output": [(at, code) for at in places[:count] for code in (0, *over)],
        "beyond its count": [(at, code) for at in places[count:] for code in (1, MAX_CODE, *over)],
    }


def wrong_lines(transducer, line):
    """The places of a good line with one of them wrong, in every way."""
    return [changed(places_of(line), *wrong) for some in ways_to_be_wrong(transducer, line).values() for wrong in some]


def wrong_line(random, transducer):
    """In which way a line is wrong, and its places."""
    line = good_line(random, transducer)
    way, wrong = random.choice([(way, some) for way, some in ways_to_be_wrong(transducer, line).items() if some])
    return way, changed(places_of(line), *random.choice(wrong))


def any_line(random, transducer):
    """Places of a line that is good or wrong, some of them missing, or more than a line has."""
    places = places_of(good_line(random, transducer)) if random.random() < 0.5 else wrong_line(random, transducer)[1]
    size = random.choice((LINE_PLACES, LINE_PLACES, LINE_PLACES, LINE_PLACES + 1, LINE_PLACES - 1, random.randrange(LINE_PLACES)))
    return (places + random.randbytes(1))[:size]


# --- numbers of lines to remove --------------------------------------------------------------------------------------


def numbers_there(random, count):
    """The first, the last, the middle and any of so many lines; none if there are no lines."""
    return [0, count - 1, count // 2, random.randrange(count)] if count else []


def numbers_not_there(random, count):
    """Numbers that no line has: just beyond so many, and those that are one of a line when they are cut."""
    number = random.randrange(count or 1)
    return [count, count + 1, MAX_TRANSITIONS, MAX_NUMBER, *ROUND, *(cut + number for cut in ROUND)]


def any_number(random, transducer):
    """Mostly the number of a line where there is one."""
    count = len(transducer.transitions)
    return random.choice(numbers_there(random, count) if count and random.random() < 0.7 else numbers_not_there(random, count))


# --- edits -----------------------------------------------------------------------------------------------------------


def appending(random, transducer):
    """What the edit is, the call, the places of the line: one that may be there already, or that is wrong."""
    kind = random.random()
    if kind < 0.3:
        way, places = wrong_line(random, transducer)
        return f"a wrong line: {way}", "append", places
    repeat = kind < 0.5 and transducer.transitions
    line = random.choice(transducer.transitions) if repeat else good_line(random, transducer)
    return "a line that is there" if repeat else "a line", "append", places_of(line)


def removing(random, transducer):
    """What the edit is, the call, the number, which may be that of no line."""
    count, number = len(transducer.transitions), any_number(random, transducer)
    names = {count - 1: "the last line", 0: "the first line"}
    return names.get(number, "a middle line") if number < count else "no line", "remove", number


def any_edit(random, transducer, growing):
    """An edit; so large a share of them appends."""
    return (appending if random.random() < growing else removing)(random, transducer)
