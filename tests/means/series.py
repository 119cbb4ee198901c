"""Pairs of tables to join, from a random number generator: a line of the first writes one code at most, and mostly one that the second reads."""

from means import generate
from means.generate import codes, cycle, deterministic, mostly_alive, random_lines, some
from means.held import held_of
from means.transducer import MAX_OUTPUTS, MAX_STATES, MAX_TRANSITIONS, Transducer, Transition, table_file


def files_of(pair):
    return tuple(map(table_file, pair))


def held_pair(pair):
    return tuple(map(held_of, pair))


def one_code_each(random, first, second, silent):
    """The first with one code on a line at most: its codes become codes that the second reads, one for one as far as there are as many, and a share
    of its lines writes nothing."""
    between = sorted({line.input for line in second.transitions if line.input} or {1})
    random.shuffle(between)
    names = {code: between[place % len(between)] for place, code in enumerate(sorted(set(generate.codes_written(first))))}
    lines = [line._replace(output=() if random.random() < silent else tuple(names[code] for code in line.output[:1])) for line in first.transitions]
    return first._replace(transitions=tuple(lines))


# --- makers: two tables ----------------------------------------------------------------------------------------------


def random_pair(random, states, lines):
    """At most so many states and lines each, one to three codes between the two; several start and final states, lines that write or read nothing,
    and lines twice."""
    between, tables = codes(random, random.randint(1, 3)), []
    for inputs, outputs, longest in ((codes(random, 2), between, 1), (between, codes(random, 2), random.choice((1, 2, MAX_OUTPUTS)))):
        count = random.randint(1, states)
        made = random_lines(random, count, random.randint(1, lines), inputs, outputs, random.choice((0, 0.2, 0.5)), longest)
        tables.append(Transducer(count, some(random, count, 1), some(random, count, 1), made + made[:random.choice((0, 0, 1, 2))]))
    first, second = tables
    return one_code_each(random, first, second, random.choice((0, 0.2, 0.5))), second


def random_pairs(states, lines):
    """A maker of random pairs; so many lines at most, one number of several."""
    return lambda random: random_pair(random, states, random.choice(lines))


def two_kinds(random):
    """Two tables of generate.py: states that are dead or not reached, cycles, rings, branches."""
    kinds = [kind for kind in generate.KINDS if not kind.startswith("full")]
    first, second = (generate.KINDS[random.choice(kinds)][1](random)[0] for _ in range(2))
    return one_code_each(random, first, second, random.choice((0, 0.2))), second


def two_single(random):
    """Both have at most one path for a word, whatever their lines write."""
    makers = (deterministic, mostly_alive(deterministic), mostly_alive(generate.backwards_deterministic))
    first, second = (random.choice(makers)(random)[0] for _ in range(2))
    return one_code_each(random, first, second, random.choice((0, 0.3))), second


def silent_rounds(random):
    """In the first a round whose lines write nothing, in the second one whose lines read nothing, or both."""
    first, second = random_pair(random, 4, 8)
    rounds = [cycle(random.sample(range(table.states), random.randint(1, table.states)), code, output)
              for table, code, output in ((first, random.choice((0, 1)), ()), (second, 0, random.choice(((), (1,)))))]
    kept = random.choice(((True, False), (False, True), (True, True)))
    return tuple(table._replace(transitions=table.transitions + tuple(lines if keep else ()))
                 for table, lines, keep in zip((first, second), rounds, kept))


def chains(random):
    """Both go on code by code, so that a pair follows a pair; each line of the first several times: up to 32 joined pairs, and many lines."""
    length, times, between = random.choice((3, 10, 20, MAX_STATES)), random.choice((1, 2, 7, 8)), codes(random, 2)
    steps = range(length - 1)
    first = [Transition(i, i + 1, 1 + i % 3, (between[i % 2],)) for i in steps for _ in range(times)]
    second = [Transition(i, i + 1, between[i % 2], (1 + i % 5,) * random.randint(0, MAX_OUTPUTS)) for i in steps]
    return tuple(generate.renamed(random, Transducer(length, (0,), (length - 1,), tuple(lines))) for lines in (first, second))


def long_line(make):
    """The maker, with more than one code on one of the first's lines, useful or not."""
    def maker(random):
        first, second = make(random)
        lines, at = list(first.transitions), random.randrange(len(first.transitions) or 1)
        lines[at:at + 1] = [(lines[at] if lines else Transition(0, 0, 1))._replace(output=tuple(codes(random, random.randint(2, MAX_OUTPUTS))))]
        return first._replace(transitions=tuple(lines)), second
    return maker


# --- for one table, another ------------------------------------------------------------------------------------------


def partner(random, labels):
    """One to three states, and from each for most of the labels (input, output) a line to some state; mostly one that is final."""
    states = random.randint(1, 3)
    lines = [Transition(state, random.randrange(states), *label) for state in range(states) for label in labels if random.random() < 0.85]
    finals = random.choice((tuple(range(states)), some(random, states, 1)))
    return Transducer(states, some(random, states, 1), finals, tuple(lines))


def put_before(random, second):
    """The table that is given, and before it one whose lines write at most one code, mostly one that it reads."""
    between = sorted({line.input for line in second.transitions if line.input} or {1})
    labels = [(code, (code,)) for code in random.sample(between, min(6, len(between)))]
    return partner(random, labels + random.choice(([], [(0, ())], [(1, ())]))), second


def put_behind(random, first):
    """The table that is given, and behind it one that mostly reads codes which it writes."""
    between = sorted(set(generate.codes_written(first)) or {1})
    longest = random.choice((1, 1, 2, MAX_OUTPUTS))
    labels = [(code, generate.word_of(random, between, longest)) for code in random.sample(between, min(6, len(between)))]
    return first, partner(random, labels + random.choice(([], [(0, ())], [(0, (1,))])))


# how many pairs of which kind are compared
KINDS = {
    "random, small": (700, random_pairs(4, (8,))),
    "random, middle": (500, random_pairs(8, (24,))),
    "random, many lines": (400, random_pairs(3, (20, 40, 80))),
    "random, large": (60, random_pairs(MAX_STATES, (60, MAX_TRANSITIONS - 2))),
    "rounds that write or read nothing": (400, silent_rounds),
    "two kinds of tables": (500, two_kinds),
    "both single": (500, two_single),
    "chains": (120, chains),
    "a line with more than one code": (120, long_line(random_pairs(8, (24,)))),
    "large, a line with more than one code": (20, long_line(random_pairs(MAX_STATES, (MAX_TRANSITIONS - 2,)))),
}
