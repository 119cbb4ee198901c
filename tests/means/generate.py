"""Transducers to test with, from a random number generator, and words for them.

A maker returns a transducer and what is known of it by the way it was made: True (functional), False (not functional), or None.
Outputs that are single by construction come from an endless periodic word: at each state it is fixed how far ahead of the input the
output is, so that all accepting paths for one word have written the same beginning of the periodic word.
"""

import math

from means.reference import accepting_moves, closure
from means.transducer import (MAX_CODE, MAX_OUTPUTS, MAX_STATES, MAX_TESTED_INPUT, MAX_TESTED_OUTPUT, MAX_TRANSITIONS, MAX_WORD, Transducer,
                        Transition)


def codes(random, count):
    """Different codes, often with the least and the greatest among them."""
    edges = [code for code in (1, MAX_CODE) if random.random() < 0.3][:count]
    chosen = edges + random.sample(range(2, MAX_CODE), count - len(edges))
    random.shuffle(chosen)
    return chosen


def some(random, states, least=0):
    """A rising list of states, of which there are mostly one or two."""
    count = min(states, max(least, random.choice((0, 1, 1, 1, 1, 2, 2, 3, states))))
    return tuple(sorted(random.sample(range(states), count)))


def word_of(random, alphabet, longest):
    return tuple(random.choice(alphabet) for _ in range(random.randint(0, longest)))


def renamed(random, transducer):
    """The same transducer with its states in another order and its transitions too."""
    names = list(range(transducer.states))
    random.shuffle(names)
    lines = [Transition(names[line.source], names[line.target], line.input, line.output) for line in transducer.transitions]
    random.shuffle(lines)
    return Transducer(transducer.states, tuple(sorted(names[s] for s in transducer.starts)),
                      tuple(sorted(names[s] for s in transducer.finals)), tuple(lines))


def same_lines(random, transducer):
    """A transducer that is alike: repeats are gone or kept, some lines are pasted again in random places, and the order is the same or another."""
    lines = list(transducer.transitions)
    if random.random() < 0.4:
        lines = list(dict.fromkeys(lines))
    pasted = random.choice((0, 1, 1, 2, 5, 40, MAX_TRANSITIONS))
    for _ in range(pasted):
        if lines and len(lines) < MAX_TRANSITIONS:
            lines.insert(random.randint(0, len(lines)), random.choice(lines))
    if not pasted or random.random() < 0.5:
        random.shuffle(lines)
    return transducer._replace(transitions=tuple(lines))


def reached(roots, edges):
    """The states that the edges (from, to) reach from the roots."""
    leaving = {}
    for source, target in edges:
        leaving.setdefault(source, []).append(target)
    return closure(roots, lambda state: leaving.get(state, ()))


def to_final(transducer):
    """The states from which a final state can be reached."""
    return reached(transducer.finals, [(line.target, line.source) for line in transducer.transitions])


def useful_states(transducer):
    """The states that an accepting path passes through."""
    return reached(transducer.starts, [(line.source, line.target) for line in transducer.transitions]) & to_final(transducer)


def mostly_alive(make):
    """The maker, asked again a few times while no accepting path takes a transition."""

    def maker(random):
        for _ in range(12):
            table, known = make(random)
            useful = useful_states(table)
            if any(line.source in useful and line.target in useful for line in table.transitions):
                break
        return table, known
    return maker


# --- random ----------------------------------------------------------------------------------------------------------


def random_lines(random, states, count, inputs, outputs, silent, longest):
    """Transitions between any states; a share of them reads nothing."""
    return tuple(Transition(random.randrange(states), random.randrange(states),
                            0 if random.random() < silent else random.choice(inputs),
                            word_of(random, outputs, longest)) for _ in range(count))


def random_table(random, states, count, letters, silent, longest):
    inputs, outputs = codes(random, letters), codes(random, random.randint(1, 2))
    lines = random_lines(random, states, count, inputs, outputs, silent, longest)
    return Transducer(states, some(random, states), some(random, states), lines), None


def small(random):
    return random_table(random, random.randint(1, 4), random.randint(0, 8), random.randint(1, 2), random.choice((0, 0.1, 0.3)), 2)


def middle(random):
    states = random.randint(5, 12)
    return random_table(random, states, random.randint(states, 2 * states), random.randint(1, 4), random.choice((0, 0.1, 0.2)), 3)


def large(random):
    return random_table(random, random.randint(20, MAX_STATES), random.randint(40, MAX_TRANSITIONS), random.randint(2, 40),
                        random.choice((0, 0.05)), MAX_OUTPUTS)


def reads_nothing(random):
    """Most transitions read nothing, and most of those write nothing."""
    states = random.randint(1, 6)
    inputs, outputs = codes(random, 2), codes(random, 1)
    lines = [line._replace(output=()) if line.input == 0 and random.random() < 0.8 else line
             for line in random_lines(random, states, random.randint(1, 9), inputs, outputs, 0.7, 2)]
    return Transducer(states, some(random, states, 1), some(random, states, 1), tuple(lines)), None


def few_codes(random):
    """One or two codes on either side, lines twice, and many that read nothing or write nothing or neither: a word has many paths and outputs."""
    states, longest = random.randint(1, 6), random.choice((1, 1, 2, 3, MAX_OUTPUTS))
    inputs, outputs = codes(random, random.randint(1, 2)), codes(random, random.randint(1, 2))
    lines = random_lines(random, states, random.randint(1, 3 * states), inputs, outputs, random.choice((0.2, 0.4, 0.6)), longest)
    lines = tuple(line._replace(output=()) if random.random() < 0.3 else line for line in lines) + lines[:random.randint(0, 2)]
    return Transducer(states, some(random, states), some(random, states), lines), None


# --- functional by construction --------------------------------------------------------------------------------------


def deterministic(random):
    """One start state, and at each state at most one transition for an input."""
    states = random.randint(1, 12)
    inputs, outputs = codes(random, random.randint(1, 4)), codes(random, 3)
    lines = [Transition(state, random.randrange(states), code, word_of(random, outputs, random.choice((2, MAX_OUTPUTS))))
             for state in range(states) for code in inputs if random.random() < 0.8]
    return Transducer(states, (random.randrange(states),), some(random, states, 1), tuple(lines)), True


def backwards_deterministic(random):
    """One final state, and at each state at most one entering transition for an input: a word has at most one accepting path."""
    table, _ = deterministic(random)
    lines = [Transition(line.target, line.source, line.input, line.output) for line in table.transitions]
    return Transducer(table.states, table.finals, table.starts, tuple(lines)), True


def periodic_table(random, states, count, letters, silent):
    """Any graph; each input adds a fixed length to the output, and each state runs ahead by a fixed length (see the head of this file)."""
    inputs = codes(random, letters)
    period = word_of(random, codes(random, 2), 2) + tuple(codes(random, 1))
    adds = {0: 0, **{code: random.randint(0, 4) for code in inputs}}
    ahead = [random.randint(0, 4) for _ in range(states)]
    phase = [random.randrange(len(period)) for _ in range(states)]

    def output(source, target, code):
        """What the transition must write; None if no word will do."""
        length = adds[code] + ahead[target] - ahead[source]
        if not 0 <= length <= MAX_OUTPUTS or (phase[source] + adds[code] - phase[target]) % len(period):
            return None
        return tuple(period[(phase[source] + ahead[source] + i) % len(period)] for i in range(length))

    lines = []
    for _ in range(15 * count):
        source, target = random.randrange(states), random.randrange(states)
        code = 0 if random.random() < silent else random.choice(inputs)
        word = output(source, target, code)
        if word is not None and len(lines) < count:
            lines.append(Transition(source, target, code, word))
    starts = [state for state in some(random, states, 1) if ahead[state] == 0 and phase[state] == 0]
    level = random.choice(ahead)
    finals = [state for state in range(states) if ahead[state] == level and random.random() < 0.5]
    return Transducer(states, tuple(starts or [s for s in range(states) if (ahead[s], phase[s]) == (0, 0)]), tuple(finals), tuple(lines)), True


def periodic(random):
    states = random.randint(2, 10)
    return periodic_table(random, states, random.randint(states, 4 * states), random.randint(1, 3), random.choice((0, 0.1, 0.3)))


def cut(random, word, pieces):
    """The word cut into so many pieces, each short enough for a transition; None if that cannot be."""
    if len(word) > pieces * MAX_OUTPUTS:
        return None
    while True:
        places = sorted(random.choices(range(len(word) + 1), k=pieces - 1))
        parts = [word[a:b] for a, b in zip([0] + places, places + [len(word)])]
        if all(len(part) <= MAX_OUTPUTS for part in parts):
            return parts


def branches(random):
    """Several ways from one state to another that read one word and write one word, cut differently (document 01: D)."""
    inputs, outputs = codes(random, 2), codes(random, 2)
    read = [random.choice(inputs) for _ in range(random.randint(1, 4))]
    written = word_of(random, outputs, 2 * len(read))
    lines, states = [], 2
    for _ in range(random.randint(2, 4)):
        labels = list(read)
        for _ in range(random.choice((0, 0, 1, 2))):
            labels.insert(random.randint(0, len(labels)), 0)
        at = 0
        for i, (code, part) in enumerate(zip(labels, cut(random, written, len(labels)))):
            target = 1 if i == len(labels) - 1 else states
            lines.append(Transition(at, target, code, part))
            at = target
            states += target != 1
    return Transducer(states, (0,), (1,), tuple(lines)), True


def loops(random):
    """Branches that come back to where they began, so that words repeat."""
    table, known = branches(random)
    lines = [line._replace(target=0) if line.target == 1 else line for line in table.transitions]
    if not any(line.input for line in lines):
        return table, known
    return table._replace(finals=(0,), transitions=tuple(lines)), known


def two_copies(random):
    """A deterministic transducer twice, side by side: each word that is read has two accepting paths."""
    table, known = deterministic(random)
    size = table.states
    lines = table.transitions + tuple(line._replace(source=line.source + size, target=line.target + size) for line in table.transitions)
    both = Transducer(2 * size, table.starts + tuple(s + size for s in table.starts),
                      table.finals + tuple(s + size for s in table.finals), lines)
    return renamed(random, both), known


# --- changed a little ------------------------------------------------------------------------------------------------


def decorated(random, transducer):
    """More of what changes no output: lines twice, silent loops, states that no accepting path passes through."""
    states, starts, finals, lines = transducer
    lines = list(lines)
    outputs = codes(random, 2)
    for _ in range(random.randint(0, 2)):
        if lines:
            lines.append(random.choice(lines))
        lines.append(Transition(*[random.randrange(states)] * 2, 0, ()))
    if states + 2 <= MAX_STATES:
        inputs = sorted({line.input for line in lines} | {1})
        dead, unreached = states, states + 1
        states += 2
        for _ in range(random.randint(2, 6)):
            code = random.choice(inputs)
            lines.append(Transition(random.randrange(states - 1), dead, code, word_of(random, outputs, 2)))
            lines.append(Transition(unreached, random.randrange(states), code, word_of(random, outputs, 2)))
    return Transducer(states, starts, finals, tuple(lines[:MAX_TRANSITIONS]))


def useful_place(random, transducer):
    """The number of a line on an accepting path where there is one, else of any; None if there are no lines."""
    lines, useful = transducer.transitions, useful_states(transducer)
    places = [i for i, line in enumerate(lines) if line.source in useful and line.target in useful] or range(len(lines))
    return random.choice(places) if places else None


def one_code_changed(random, transducer):
    """One output code replaced, added or taken away, on an accepting path where there is one."""
    lines, at = list(transducer.transitions), useful_place(random, transducer)
    if at is None:
        return transducer
    output = list(lines[at].output)
    change = random.choice("rat")
    if change == "a" and len(output) < MAX_OUTPUTS or not output:
        output.insert(random.randint(0, len(output)), random.randint(1, MAX_CODE))
    elif change == "t":
        output.pop(random.randrange(len(output)))
    else:
        output[random.randrange(len(output))] = random.randint(1, MAX_CODE)
    lines[at] = lines[at]._replace(output=tuple(output))
    return transducer._replace(transitions=tuple(lines))


def one_line_changed(random, transducer):
    """One line in which one thing is another: an output code, the input, or a state."""
    if random.random() < 0.5:
        return one_code_changed(random, transducer)
    lines, at = list(transducer.transitions), useful_place(random, transducer)
    if at is None:
        return transducer
    inputs = sorted({line.input for line in lines} | {0, random.randint(1, MAX_CODE)})
    state = random.randrange(transducer.states)
    lines[at] = lines[at]._replace(**random.choice(({"input": random.choice(inputs)}, {"source": state}, {"target": state})))
    return transducer._replace(transitions=tuple(lines))


def changed(make):
    return lambda random: (one_code_changed(random, make(random)[0]), None)


def with_decoration(make):
    def maker(random):
        table, known = make(random)
        return decorated(random, table), known
    return maker


# --- deep pair graphs and full size ----------------------------------------------------------------------------------


def cycle(states, code, output):
    """Transitions around the given states, each writing the same."""
    return [Transition(states[i], states[(i + 1) % len(states)], code, output) for i in range(len(states))]


def coprime_cycles(random, lengths=((2, 3), (3, 5), (5, 7), (7, 9), (8, 11), (11, 13), (15, 17))):
    """Two cycles that read the same; their ends meet only after the product of their lengths."""
    first, second = random.choice(lengths)
    (read,), (code, other) = codes(random, 1), codes(random, 2)
    unit = (code,) * random.randint(1, 4)
    lines = cycle(range(first), read, unit) + cycle(range(first, first + second), read, unit)
    change = random.choice(("none", "moved", "moved", "code", "more"))
    at = random.randrange(first)
    if change == "moved":  # the transition before writes this one's codes, too
        before = (at - 1) % first
        lines[at] = lines[at]._replace(output=())
        lines[before] = lines[before]._replace(output=unit + unit)
    elif change == "code":
        lines[at] = lines[at]._replace(output=(other,) + unit[1:])
    elif change == "more":
        lines[at] = lines[at]._replace(output=unit + (code,))
    return Transducer(first + second, (0, first), (0, first + second - 1), tuple(lines)), change in ("none", "moved")


def slow_merge(random):
    """Cerny's automaton from two start states: one input turns all states, the other moves only the last. The two paths meet late."""
    states = random.choice((4, 8, 16, MAX_STATES))
    (turn, step), (code, other) = codes(random, 2), codes(random, 2)
    unit = (code,) * random.randint(1, MAX_OUTPUTS)
    same = random.random() < 0.4
    lines = cycle(range(states), turn, unit) + [Transition(state, state, step, unit) for state in range(states - 1)]
    lines.append(Transition(states - 1, 0, step, unit if same else (other,) + unit[1:]))
    starts = sorted(random.sample(range(states), 2))
    return renamed(random, Transducer(states, tuple(starts), (random.randrange(states),), tuple(lines))), same


def ring(random):
    """One ring; every state is a start and at least two are final, so pairs at any distance go round together."""
    length = random.choice((3, 8, 17, MAX_STATES))
    (read,), (written, other) = codes(random, 1), codes(random, 2)
    lines = cycle(range(length), read, (written,) * random.randint(0, MAX_OUTPUTS))
    finals = sorted(random.sample(range(length), random.choice((2, length))))
    same = random.random() < 0.5
    if not same:
        at = random.randrange(length)
        lines[at] = lines[at]._replace(output=(other,) + lines[at].output[1:])
    return Transducer(length, tuple(range(length)), tuple(finals), tuple(lines)), same


def full_deterministic(random):
    """32 states and 256 transitions, eight inputs at each state."""
    inputs, outputs = codes(random, 8), codes(random, 20)
    lines = [Transition(state, random.randrange(MAX_STATES), code, tuple(random.choices(outputs, k=random.randint(0, MAX_OUTPUTS))))
             for state in range(MAX_STATES) for code in inputs]
    return Transducer(MAX_STATES, (random.randrange(MAX_STATES),), some(random, MAX_STATES, 1), tuple(lines)), True


def full_periodic(random):
    return periodic_table(random, MAX_STATES, MAX_TRANSITIONS, random.choice((1, 2, 8, 30)), random.choice((0, 0.05)))


def full_parallel(random):
    """Coprime cycles of 15 and 17 states, each transition eight times: 256 lines."""
    table, known = coprime_cycles(random, ((15, 17),))
    return table._replace(transitions=tuple(line for line in table.transitions for _ in range(8))), known


def full_random(random):
    table, _ = random_table(random, MAX_STATES, MAX_TRANSITIONS, random.choice((3, 30, 100)), random.choice((0, 0.03)), MAX_OUTPUTS)
    return table._replace(starts=some(random, MAX_STATES, 1), finals=some(random, MAX_STATES, 1)), None


# how many tables of which kind are compared
KINDS = {
    "random, small": (350, mostly_alive(small)),
    "random, small, often dead": (100, small),
    "random, middle": (200, mostly_alive(middle)),
    "random, large": (40, mostly_alive(large)),
    "most lines read nothing": (250, mostly_alive(reads_nothing)),
    "deterministic": (60, deterministic),
    "backwards deterministic": (120, with_decoration(mostly_alive(backwards_deterministic))),
    "two copies": (100, with_decoration(mostly_alive(two_copies))),
    "two copies, a code changed": (100, changed(mostly_alive(two_copies))),
    "periodic output": (250, with_decoration(mostly_alive(periodic))),
    "periodic output, a code changed": (180, changed(mostly_alive(periodic))),
    "branches": (80, with_decoration(branches)),
    "branches, a code changed": (80, changed(branches)),
    "loops": (80, with_decoration(loops)),
    "loops, a code changed": (60, changed(loops)),
    "coprime cycles": (60, coprime_cycles),
    "slow merge": (30, slow_merge),
    "ring": (20, ring),
    "full size, deterministic": (15, mostly_alive(full_deterministic)),
    "full size, periodic output": (20, mostly_alive(full_periodic)),
    "full size, a code changed": (15, changed(mostly_alive(full_periodic))),
    "full size, parallel lines": (10, full_parallel),
    "full size, random": (15, mostly_alive(full_random)),
}


# --- words -----------------------------------------------------------------------------------------------------------


def accepting_path(random, transducer, longest, longest_output=math.inf):
    """The lines of a random accepting path that reads and writes no more codes than that: a walk among the states from which a final state can be
    reached. None if it finds no such path."""
    ends = to_final(transducer)
    starts = [state for state in transducer.starts if state in ends]
    if not starts:
        return None
    leaving = {}
    for line in transducer.transitions:
        if line.target in ends:
            leaving.setdefault(line.source, []).append(line)
    state, path, best, read, written = random.choice(starts), [], None, 0, 0
    for _ in range(3 * longest + 10):
        if state in transducer.finals:
            best = len(path)
        lines = leaving.get(state)
        if not lines or read >= longest:
            break
        line = random.choice(lines)
        read, written, state = read + (line.input > 0), written + len(line.output), line.target
        if written > longest_output:
            break
        path.append(line)
    return None if best is None else path[:best]


def path_reading(random, transducer, word, longest=100):
    """The lines of a random accepting path that reads the word, at most so many: a walk along the moves of such paths. None if it finds none."""
    leaving, first, last = accepting_moves(transducer, word)
    if not first:
        return None
    node, path = random.choice(first), []
    for _ in range(longest):
        if not leaving[node] or node in last and random.random() < 0.3:
            break
        line, node = random.choice(leaving[node])
        path.append(line)
    return path if node in last else None


def read_by(path):
    return bytes(line.input for line in path if line.input)


def written_by(path):
    return bytes(code for line in path for code in line.output)


def accepted_word(random, transducer, longest):
    """What a random accepting path reads; None if there is no such path."""
    path = accepting_path(random, transducer, longest)
    return None if path is None else read_by(path)


def any_word(random, transducer, longest):
    """A word over the inputs of the transducer, with a code that it may not have."""
    inputs = sorted({line.input for line in transducer.transitions if line.input} | {random.randint(1, MAX_CODE)})
    return bytes(word_of(random, inputs, longest))


def broken(random, word, fillers, limit):
    """The word made to break a limit: too long, or with a code that is none; or both, or just not."""
    word = bytearray(word)
    if random.random() < 0.5:
        word += bytes([random.choice(fillers or [1])]) * (random.choice((limit, limit + 1, limit + 45)) - len(word))
    if random.random() < 0.7:
        word.insert(random.randint(0, len(word)), random.choice((0, MAX_CODE, MAX_CODE + 1, 255)))
    return bytes(word)


def codes_read(transducer):
    return [line.input or 1 for line in transducer.transitions]


def codes_written(transducer):
    return [code for line in transducer.transitions for code in line.output]


def broken_word(random, transducer):
    """A word that breaks a limit of the translator, or just not."""
    return broken(random, any_word(random, transducer, 6), codes_read(transducer), MAX_WORD)


def almost(random, transducer, word):
    """The word with one code more, one less or another."""
    word, at = bytearray(word), random.randint(0, len(word))
    put = any_word(random, transducer, 1)
    word[at:at + random.randint(0, 1)] = put
    return bytes(word)


def input_words(random, transducer):
    """Two words to translate: one that is read where there is one, and another."""
    read = accepted_word(random, transducer, random.choice((3, 10, 10, 40, MAX_WORD))) or b""
    kind = random.random()
    if kind < 0.4:
        return [read, almost(random, transducer, read)]
    return [read, any_word(random, transducer, 5) if kind < 0.7 else broken_word(random, transducer)]


# --- an input word and an output word --------------------------------------------------------------------------------


def related_words(random, transducer):
    """What a random accepting path reads and what it writes, within the limits of a word test; None if it finds no such path."""
    path = accepting_path(random, transducer, random.choice((3, 10, 30, MAX_TESTED_INPUT)), MAX_TESTED_OUTPUT)
    return None if path is None else (read_by(path), written_by(path))


def other_outputs(random, transducer, output):
    """The output with one code more or less, at its end or anywhere, and with one changed."""
    code = bytes([random.choice([*codes_written(transducer), random.randint(1, MAX_CODE)])])
    at = random.randint(0, len(output))
    others = [output + code, output[:at] + code + output[at:]]
    if output:
        at = random.randrange(len(output))
        others += [output[:-1], output[:at] + output[at + 1:], output[:at] + code + output[at + 1:]]
    return others


def word_tests(random, transducer):
    """Pairs of an input word and an output word: first a pair that is related where one is found, then those that nearly are."""
    word, output = related_words(random, transducer) or (any_word(random, transducer, 5), b"")
    _, other = related_words(random, transducer) or (b"", b"")
    return [(word, output), *((word, near) for near in other_outputs(random, transducer, output)), (word, other),
            (almost(random, transducer, word), output)]


def broken_words(random, transducer):
    """An input word and an output word, of which one or both break a limit of the word test, or just not."""
    word, output = word_tests(random, transducer)[0]
    return (broken(random, word, codes_read(transducer), MAX_TESTED_INPUT) if random.random() < 0.7 else word,
            broken(random, output, codes_written(transducer), MAX_TESTED_OUTPUT) if random.random() < 0.7 else output)
