"""The composition of two tables by the sets of places that words between them lead to, each table by itself: without pairs of states."""

from itertools import product

from means import generate, reference
from means.compare import MAX_DEFINED
from means.transducer import MAX_TESTED_OUTPUT

SHORT = 4  # codes of a word for which the composition is asked


def moves_of_first(first, word):
    """From a place (codes read, state) of the first, what each line that goes on in the word writes, and the place that it enters."""
    def moves(place):
        read, state = place
        for line in first.transitions:
            if line.source == state and (not line.input or word[read:read + 1] == bytes((line.input,))):
                yield line.output, (read + bool(line.input), line.target)
    return moves


def moves_of_second(second, output):
    """From a place (codes written, state) of the second, what each line that goes on in the output reads, and the place that it enters."""
    def moves(place):
        written, state = place
        for line in second.transitions:
            if line.source == state and output[written:written + len(line.output)] == bytes(line.output):
                yield (line.input,) if line.input else (), (written + len(line.output), line.target)
    return moves


def composes(first, second, word, output):
    """Whether the first writes, for the word, some word for which the second writes the output: by the two sets of places that a word between
    them leads to, of any length, each side by itself."""
    sides = moves_of_first(first, word), moves_of_second(second, output)

    def closed(moves, places):
        return frozenset(reference.closure(places, lambda place: [entered for code, entered in moves(place) if not code]))

    def after(sets):
        steps = [{(code, entered) for place in places for code, entered in moves(place)} for moves, places in zip(sides, sets)]
        for between in {code for code, _ in steps[0]} & {code for code, _ in steps[1]} - {()}:
            yield tuple(closed(moves, {entered for code, entered in side if code == between}) for moves, side in zip(sides, steps))

    begun = tuple(closed(moves, product((0,), states)) for moves, states in zip(sides, (first.starts, second.starts)))
    ends = set(product((len(word),), first.finals)), set(product((len(output),), second.finals))
    return any(sets[0] & ends[0] and sets[1] & ends[1] for sets in reference.closure([begun], after))


def short_words(codes, longest):
    """All words of at most so many codes."""
    return [bytes(word) for length in range(longest + 1) for word in product(sorted(set(codes)), repeat=length)]


def composed_words(random, first, second, longest):
    """What a random path of the first reads, and what a random path of the second writes that reads what the first one writes; None if none is
    found."""
    path = generate.accepting_path(random, first, longest)
    after = None if path is None else generate.path_reading(random, second, generate.written_by(path))
    return None if after is None else (generate.read_by(path), generate.written_by(after))


def small_tests(random, first, second, joined, every):
    """Input words and output words, with whether the composition relates them: those of paths, what is nearly that, or all short ones."""
    if max(first.states, second.states) > MAX_DEFINED:
        return {}
    if every:
        tests = [*product(short_words(generate.codes_read(first), 2), short_words(generate.codes_written(second), 2))]
    else:
        word, output = composed_words(random, first, second, SHORT) or (b"", b"")
        path = generate.accepting_path(random, joined, SHORT) or []
        tests = [(word, output), (generate.read_by(path), generate.written_by(path))]
        tests += ((word, near) for near in generate.other_outputs(random, joined, output))
    return {test: composes(first, second, *test) for test in tests if len(test[1]) <= MAX_TESTED_OUTPUT}
