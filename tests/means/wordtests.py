"""Comparisons of the library's word test (yotselina_accepts): with what it owes (owed.py), with what is known by the way the words were made, and
with the library's translations."""

from itertools import product

from means import generate, named, reference
from means.calls import ANSWERS, SOME_TABLES, TABLES, as_note, check, check_known, said_yes, same_refusal
from means.compare import randomness, size_name
from means.held import held_of
from means.named import table
from means.owed import table_held
from means.transducer import MAX_TESTED_INPUT, MAX_TESTED_OUTPUT

GROUP = "word test"
# how many tables of which kind are compared
KINDS = {kind: (-(-count // SOME_TABLES), make) for kind, (count, make) in generate.KINDS.items()} | {"few codes": (1_000, generate.few_codes)}
UNREAD = 11  # the translator's refusal of a word that no accepting path reads


# --- generated tables ------------------------------------------------------------------------------------------------


def check_reference(findings, read, made, tests):
    """The reference against what is known: what a path reads and writes is related; on a single table a word is related to its translation only."""
    faults = [] if made is None or reference.relates(read.transducer, *made) else [f"an accepting path reads and writes {made}"]
    for word, output in tests if read.functional else ():
        if reference.relates(read.transducer, word, output) != (reference.translation(read.transducer, word) == tuple(output)):
            faults.append(f"by its translation it is another answer: {word}, {output}")
    findings.check_apart("reference itself, word test", faults, read.content)


def compare_translation(library, findings, random, held, word, said):
    """What is said of some outputs of a word, against the translator lent the most places: yes to its output, on a single table to no other, and to none
    where no path reads the word."""
    group, read = f"library, {GROUP} and translator", table_held(held)
    call = library.call(random, "translate", held, word)
    output = None if call.returned else bytes(call.lent["output"].items(call.lent["answer"].items(1)[0]))
    if output is not None and len(output) <= MAX_TESTED_OUTPUT:
        said = said | {output: said_yes(library.call(random, "accepts", held, word, output))}
    faults = [] if call.returned in (0, UNREAD) else [f"the translator returned {call.returned}"]
    faults += [f"{'yes' if yes else 'no'} to {tuple(asked)}, the translator's output is {output}" for asked, yes in said.items()
               if yes != (asked == output) and (output is None or read.functional or not yes)]
    findings.check(group, faults, read.content, as_note([word]))
    findings.count(group, "not read" if output is None else "single" if read.functional else "split")


def compare_table(library, findings, kind, index):
    """Input words and output words for one generated table: what a path reads and writes, and what is nearly that."""
    random = randomness(GROUP, kind, index)
    transducer, _ = KINDS[kind][1](random)
    held = held_of(transducer)
    made = generate.related_words(random, transducer)
    tests = ([made] if made else []) + generate.word_tests(random, transducer)
    check_reference(findings, table_held(held), made, tests)
    said = {}
    for word, output in tests:
        call = library.call(random, "accepts", held, word, output)
        check(findings, GROUP, call, as_note((word, output)))
        if not call.returned:
            said.setdefault(word, {})[output] = said_yes(call)
            for what, codes in (("input", word), ("output", output)):
                findings.count(f"library, {GROUP}, {what} codes of a {'yes' if said_yes(call) else 'no'}", size_name(len(codes)))
    for word, outputs in said.items():
        compare_translation(library, findings, random, held, word, outputs)


# --- known answers ---------------------------------------------------------------------------------------------------

SILENT_ROUND = ((0, 1, 0), (1, 2, 0), (2, 0, 0))
EIGHT = (1, 2, 3, 4, 5, 6, 7, 8)
EVERYWHERE = table(32, [0], [31], *(line for state in range(32) for line in ((state, (state + 1) % 32, 0), (state, state, 1), (state, state, 0, 5))))
TWO_OR_THREE = table(1, [0], [0], (0, 0, 1, 5, 5), (0, 0, 1, 5, 5, 5))

# what it is about, table, input word, output words with yes, output words with no
KNOWN = (
    ("one state, no lines", named.ONE_STATE, (), [()], [(5,)]),
    ("a word that no path reads", named.ONE_STATE, (1,), [], [(), (1,), (5,)]),
    ("no start state", table(2, [], [0, 1], (0, 1, 1, 5)), (1,), [], [(), (5,)]),
    ("no final state", table(2, [0, 1], [], (0, 1, 1, 5)), (1,), [], [(), (5,)]),
    ("neither, the empty word", table(1, [], []), (), [], [()]),
    ("table P", named.P, (1,), [(5,), (6,)], [(), (1,), (7,), (5, 6)]),
    ("table P, two codes", named.P, (1, 1), [(5, 5), (5, 6), (6, 5), (6, 6)], [(5,), (5, 5, 5), (6, 7)]),
    ("table D", named.D, (1, 2), [(5, 6)], [(), (5,), (6, 5), (5, 6, 5)]),
    ("table D, half a word", named.D, (1,), [], [(), (5, 6)]),
    ("table D, split", named.D_SPLIT, (1, 2), [(5, 6), (6, 5)], [(5, 5), (6, 6), (5,), (6,)]),
    ("the whole output of a line", table(2, [0], [1], (0, 1, 1, *EIGHT)), (1,), [EIGHT],
     [EIGHT[:count] for count in range(8)] + [(*EIGHT, 1), EIGHT * 2]),
    ("two ways to one state, the shorter first", table(3, [0], [2], (0, 1, 1, 5), (0, 1, 1, 5, 5), (1, 2, 2, 6)), (1, 2),
     [(5, 6), (5, 5, 6)], [(6,), (5,), (5, 5), (5, 5, 5, 6)]),
    ("two ways to one state, the longer first", table(3, [0], [2], (0, 1, 1, 5, 5), (0, 1, 1, 5), (1, 2, 2, 6)), (1, 2),
     [(5, 6), (5, 5, 6)], [(6,), (5,), (5, 5), (5, 5, 5, 6)]),
    ("a round that reads and writes nothing", table(3, [0], [2], *SILENT_ROUND, (1, 1, 1, 5)), (1, 1), [(5, 5)], [(), (5,), (5, 5, 5)]),
    ("a round that reads nothing and writes", table(3, [0], [2], *SILENT_ROUND[:2], (2, 0, 0, 5, 6), (1, 1, 1, 7)), (1,),
     [(7,), (7, 5, 6), (5, 6, 7), (5, 6, 7, 5, 6)], [(), (5, 6), (5, 7), (7, 5), (7, 6), (5, 6, 7, 5)]),
    ("lines that read nothing at both ends", table(4, [0], [3], (0, 1, 0, 5), (1, 2, 1, 6), (2, 3, 0, 7)), (1,), [(5, 6, 7)], [(6,), (5, 6), (6, 7)]),
    ("a line twice", table(2, [0], [1], (0, 1, 1, 5), (0, 1, 1, 5)), (1,), [(5,)], [(5, 5), ()]),
    ("several start and final states", table(4, [0, 1], [2, 3], (0, 2, 1, 5), (1, 3, 1, 6), (0, 3, 1, 7)), (1,), [(5,), (6,), (7,)], [(), (5, 6)]),
    ("the last state, the last line, the last code", table(32, [31], [31], *[(31, 31, 1)] * 255, (31, 31, 250, 250)), (250,), [(250,)], [(), (1,)]),
    ("every state after every two counts of codes", EVERYWHERE, (1,) * MAX_TESTED_INPUT, [(5,) * MAX_TESTED_OUTPUT], [(5,) * 126 + (6,)]),
    ("both limits", TWO_OR_THREE, (1,) * MAX_TESTED_INPUT, [(5,) * 126, (5,) * MAX_TESTED_OUTPUT], [(5,) * 125, (5,) * 126 + (6,)]),
)


def compare_known(library, findings):
    random = randomness(GROUP, "known")
    for title, transducer, word, *outputs in KNOWN:
        for answer, output in [(answer, output) for answer, some in zip((1, 0), outputs) for output in some]:
            call = library.call(random, "accepts", held_of(transducer), bytes(word), bytes(output))
            check_known(findings, f"{GROUP}, known answers", call, (answer,), f"{title}: {word}, {output}")


# --- refusals --------------------------------------------------------------------------------------------------------


def words_with_faults(limit, number):
    """Words at a limit and beyond it, with codes and with bytes that are none, at the end and throughout; and the numbers of what they break."""
    for length in (0, 1, limit, limit + 1, limit + 45):
        yield b"\1" * length, {13} if length > limit else set()
        for code in (b"\0", b"\xfb") if length else ():
            for word in {b"\1" * (length - 1) + code, code * length}:
                yield word, {number} | ({13} if length > limit else set())


def compare_refusals(library, findings):
    """Every refusal, and every two and more of them at once: the answer list, the table, 13, 10, 14."""
    random = randomness(GROUP, "refusals")
    inputs, outputs = list(words_with_faults(MAX_TESTED_INPUT, 10)), list(words_with_faults(MAX_TESTED_OUTPUT, 14))
    for (places, short), (held, broken), (word, of_word), (output, of_output) in product(ANSWERS, TABLES, inputs, outputs):
        refusals = [number for number in (short, broken) if number] + [number for number in (13, 10, 14) if number in of_word | of_output]
        call = library.call(random, "accepts", held, word, output, answer=places)
        if refusals:
            same_refusal(findings, f"{GROUP}, which refusal goes first", call, refusals[0], note=as_note((word, output)))
        else:
            check(findings, f"{GROUP}, at the limits", call, as_note((word, output)))
