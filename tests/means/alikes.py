"""Pairs of tables that are alike (document 02, job 2: the same lines, repeats and order not counted), and their comparison through the library."""

from means import generate, lines, reference
from means.calls import as_note, check
from means.compare import expected_verdict, randomness
from means.held import held_of
from means.transducer import places_of, table_file

GROUP = "alike"
LINES = "pairs that are alike, lines of the second"


def pair_of(findings, random, kind):
    """A table, one that is alike, and the verdict that the reference has for both."""
    one = generate.KINDS[kind][1](random)[0]
    other = generate.same_lines(random, one)
    expected, again = (expected_verdict(table_file(transducer))[0] for transducer in (one, other))
    faults = ["the tables are not alike"] * (not reference.alike(one, other)) + ["another verdict for the second"] * (expected != again)
    findings.check_apart("reference itself, alike", faults, table_file(one), f"the second table:\n{table_file(other).decode()}")
    more = len(other.transitions) - len(one.transitions)
    findings.count(LINES, "more" if more > 0 else "fewer" if more < 0 else "the same" if one == other else "in another order")
    return one, other, expected


def words_for(random, transducer):
    """Words that are read where there are any, nearly read, not read, too long, or with a byte that is no code."""
    return [*generate.input_words(random, transducer), generate.any_word(random, transducer, 5), generate.broken_word(random, transducer)]


def said_by(call, split):
    """What must be the same of two tables that are alike: the refusal, or what is answered. Of a verdict that is whether the table is split, and u; of a
    translation by a split table, that there is an output."""
    if call.returned:
        return call.refusal()
    lists = {lent: memory.items(call.sizes[lent]) for lent, memory in call.lent.items()}
    if call.name == "verdict":
        return lists["answer"][:2]
    if call.name == "translate":
        return "an output" if split else lists["output"][:lists["answer"][0]]
    return lists


def compare_calls(library, findings, kind, index):
    """Every call that reads a table, on both: what it owes by the reference, and the same of both; and each is written with its repeats, and edited
    with them."""
    random = randomness(GROUP, "library", kind, index)
    one, other, expected = pair_of(findings, random, kind)
    tests = generate.word_tests(random, one) + [generate.broken_words(random, one)]
    for name, *words in (("verdict",), ("useful_states",), ("look",), ("useful_pairs",), *(("translate", word) for word in words_for(random, one)),
                         *(("accepts", *test) for test in tests)):
        calls = [library.call(random, name, held_of(transducer), *words) for transducer in (one, other)]
        for call in calls:
            check(findings, f"{GROUP}, {name}", call, as_note(words))
        said, again = (said_by(call, expected.split) for call in calls)
        faults = [] if said == again else [f"{name}: {again}, and with the first table {said}"]
        findings.check(f"library, {GROUP}, the same answer", faults, table_file(other), as_note(words))
    for transducer in (one, other):
        edits = [("append", places_of(line)) for line in transducer.transitions[-1:]] + [("remove", lines.any_number(random, transducer))]
        for name, *given in (("write",), *edits):
            check(findings, f"{GROUP}, kept with its repeats", library.call(random, name, held_of(transducer), *given), as_note(given))
