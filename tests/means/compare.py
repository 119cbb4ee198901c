"""What the programs say of one file or one word, and in what it is not what the reference says."""

from random import Random

from means import reference
from means.listing import Malformed, Refusal, Verdict, faults_of_witness, parse_translation, parse_verdict
from means.programs import Broken
from means.reference import AMBIGUOUS, Refused

SEED = 20_240_101
MAX_DEFINED = 6  # states up to which the reference itself is compared with the definitions


def randomness(*names):
    """The random numbers of one comparison, the same in every run."""
    return Random(" ".join(map(str, (SEED, *names))))


def as_codes(word):
    return f"the word ({len(word)} codes): {' '.join(map(str, word))}"


def size_name(size):
    """How the report names a range of sizes."""
    for low, high in ((0, 0), (1, 9), (10, 99), (100, 499), (500, 1_023), (1_024, 16_376)):
        if low <= size <= high:
            return f"{low} to {high}:"
    return "over 16376:"


def answer(parse, run, *given):
    """What a program says, parsed; and the faults of its listing if it has no proper form."""
    try:
        return parse(run(*given)), []
    except (Broken, Malformed) as error:
        return None, [f"{type(error).__name__.lower()}: {error}"]


def expected_verdict(content):
    """A Refusal, or a Verdict without its witness, with the transducer."""
    try:
        transducer = reference.read_seen(content)
    except Refused as refused:
        return Refusal(refused.number, refused.record), None
    useful = reference.useful_pairs(transducer)
    return Verdict(not reference.functional(transducer, useful), len(useful)), transducer


def faults_of_verdict(programs, findings, content, expected, transducer):
    """In what the verdict program's answer for a file is wrong; the sizes of the witnesses are counted, and how far their outputs agree."""
    said, faults = answer(parse_verdict, programs.verdict, content)
    if faults:
        return faults
    if isinstance(said, Refusal) or isinstance(expected, Refusal):
        return [] if said == expected else [f"expected {expected}, printed {said}"]
    if (said.split, said.useful) != (expected.split, expected.useful):
        return [f"expected split {expected.split}, u {expected.useful}; printed split {said.split}, u {said.useful}"]
    if not said.split:
        return []
    _, left, right, left_output, right_output = said.witness
    findings.count("witnesses, longer path", size_name(max(len(left), len(right))))
    findings.count("witnesses, longer output", size_name(max(len(left_output), len(right_output))))
    findings.count("witnesses, codes in common", size_name(said.shared))
    return faults_of_witness(transducer, said.useful, said.witness, said.shared)


def expected_translation(content, word):
    """A Refusal, an output, or AMBIGUOUS; with the transducer."""
    transducer = None
    try:
        transducer = reference.read_seen(content)
        return reference.translate(transducer, word), transducer
    except Refused as refused:
        return Refusal(refused.number, refused.record), transducer


def faults_of_output(word, said, expected, transducer):
    """In what a translation is wrong. On a split table, any output of the word will do."""
    if said == expected:
        return []
    if expected is not AMBIGUOUS:
        return [f"expected {expected}, printed {said}"]
    if isinstance(said, Refusal) or not reference.relates(transducer, word, said):
        return [f"no accepting path writes what is printed: {said}"]
    return []


def compare_translation(programs, findings, content, word, group="translation"):
    """One table file and one word; returns what the translating program says."""
    expected, transducer = expected_translation(content, word)
    said, faults = answer(parse_translation, programs.translate, content, word)
    findings.check(group, faults or faults_of_output(word, said, expected, transducer), content, as_codes(word))
    findings.count(f"{group}s", outcome_name(expected))
    return said


def outcome_name(expected):
    """How the report names what a translation gives."""
    if isinstance(expected, Refusal):
        return f"refused {expected.number}"
    return "several outputs" if expected is AMBIGUOUS else "one output"
