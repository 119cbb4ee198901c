"""Pairs of files whose tables are alike, through both programs and the library; and pairs that differ in one line, whose verdicts the reference tells
apart."""

from means import generate, reference
from means.alikes import GROUP, LINES, compare_calls, pair_of, words_for
from means.compare import as_codes, compare_translation, expected_verdict, faults_of_verdict, randomness
from means.library import Library, build
from means.programs import Programs
from means.settings import share
from means.transducer import table_file
from means.workers import spread

APART = "one line differs"
SOME_TABLES = 4  # for one table of a kind in so many: a pair through the programs, one through the library, one that differs in one line
TRIES = 30  # tables and changes that are tried until the reference tells the verdicts apart


# --- pairs that are alike --------------------------------------------------------------------------------------------


def compare_programs(programs, findings, kind, index):
    """Verdict and u of both files; some words with the one and with the other, which get the same answer if the tables are single."""
    random = randomness(GROUP, kind, index)
    one, other, expected = pair_of(findings, random, kind)
    for transducer in (one, other):
        content = table_file(transducer)
        findings.check(f"{GROUP}, verdict and u", faults_of_verdict(programs, findings, content, expected, transducer), content)
    for word in words_for(random, one):
        said, again = (compare_translation(programs, findings, table_file(transducer), word, f"{GROUP}, translation") for transducer in (one, other))
        if not expected.split:
            faults = [] if said == again else [f"{again}, and with the first table {said}"]
            findings.check(f"{GROUP}, the same translation or refusal", faults, table_file(other), as_codes(word))


# --- pairs that differ in one line -----------------------------------------------------------------------------------


def told_apart(random, kind):
    """Two tables that differ in one line, with their verdicts by the reference, of which one is single and one split; None if none is found. Often lines
    have been pasted again before, so that only one of several copies is changed."""
    for _ in range(TRIES):
        one = generate.KINDS[kind][1](random)[0]
        one = generate.same_lines(random, one) if random.random() < 0.5 else one
        other = generate.one_line_changed(random, one)
        verdicts = [expected_verdict(table_file(transducer))[0] for transducer in (one, other)]
        if verdicts[0].split != verdicts[1].split:
            return one, other, verdicts
    return None


def compare_apart(programs, findings, kind, index):
    """Each of two tables that differ in one line gets its own verdict and u."""
    random = randomness(APART, kind, index)
    pair = told_apart(random, kind)
    findings.count(f"{APART}, pairs", "told apart" if pair else "none found")
    if pair is None:
        return
    one, other, verdicts = pair
    changed = [a != b for a, b in zip(one.transitions, other.transitions, strict=True)].count(True)
    faults = [] if changed == 1 and not reference.alike(one, other) else [f"{changed} lines differ, or the tables are alike"]
    findings.check_apart(f"reference itself, {APART}", faults, table_file(one))
    for transducer, expected in zip((one, other), verdicts):
        content = table_file(transducer)
        findings.check(f"{APART}, verdict and u", faults_of_verdict(programs, findings, content, expected, transducer), content)


def run(findings):
    build()
    tables = [(kind, index) for kind, (count, _) in generate.KINDS.items() for index in range(share(-(-count // SOME_TABLES)))]
    spread(Programs, [(compare, *table) for compare in (compare_programs, compare_apart) for table in tables], findings)
    spread(Library, [(compare_calls, *table) for table in tables], findings)
    for title, what in ((LINES, "more"), (LINES, "fewer"), (LINES, "in another order"), (f"{APART}, pairs", "told apart")):
        findings.check_apart("pairs of every kind", [] if findings.tally[title, what] else [f"{title}: none {what}"], b"")
