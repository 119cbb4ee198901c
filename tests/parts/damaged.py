"""Damaged files through both programs, against the reference."""

from means import damage, generate
from means.compare import compare_translation, expected_verdict, faults_of_verdict, randomness
from means.listing import Refusal
from means.programs import Programs
from means.settings import share
from means.transducer import table_file
from means.workers import spread

DAMAGED_FILES = 5_200
TRANSLATED = 10  # one damaged file in so many is given to the translating program, too


def compare_damaged(programs, findings, index):
    """One damaged file: the refusal's number and record; where it is still taken, verdict, u and witness."""
    random = randomness("damaged", index)
    transducer, _ = generate.KINDS[random.choice(damage.DAMAGED_KINDS)][1](random)
    content, name = damage.damaged(random, table_file(transducer))
    expected, read = expected_verdict(content)
    findings.check("damaged file", faults_of_verdict(programs, findings, content, expected, read), content, f"the damage: {name}")
    findings.count("damages", name)
    findings.count("damaged files", f"refused {expected.number}" if isinstance(expected, Refusal) else "still taken")
    if index % TRANSLATED == 0:
        word = generate.any_word(random, transducer, 4) if random.random() < 0.8 else generate.broken_word(random, transducer)
        compare_translation(programs, findings, content, word, "damaged file, translation")


def run(findings):
    spread(Programs, [(compare_damaged, index) for index in range(share(DAMAGED_FILES))], findings)
