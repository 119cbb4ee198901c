"""The library's word test (yotselina_accepts)."""

from itertools import product

from means.calls import as_note, check, check_known
from means.compare import randomness
from means.held import held_of
from means.library import Library, build
from means.named import table
from means.settings import share
from means.transducer import MAX_CODE, MAX_OUTPUTS, MAX_TESTED_INPUT, MAX_TESTED_OUTPUT
from means.wordtests import GROUP, KINDS, compare_known, compare_refusals, compare_table
from means.workers import spread


def compare_lengths(library, findings):
    """A line that reads 1 and writes c codes and one that reads nothing and writes d, all codes the same: yes is a matter of counting."""
    random = randomness(GROUP, "lengths")
    for c, d in product(range(MAX_OUTPUTS + 1), repeat=2):
        held = held_of(table(1, [0], [0], (0, 0, 1, *[5] * c), (0, 0, 0, *[5] * d)))
        for read in (0, 1, 15, MAX_TESTED_INPUT):
            least = read * c
            for written in {0, c, least - 1, least, least + 1, least + d - 1, least + d, 125, 126, 127}.intersection(range(MAX_TESTED_OUTPUT + 1)):
                more = written - least
                yes = more >= 0 and (more % d == 0 if d else more == 0)
                call = library.call(random, "accepts", held, b"\1" * read, b"\5" * written)
                check_known(findings, f"{GROUP}, known answers", call, (int(yes),), f"{c} and {d} codes, {read} read, {written} written")


def compare_codes(library, findings):
    """Every byte as the first, a middle and the last code of either word."""
    random = randomness(GROUP, "codes")
    held = held_of(table(1, [0], [0], (0, 0, MAX_CODE, MAX_CODE)))
    three = bytes([MAX_CODE] * 3)
    for code, at in product(range(256), range(3)):
        other = three[:at] + bytes([code]) + three[at + 1:]
        for words in ((other, three), (three, other), (other, other)):
            check(findings, f"{GROUP}, every byte", library.call(random, "accepts", held, *words), as_note(words))


def run(findings):
    build()
    jobs = [(compare_table, kind, index) for kind, (count, _) in KINDS.items() for index in range(share(count))]
    jobs += [(compare_known,), (compare_lengths,), (compare_codes,), (compare_refusals,)]
    spread(Library, jobs, findings)
