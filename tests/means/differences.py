"""Comparisons of the library's difference of two lists."""

from itertools import permutations

from means.calls import check, check_known
from means.compare import randomness
from means.listing import MAX_WITNESS_OUTPUT
from means.owed import CLASH, COMPARISONS, FIRST_AHEAD, LEVEL, SECOND_AHEAD
from means.settings import share
from means.transducer import MAX_CODE

DIFFERENCES = 600
MANY = 1_000_000  # codes of a long list

LONGEST = bytes(1 + place % MAX_CODE for place in range(MAX_WITNESS_OUTPUT))  # as many codes as an output that a verdict shows can have
# both lists; kind, common length of a clash
KNOWN_DIFFERENCES = (
    ((b"\5\6", b"\5"), (FIRST_AHEAD, 0)), ((b"\5", b"\5\6"), (SECOND_AHEAD, 0)), ((b"\5\6", b"\5\7"), (CLASH, 1)), ((b"", b""), (LEVEL, 0)),
    ((b"", b"\0"), (SECOND_AHEAD, 0)), ((b"\xff", b""), (FIRST_AHEAD, 0)), ((b"\0", b"\0"), (LEVEL, 0)), ((b"\0", b"\xff"), (CLASH, 0)),
    ((LONGEST[:-1] + b"\1", LONGEST[:-1] + b"\2"), (CLASH, MAX_WITNESS_OUTPUT - 1)), ((LONGEST, LONGEST[:-1]), (FIRST_AHEAD, 0)),
    ((LONGEST[:-1], LONGEST), (SECOND_AHEAD, 0)), ((LONGEST, LONGEST), (LEVEL, 0)),
)
# what long lists are made of: bytes that are no output codes are compared like any others
ALPHABETS = {"output codes": range(1, MAX_CODE + 1), "any bytes": range(256), "no output codes": (0, *range(MAX_CODE + 1, 256))}


def two_lists(random):
    """Two lists of any bytes that often have much in common; one in forty is long."""
    longest = 300_000 if random.random() < 0.025 else random.choice((3, 20, 300))
    common = random.randbytes(random.randint(0, longest))
    ends = [random.choice((b"", b"", random.randbytes(1), random.randbytes(random.randint(0, longest)))) for _ in range(2)]
    return common + ends[0], common + ends[1]


def compare_differences(library, findings):
    random = randomness("library, differences")
    for lists, answer in KNOWN_DIFFERENCES:
        note = " and ".join(f"{codes[:60]!r}, {len(codes):,} codes" for codes in lists)
        check_known(findings, "difference", library.call(random, "difference", *lists), answer, note)
    for _ in range(share(DIFFERENCES)):
        x, y = two_lists(random)
        for places in (2, 5, 1, 0):
            check(findings, "difference", library.call(random, "difference", x, y, answer=places), f"{x[:60]!r} and {y[:60]!r}")


def long_lists(codes):
    """Two lists of 1,000,000 codes or more, of 1,500,000 that are given: level, each ahead by one and by half, and clashes at the last place. What
    they are; both; the answer."""
    x, but_one = codes[:MANY], codes[:MANY - 1]
    yield "level", (x, x), (LEVEL, 0)
    for more in (codes[:MANY + 1], codes):
        yield f"{len(more):,} and {MANY:,} codes", (more, x), (FIRST_AHEAD, 0)
        yield f"{MANY:,} and {len(more):,} codes", (x, more), (SECOND_AHEAD, 0)
    for last in permutations((0, 1, MAX_CODE, MAX_CODE + 1, 255), 2):
        yield f"{last} at the last place", tuple(but_one + bytes((code,)) for code in last), (CLASH, MANY - 1)


def compare_long(library, findings):
    group = f"lists of {MANY:,} codes"
    for name, alphabet in ALPHABETS.items():
        random = randomness("library", group, name)
        codes = random.randbytes(MANY * 3 // 2).translate(bytes(alphabet[byte % len(alphabet)] for byte in range(256)))
        for what, lists, answer in long_lists(codes):
            check_known(findings, group, library.call(random, "difference", *lists), answer, f"{what}, {name}")
            findings.count(f"library, {group}", COMPARISONS[answer[0]])
