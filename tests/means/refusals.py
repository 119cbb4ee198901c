"""The refusal numbers in the texts where they stand: code, definitions, header, manual and desk tool must have the same."""

import re

from means.programs import ROOT

GROUP = "refusal numbers"
UNUSED = 12  # no refusal has this number any more, and none gets it again
CODE, DEFINITIONS, HEADER = "crates/transducer/src/refusals.rt", "crates/transducer/specs/Refusals.antt", "include/yotselina.h"
MANUAL, DESK_TOOL = "docs/MANUAL.md", "cli/desktool/refusals.py"
# where the numbers stand, and how, with their names: a case of the enum in the code, a constant in the definitions
CONSTANTS = {
    CODE: r"^    (\w+) = (\d+),$",
    DEFINITIONS: r"^abbrev pub (\w+) : ℕ\n\1 = (\d+)$",
}
NAMED = "#define YOTSELINA_{} {}\n"  # each of them in the header, and its text
TEXT = "    case YOTSELINA_{}:\n"
LISTS = {
    MANUAL: r"^\| (\d+)(?:, record)? \| .* \| .* \|$",
    HEADER: r"^ \*     (\d+) +\S",
    DESK_TOOL: r"^    (\d+): Words\(",
}
SENTENCES = r"^ \* (?:Returns .* )?Refusals: ((?:.|\n)*?)\n \* (?:Stack|Writes)"  # of each call, in the header


def found(place, pattern):
    return re.findall(pattern, (ROOT / place).read_text(encoding="utf-8"), re.MULTILINE)


def constant(variant):
    """The name that a case of the code's enum has as a constant: ManyPairs is MANY_PAIRS."""
    return re.sub(r"(?<!^)(?=[A-Z])", "_", variant).upper()


def numbers_of_code():
    """The numbers that refusals have in the code."""
    return [int(number) for _, number in found(CODE, CONSTANTS[CODE]) if int(number) != UNUSED]


def in_definitions(name):
    """The name that a case of the code has in the definitions: ManyPairs is many_pairs there."""
    return "too_short_of" if name == "TooShort" else constant(name).lower()


def said_of_calls():
    """The numbers that the header says of some call; `1 to 6` is six of them."""
    numbers = set()
    for sentence in found(HEADER, SENTENCES):
        for low, high in re.findall(r"(\d+)(?: to (\d+))?", sentence):
            numbers.update(range(int(low), int(high or low) + 1))
    return sorted(numbers)


def faults_of_numbers(numbers, expected):
    """In what the numbers that stand in a place are not those expected, each once."""
    faults = [f"{number} stands there {numbers.count(number)} times" for number in sorted(set(numbers)) if numbers.count(number) > 1]
    faults += [f"{number} is missing" for number in sorted(expected - set(numbers))]
    return faults + [f"{number} must not stand there" for number in sorted(set(numbers) - expected)]


def check_numbers(findings):
    """The names of the code, the definitions and the header are the same, and their numbers stand in each of the lists; the header says each of
    some call, and has a text for it."""
    constants = {place: [(name, int(number)) for name, number in found(place, pattern)] for place, pattern in CONSTANTS.items()}
    other = sorted({(in_definitions(name), number) for name, number in constants[CODE]} ^ set(constants[DEFINITIONS]))
    findings.check_apart(GROUP, [f"{name} = {number} stands in one only" for name, number in other], b"", f"{CODE} and {DEFINITIONS}")
    header = (ROOT / HEADER).read_text(encoding="utf-8")
    missing = [name for name, number in constants[CODE]
               if NAMED.format(constant(name), number) not in header or TEXT.format(constant(name)) not in header]
    findings.check_apart(GROUP, [f"no constant or no text: {missing}"] if missing else [], b"", f"{CODE} and {HEADER}")
    places = {place: [number for _, number in named] for place, named in constants.items()}
    places |= {place: [int(number) for number in found(place, pattern)] for place, pattern in LISTS.items()}
    places |= {f"{HEADER}, of the calls": said_of_calls()}
    for place, there in places.items():
        findings.check_apart(GROUP, faults_of_numbers(there, set(numbers_of_code())), b"", place)
        for _ in there:
            findings.count(GROUP, f"{place}:")
