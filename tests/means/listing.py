"""What the programs print: records like the file's, with fields six wide; and the check of a witness from documents 01 and 02 alone."""

from dataclasses import dataclass

from means import reference
from means.transducer import record

LETTERS = (b"V", b"W", b"A", b"B", b"X", b"Y", b"D", b"R")
WIDTH = 6
MAX_WITNESS = 2_047
MAX_WITNESS_OUTPUT = 16_376
MAX_TRANSLATION = 65_528


class Malformed(Exception):
    """A listing that is not of the form that documents 01 and 02 fix."""


@dataclass(frozen=True)
class Refusal:
    """A refusal as it is said; `second` is for the desk tool, which reads two files to join them: whether it is of the second."""

    number: int
    record: int
    second: bool = False


@dataclass(frozen=True)
class Verdict:
    """What the verdict program says of a table that is taken. The witness is (word, path A, path B, output X, output Y), or None; `shared` is how
    many codes its outputs are said to have in common at the beginning."""

    split: bool
    useful: int
    witness: tuple | None = None
    shared: int = 0


def show(*records):
    """The bytes of a listing: each record a letter and a list of numbers."""
    return "".join(record(letter, numbers, WIDTH) for letter, numbers in records).encode("ascii")


def parse(listing):
    """The records of a listing. Writing them again must give the same bytes, so nothing but the one form gets through."""
    records = []
    for line in listing.split(b"\n")[:-1]:
        fields = [line[i:i + WIDTH] for i in range(1, len(line), WIDTH)]
        if line[:1] not in LETTERS or not all(field.strip().isdigit() for field in fields):
            raise Malformed(f"not a letter and numbers: {line[:60]!r}")
        records.append((line[:1].decode("ascii"), [int(field) for field in fields]))
    if show(*records) != listing:
        raise Malformed(f"not records with fields six wide: {listing[:80]!r}")
    return records


def refusal(records):
    letter, numbers = records[0]
    if len(records) != 1 or letter != "R" or len(numbers) != 2:
        raise Malformed(f"not one refusal: {records[0]}")
    return Refusal(*numbers)


def items(record_read, letter):
    """The items of a record that has a count and then so many items."""
    found, numbers = record_read
    if found != letter or not numbers or numbers[0] != len(numbers) - 1:
        raise Malformed(f"not a count and so many items in the {letter} record: {found} {numbers[:8]}")
    return tuple(numbers[1:])


def number(record_read, letter):
    """The number of a record that has this one only."""
    found, numbers = record_read
    if found != letter or len(numbers) != 1:
        raise Malformed(f"not one number in the {letter} record: {found} {numbers[:8]}")
    return numbers[0]


def parse_verdict(listing):
    """A Refusal or a Verdict."""
    records = parse(listing)
    if not records:
        raise Malformed("nothing is printed")
    letter, numbers = records[0]
    if letter != "V":
        return refusal(records)
    if len(numbers) != 2 or numbers[0] not in (0, 1) or len(records) != (7 if numbers[0] else 1):
        raise Malformed(f"not a verdict: {len(records)} records, the first {letter} {numbers}")
    if not numbers[0]:
        return Verdict(False, numbers[1])
    return Verdict(True, numbers[1], tuple(items(records[i], letter) for i, letter in enumerate("WABXY", 1)), number(records[6], "D"))


def parse_translation(listing):
    """A Refusal, or the output."""
    records = parse(listing)
    if not records:
        raise Malformed("nothing is printed")
    if records[0][0] != "X":
        return refusal(records)
    if len(records) != 1:
        raise Malformed(f"{len(records)} records instead of one")
    output = items(records[0], "X")
    if len(output) > MAX_TRANSLATION:
        raise Malformed(f"{len(output)} codes")
    return output


# --- the witness of a split verdict ----------------------------------------------------------------------------------


def accepting(transducer, path):
    """Whether the path goes from a start state to a final one, each transition leaving the state that the one before entered."""
    if not path:
        return bool(set(transducer.starts) & set(transducer.finals))
    if max(path) >= len(transducer.transitions):
        return False
    lines = [transducer.transitions[number] for number in path]
    joined = all(line.target == after.source for line, after in zip(lines, lines[1:]))
    return joined and lines[0].source in transducer.starts and lines[-1].target in transducer.finals


def reads(transducer, path):
    return tuple(transducer.transitions[number].input for number in path if transducer.transitions[number].input)


def writes(transducer, path):
    return tuple(code for number in path for code in transducer.transitions[number].output)


def faults_of_witness(transducer, useful, witness, shared):
    """Everything in which the showing is not as document 01 wants it, and the number of codes in common not as document 02, job 8."""
    word, left, right, left_output, right_output = witness
    faults = []
    for name, path, output in (("A", left, left_output), ("B", right, right_output)):
        if not accepting(transducer, path):
            faults.append(f"path {name} is not accepting")
            continue
        if reads(transducer, path) != word:
            faults.append(f"path {name} does not read the word")
        if writes(transducer, path) != output:
            faults.append(f"path {name} does not write the output shown")
        if len(output) > MAX_WITNESS_OUTPUT:
            faults.append(f"the output of path {name} has {len(output)} codes")
    if left_output == right_output:
        faults.append("the outputs are the same")
    if not left < right:
        faults.append("A does not stand before B in dictionary order")
    common = reference.shared(left_output, right_output)
    if shared != common:
        faults.append(f"the outputs have {common} codes in common at the beginning, and not {shared}")
    bound = min(2 * useful - 1, MAX_WITNESS)
    for name, length in (("word", len(word)), ("path A", len(left)), ("path B", len(right))):
        if length > bound:
            faults.append(f"the {name} has {length} items, over 2u - 1 = {bound}")
    return faults
