"""What the desk tool must say of a table: in what its words are wrong, by the reference and by document 01 alone."""

import os
import re

from means import generate, reference
from means.compare import expected_translation, faults_of_output
from means.listing import Refusal, Verdict, faults_of_witness
from means.owed import table_of
from means.reference import Refused
from means.transducer import FILE_SEEN, table_file

# the kinds of generated tables that the desk tool and the examples are asked about
KINDS = ("random, small", "random, middle", "branches, a code changed", "loops, a code changed", "periodic output, a code changed",
         "most lines read nothing", "coprime cycles", "deterministic")


class NotSaid(Exception):
    """The words are not of the form expected."""


def faults_where(*claims):
    """The words of those of the pairs (what holds, words) that do not hold."""
    return [words for holds, words in claims if not holds]


def faults_of_run(run, status, stdout="", stderr=""):
    """In what a run is not as expected: its exit status, and what both outputs must have in them. Where nothing is expected, nothing must be."""
    found, out, complaint = run
    return faults_where((found == status, f"exit status {found} instead of {status}"),
                        (stdout in out and (stdout or not out), f"standard output {out[:300]!r} without {stdout!r}"),
                        (stderr in complaint and (stderr or not complaint), f"standard error {complaint[:300]!r} without {stderr!r}"))


def numbers(text):
    return tuple(map(int, re.findall(r"\d+", text)))


def counted(count, what):
    return f"{count:,} {what}{'s' * (count != 1)} in common"


# --- the verdict in words ----------------------------------------------------------------------------------------------

SINGLE = "single: every input word has one output at most"
SPLIT = "split: one input word, two paths, two outputs"


def parse_words(said):
    """A Verdict from its words; for split also the sentences where paths and outputs part, and the rows of the lines."""
    head, *paragraphs = said.rstrip("\n").split("\n\n")
    first = re.fullmatch(rf"({SINGLE}|{SPLIT}) \(u = ([\d,]+)\)", head)
    if not first or len(paragraphs) != (4 if first[1] == SPLIT else 0):
        raise NotSaid(f"not a verdict: {said[:200]!r}")
    useful = int(first[2].replace(",", ""))
    if not paragraphs:
        return Verdict(False, useful), "", []
    witness, parting, rows, _ = paragraphs
    parting = " ".join(parting.split())
    common = re.search(r"The outputs part after ([\d,]+) codes? in common: ", parting)
    said = Verdict(True, useful, parse_witness(witness), int(common[1].replace(",", "")) if common else 0)
    return said, parting, [" ".join(row.split()) for row in rows.split("\n")]


def parse_witness(paragraph):
    """Names in nine columns, and lists beside them that may go on in the next line."""
    found = []
    for line in paragraph.split("\n"):
        if line[:9].strip():
            found.append([line[:9].strip(), ""])
        if not found:
            raise NotSaid(f"not a witness: {paragraph[:200]!r}")
        found[-1][1] += " " + line[9:]
    if [name for name, _ in found] != ["word", "path A", "writes", "path B", "writes"]:
        raise NotSaid(f"not a witness: {paragraph[:200]!r}")
    word, path_a, output_x, path_b, output_y = (numbers(text) for _, text in found)
    return word, path_a, path_b, output_x, output_y


def where_paths_part(transducer, path_a, path_b):
    common = len(os.path.commonprefix([path_a, path_b]))
    rest_a, rest_b = ([transducer.transitions[number] for number in path[common:]] for path in (path_a, path_b))
    state = rest_b[0].source
    takes = f"A takes line {path_a[common]}" if rest_a else "A ends there" if common else "A is empty"
    place = f"at the start, state {state}"
    if common:
        place = f"after {counted(common, 'line')}, at state {state}"
    elif not rest_a:
        place = "at the start"
    elif rest_a[0].source != state:
        place = f"at the start: A starts at state {rest_a[0].source}, B at state {state}"
    return f"The paths part {place}: {takes}, B takes line {path_b[common]}."


def where_outputs_part(transducer, path_a, path_b):
    written = [[(code, number) for number in path for code in transducer.transitions[number].output] for path in (path_a, path_b)]
    common = len(os.path.commonprefix([[code for code, _ in side] for side in written]))
    sides = [f"{name} writes {side[common][0]} (line {side[common][1]})" if common < len(side) else f"{name} has ended"
             for name, side in zip("AB", written)]
    place = f"after {counted(common, 'code')}" if common else "at the first code"
    return f"The outputs part {place}: {', '.join(sides)}."


def rows_of_lines(transducer, path_a, path_b):
    """What the table of lines must say of each line that a path takes."""
    before = 2 + len(transducer.starts) + len(transducer.finals)
    yield "line in the file from to reads writes on path"
    for number, line in enumerate(transducer.transitions):
        on = [name for name, path in (("A", path_a), ("B", path_b)) if number in path]
        if on:
            yield (f"{number} line {number + before} {line.source} {line.target} {line.input or 'nothing'} "
                   f"{' '.join(map(str, line.output)) or 'nothing'} {' and '.join(on)}")


def faults_of_words(run, expected, transducer):
    """In what a verdict in words is wrong; with the Verdict that it says."""
    try:
        said, parting, rows = parse_words(run[1])
    except NotSaid as error:
        return [f"{error}, standard error {run[2][:300]!r}"], None
    faults = faults_of_run(run, 1 if expected.split else 0, "(u =")
    if (said.split, said.useful) != (expected.split, expected.useful):
        return faults + [f"expected split {expected.split}, u {expected.useful}; said split {said.split}, u {said.useful}"], said
    if said.split:
        faults += faults_of_witness(transducer, said.useful, said.witness, said.shared)
    if faults or not said.split:
        return faults, said
    _, path_a, path_b, _, _ = said.witness
    sentences = f"{where_paths_part(transducer, path_a, path_b)} {where_outputs_part(transducer, path_a, path_b)}"
    return faults_where((parting == sentences, f"said {parting!r}, expected {sentences!r}"),
                        (rows == list(rows_of_lines(transducer, path_a, path_b)), f"the lines are not as in the table: {rows[:4]}")), said


# --- useful states and pairs, translations, word tests -----------------------------------------------------------------


def faults_of_useful(run, transducer):
    """In what the useful states and pairs are not those of the reference."""
    pairs, states = reference.useful_pairs(transducer), generate.useful_states(transducer)
    rows = [f"useful states ({len(states)} of {transducer.states}): {' '.join(map(str, sorted(states))) or 'none'}",
            f"not useful: {' '.join(str(q) for q in range(transducer.states) if q not in states) or 'none'}",
            f"useful pairs of states: u = {len(pairs):,}",
            *(f"  {p} with {' '.join(str(q) for a, q in sorted(pairs) if a == p)}" for p in sorted({p for p, _ in pairs}))]
    return faults_of_run(run, 0, "\n".join(rows) + "\n") + faults_where((run[1].count("\n") == len(rows), "more lines than that"))


def faults_of_translation(run, content, word, split):
    """The refusal that is expected, or None; and in what the output is wrong. A split table is said to be one on standard error."""
    expected, transducer = expected_translation(content, word)
    if isinstance(expected, Refusal):
        return expected, []
    faults = faults_of_run(run, 0, "\n", "is split" if split else "")
    return None, faults or faults_of_output(word, numbers(run[1]), expected, transducer)


def faults_of_word_test(run, read, word, output):
    """The refusal that is expected, or None; and in what the answer is wrong. Where it is yes, a split table is said to be one on standard error."""
    try:
        yes = reference.accepts(read.transducer, word, output)
    except Refused as refused:
        return Refusal(refused.number, refused.record), []
    reads, writes = (" ".join(map(str, codes)) or empty for codes, empty in ((word, "the empty word"), (output, "nothing")))
    said = f"{'yes: an' if yes else 'no: no'} accepting path reads {reads} and writes {writes}\n"
    faults = faults_of_run(run, 0 if yes else 1, said, "is split" if yes and not read.functional else "")
    return None, faults + faults_where((run[1] == said, "more than that"))


# --- joins -------------------------------------------------------------------------------------------------------------


def expected_join(first, second):
    """The joined file by the reference, or None; and the refusal, or None."""
    tables = [table_of(content[:FILE_SEEN]) for content in (first, second)]
    for is_second, table in enumerate(tables):
        if table.refused:
            return None, Refusal(table.refused.number, table.refused.record, bool(is_second))
    try:
        return table_file(reference.join(*(table.transducer for table in tables))), None
    except Refused as refused:
        return None, Refusal(refused.number, refused.record)


def faults_of_joined(run, made, expected):
    """In what a join is wrong: the file, the counts that are said of it, and that a blank table is said to be one."""
    states, starts, finals, lines = (int(expected[column:column + 4]) for column in range(1, 17, 4))
    said, *more = run[1].splitlines() or [""]
    blank = [] if starts else ["This is the blank table: second reads no output of first."]
    return faults_of_run(run, 0, "joined: joined: ") + faults_where(
        (made == expected, "the file is not the joined table's"),
        (numbers(said.replace(",", "")) == (states, starts, finals, lines, len(expected)), f"said {said!r}"),
        (more == blank, f"said {more}, expected {blank}"))
