"""A second implementation of documents 01 and 02, to compare the programs and the library with.

It shares no idea with the proved crates where another way is known: functionality is decided by residues (document 000, theorem 3.23 and
corollary 3.24), one for each useful pair of states; a translation is the word on which all accepting paths agree, over all of them at once; a word
test is a plain search over (codes read, codes matched, state); a join begins with the set of all steps, of which sorting and the sets of pairs that
they lead to leave the lines; an edit is one of the list of lines.
"""

import re
from collections import deque
from itertools import product

from means.transducer import (FILE_SEEN, MAX_CODE, MAX_OUTPUTS, MAX_STATES, MAX_TESTED_INPUT, MAX_TESTED_OUTPUT, MAX_TRANSITIONS, MAX_WORD, WORD_SEEN,
                        Transducer, Transition)

# --- the reader ------------------------------------------------------------------------------------------------------


class Refused(Exception):
    """A refusal: its number, and the number of the record in which the fault is."""

    def __init__(self, number, record=0):
        super().__init__(number, record)
        self.number = number
        self.record = record


NUMBER = re.compile(rb" *(0|[1-9][0-9]*)")


class Reader:
    """The text of a table file, how far it is read, and the number of the record at hand. Each check refuses at once."""

    def __init__(self, text):
        self.text = text
        self.at = 0
        self.record = 0

    def refuse(self, number):
        raise Refused(number, self.record)

    def byte(self, expected):
        """A letter or a record end."""
        if self.at == len(self.text):
            self.refuse(1)
        if self.text[self.at] != ord(expected):
            self.refuse(2)
        self.at += 1

    def field(self, low, high, above=-1):
        """A number from low to high that is greater than `above`."""
        if len(self.text) - self.at < 4:
            self.refuse(1)
        columns = self.text[self.at:self.at + 4]
        if not NUMBER.fullmatch(columns):
            self.refuse(3)
        number = int(columns)
        if not low <= number <= high:
            self.refuse(4)
        if number <= above:
            self.refuse(5)
        self.at += 4
        return number

    def end(self):
        self.byte("\n")
        self.record += 1

    def states(self, letter, count, last):
        """Records of one state each, strictly rising."""
        states = []
        for _ in range(count):
            self.byte(letter)
            states.append(self.field(0, last, above=states[-1] if states else -1))
            self.end()
        return tuple(states)

    def transition(self, last):
        self.byte("L")
        source = self.field(0, last)
        target = self.field(0, last)
        code = self.field(0, MAX_CODE)
        count = self.field(0, MAX_OUTPUTS)
        output = tuple(self.field(1, MAX_CODE) for _ in range(count))
        self.end()
        return Transition(source, target, code, output)


def read(text):
    """The transducer of a table file; refuses by document 01's numbers, strictly from left to right."""
    reader = Reader(text)
    reader.byte("T")
    states = reader.field(1, MAX_STATES)
    starts = reader.field(0, MAX_STATES)
    finals = reader.field(0, MAX_STATES)
    transitions = reader.field(0, MAX_TRANSITIONS)
    reader.end()
    transducer = Transducer(states,
                            reader.states("S", starts, states - 1),
                            reader.states("F", finals, states - 1),
                            tuple(reader.transition(states - 1) for _ in range(transitions)))
    if reader.at < len(text):
        reader.refuse(6)
    return transducer


def read_seen(content):
    """What a program reads of a file with this content."""
    return read(content[:FILE_SEEN])


def alike(one, other):
    """Document 02, job 2: the same n, start and final states, and each line of either stands in the other, repeats not counted."""
    return one._replace(transitions=set(one.transitions)) == other._replace(transitions=set(other.transitions))


# --- useful pairs ----------------------------------------------------------------------------------------------------


def outgoing(transducer):
    """For each state, its transitions by input code."""
    table = [{} for _ in range(transducer.states)]
    for line in transducer.transitions:
        table[line.source].setdefault(line.input, []).append(line)
    return table


def steps(table, pair):
    """The steps of a pair: the pair entered, what the left side writes, what the right side writes."""
    p, q = pair
    for code, lines in table[p].items():
        if code == 0:
            for left in lines:
                yield (left.target, q), left.output, ()
        else:
            for left in lines:
                for right in table[q].get(code, ()):
                    yield (left.target, right.target), left.output, right.output
    for right in table[q].get(0, ()):
        yield (p, right.target), (), right.output


def closure(roots, successors):
    """All that the successors reach from the roots, the roots included."""
    seen = set(roots)
    waiting = deque(seen)
    while waiting:
        for other in successors(waiting.popleft()):
            if other not in seen:
                seen.add(other)
                waiting.append(other)
    return seen


def useful_pairs(transducer):
    """The useful pairs: a walk leads to them from two start states, and one from them to two final states."""
    table = outgoing(transducer)
    roots = [(p, q) for p in transducer.starts for q in transducer.starts]
    entered_from = {}
    reached = closure(roots, lambda pair: [entered for entered, _, _ in steps(table, pair)])
    for pair in reached:
        for entered, _, _ in steps(table, pair):
            entered_from.setdefault(entered, []).append(pair)
    ends = [(p, q) for p in transducer.finals for q in transducer.finals if (p, q) in reached]
    return closure(ends, lambda pair: entered_from.get(pair, ()))


# --- functionality by residues ---------------------------------------------------------------------------------------


def shared(left, right):
    """How many codes two words have in common at the beginning, also where one is a beginning of the other."""
    return next((place for place, (a, b) in enumerate(zip(left, right)) if a != b), min(len(left), len(right)))


def residue(ahead, left, right):
    """The residue after a step: the unmatched ends of both sides, of which at most one is not empty; None for a clash."""
    left = ahead[0] + left
    right = ahead[1] + right
    common = shared(left, right)
    left, right = left[common:], right[common:]
    return None if left and right else (left, right)


def functional(transducer, useful):
    """Theorem 3.23 on the trimmed square: each useful pair has one residue, and final pairs have the empty one."""
    table = outgoing(transducer)
    level = ((), ())
    residues = {(p, q): level for p in transducer.starts for q in transducer.starts if (p, q) in useful}
    waiting = deque(residues)
    while waiting:
        pair = waiting.popleft()
        for entered, left, right in steps(table, pair):
            if entered not in useful:
                continue
            ahead = residue(residues[pair], left, right)
            if ahead is None or residues.get(entered, ahead) != ahead:
                return False
            if entered not in residues:
                residues[entered] = ahead
                waiting.append(entered)
    return all(residues[pair] == level for pair in residues if pair[0] in transducer.finals and pair[1] in transducer.finals)


# --- translation -----------------------------------------------------------------------------------------------------

AMBIGUOUS = object()  # what `translation` gives for a word with several outputs


def moves(table, word, node):
    """The transitions from a node (position in the word, state), with the nodes they enter."""
    position, state = node
    for line in table[state].get(0, ()):
        yield line, (position, line.target)
    if position < len(word):
        for line in table[state].get(word[position], ()):
            yield line, (position + 1, line.target)


def accepting_moves(transducer, word):
    """The moves that lie on accepting paths for the word, by the node they leave; and the first and last nodes of such paths."""
    table = outgoing(transducer)
    leaving = {}

    def successors(node):
        leaving[node] = list(moves(table, word, node))
        return [entered for _, entered in leaving[node]]

    reached = closure([(0, state) for state in transducer.starts], successors)
    entered_from = {}
    for node in reached:
        for _, entered in leaving[node]:
            entered_from.setdefault(entered, []).append(node)
    last = [(len(word), state) for state in transducer.finals if (len(word), state) in reached]
    kept = closure(last, lambda node: entered_from.get(node, ()))
    first = [(0, state) for state in transducer.starts if (0, state) in kept]
    return {node: [move for move in leaving[node] if move[1] in kept] for node in kept}, first, last


def written_before(leaving, first):
    """How many codes an accepting path has written at each node; None if two accepting paths do not agree on that."""
    written = {node: 0 for node in first}
    waiting = deque(first)
    while waiting:
        node = waiting.popleft()
        for line, entered in leaving[node]:
            length = written[node] + len(line.output)
            if entered not in written:
                written[entered] = length
                waiting.append(entered)
            elif written[entered] != length:
                return None
    return written


def translation(transducer, word):
    """The output that all accepting paths write for the word: None if there is no such path, AMBIGUOUS if they do not agree."""
    leaving, first, last = accepting_moves(transducer, word)
    if not last:
        return None
    written = written_before(leaving, first)
    if written is None or len({written[node] for node in last}) > 1:
        return AMBIGUOUS
    output = [None] * written[last[0]]
    for node, node_moves in leaving.items():
        for line, _ in node_moves:
            for place, code in enumerate(line.output, written[node]):
                if output[place] not in (None, code):
                    return AMBIGUOUS
                output[place] = code
    return tuple(output)


def writes_longer(transducer, word, length):
    """Whether some accepting path reads the word and writes more than so many codes."""
    leaving, first, _ = accepting_moves(transducer, word)
    longest = {node: 0 for node in first}
    waiting = deque(first)
    while waiting:
        node = waiting.popleft()
        for line, entered in leaving[node]:
            written = longest[node] + len(line.output)
            if written > length:
                return True
            if written > longest.get(entered, -1):
                longest[entered] = written
                waiting.append(entered)
    return False


def translate(transducer, typed):
    """What the translating program owes for the bytes typed: the output, or AMBIGUOUS; refuses by document 01's numbers."""
    word = typed[:WORD_SEEN]
    if len(word) > MAX_WORD:
        raise Refused(9)
    only_codes(word, 10)
    output = translation(transducer, word)
    if output is None:
        raise Refused(11)
    return output


def only_codes(word, number):
    """Refuses by this number if something in the word is no code."""
    if any(not 1 <= code <= MAX_CODE for code in word):
        raise Refused(number)


# --- the word test ---------------------------------------------------------------------------------------------------


def relates(transducer, word, output):
    """Whether some accepting path reads the word and writes the output. Each line's outputs must stand in the output whole, at the next place."""
    word, output = tuple(word), tuple(output)
    leaving = [[] for _ in range(transducer.states)]
    for line in transducer.transitions:
        leaving[line.source].append(((line.input,) if line.input else (), line.output, line.target))

    def successors(place):
        read, matched, state = place
        for reads, writes, target in leaving[state]:
            if word[read:read + len(reads)] == reads and output[matched:matched + len(writes)] == writes:
                yield read + len(reads), matched + len(writes), target

    reached = closure([(0, 0, state) for state in transducer.starts], successors)
    return any((len(word), len(output), state) in reached for state in transducer.finals)


def accepts(transducer, word, output):
    """What the word test owes: yes or no; refuses by document 02's numbers. Both lengths come before any code."""
    if len(word) > MAX_TESTED_INPUT or len(output) > MAX_TESTED_OUTPUT:
        raise Refused(13)
    only_codes(word, 10)
    only_codes(output, 14)
    return relates(transducer, word, output)


# --- two tables in series --------------------------------------------------------------------------------------------

NO_LINE = -1  # what a step alone has in place of the other table's line: it stands before every line number
BLANK = Transducer(1, (), (), ())


def joint_steps(first, second):
    """Every step of two tables, from any pair of states: the pair that it leaves, the first's line, the second's, the pair that it enters."""
    lines, others = list(enumerate(first.transitions)), list(enumerate(second.transitions))
    alone = {((line.source, q), i, NO_LINE, (line.target, q)) for i, line in lines if not line.output for q in range(second.states)}
    alone |= {((p, other.source), NO_LINE, j, (p, other.target)) for j, other in others if not other.input for p in range(first.states)}
    return alone | {((line.source, other.source), i, j, (line.target, other.target))
                    for (i, line), (j, other) in product(lines, others) if line.output == (other.input,)}


def led_to(pairs, edges):
    """The pairs, and those that the edges lead to from them: added until there are no more."""
    pairs = set(pairs)
    while more := {entered for left, entered in edges if left in pairs} - pairs:
        pairs |= more
    return pairs


def join(first, second):
    """Document 02, job 3: the table of two in series; refuses by its numbers. What the first writes is the second's input."""
    if any(len(line.output) > 1 for line in first.transitions):
        raise Refused(15)
    steps = joint_steps(first, second)
    starts, finals = set(product(first.starts, second.starts)), set(product(first.finals, second.finals))
    edges = {(left, entered) for left, _, _, entered in steps}
    joined = led_to(starts, edges) & led_to(finals, {(entered, left) for left, entered in edges})
    if len(joined) > MAX_STATES:
        raise Refused(16)
    kept = sorted(step for step in steps if joined.issuperset((step[0], step[-1])))
    if len(kept) > MAX_TRANSITIONS:
        raise Refused(17)
    if not joined:
        return BLANK
    number = {pair: state for state, pair in enumerate(sorted(joined))}
    lines = (Transition(number[left], number[entered], 0 if i == NO_LINE else first.transitions[i].input,
                        () if j == NO_LINE else second.transitions[j].output) for left, i, j, entered in kept)
    return Transducer(len(joined), *(tuple(sorted(number[pair] for pair in ends & joined)) for ends in (starts, finals)), tuple(lines))


# --- edits -----------------------------------------------------------------------------------------------------------


def append(transducer, places):
    """Document 02, job 6: the table with one line more, as the last; refuses by its numbers. The line is given as its places."""
    source, target, code, count, *outputs = places
    if max(source, target) >= transducer.states or code > MAX_CODE or count > MAX_OUTPUTS or any(outputs[count:]):
        raise Refused(19)
    only_codes(outputs[:count], 19)
    if len(transducer.transitions) >= MAX_TRANSITIONS:
        raise Refused(17)
    return transducer._replace(transitions=(*transducer.transitions, Transition(source, target, code, tuple(outputs[:count]))))


def remove(transducer, number):
    """The table without the line of this number; the lines after it move down one."""
    if number >= len(transducer.transitions):
        raise Refused(18)
    return transducer._replace(transitions=transducer.transitions[:number] + transducer.transitions[number + 1:])
