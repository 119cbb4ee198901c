"""What each call of the library owes, by the reference: which refusal, or what stands in each list that is lent."""

import functools

from means import generate, reference
from means.held import HELD, LIST_TOO_SHORT, flags_of, held_of, kept_in, table_in
from means.library import CALLS, FIXED, PAIRS
from means.listing import Refusal, faults_of_witness
from means.reference import AMBIGUOUS, Refused
from means.transducer import LINE_PLACES, MAX_STATES, table_file

TOO_SHORT = 7
LEVEL, FIRST_AHEAD, SECOND_AHEAD, CLASH = range(4)
COMPARISONS = ("level", "first ahead", "second ahead", "clash")  # their names
SHOWN = ("word", "path_a", "path_b", "output_x", "output_y")


class Table:
    """A table with everything worked out once, when it is asked for, by what it is read from; `refused` is its refusal, or None. `content` is its file,
    or what is refused."""

    def __init__(self, read, given):
        self.refused, self.known = None, {}
        try:
            self.transducer = read(given)
        except Refused as refused:
            self.refused = refused
        self.content = given if self.refused else table_file(self.transducer)

    @functools.cached_property
    def pairs(self):
        return reference.useful_pairs(self.transducer)

    @functools.cached_property
    def functional(self):
        return reference.functional(self.transducer, self.pairs)

    def by_reference(self, question, *given):
        """What the reference answers for this table; asked once."""
        key = (question, *given)
        if key not in self.known:
            self.known[key] = question(self.transducer, *given)
        return self.known[key]


@functools.lru_cache(maxsize=200)
def table_of(content):
    """The table of a file."""
    return Table(reference.read, content)


@functools.lru_cache(maxsize=200)
def table_held(held):
    """The table of a held one."""
    return Table(table_in, held)


def table_for(call):
    """The table that a call is about, the first of two; None for a difference and the version."""
    read = CALLS[call.name][0]
    if not read or read[0] == "x":
        return None
    return table_of(call.inputs[0]) if read[0] == "file" else table_held(call.inputs[0][:HELD])


def all_full(call):
    """Refuses if some list is below its size."""
    if any(call.sizes[lent] < size for lent, _, size in CALLS[call.name][1]):
        raise Refused(TOO_SHORT)


# --- one function for each call: what each list owes, by name; and the faults of what is free ---------------------------


def owed_nothing(_table, _call):
    """Of the check, and of the version, whose number is looked at where it is asked for."""
    return {}, []


def owed_read(table, _call):
    return {"table": held_of(table.transducer)}, []


def owed_verdict(table, call):
    """Which word and paths a split verdict shows is free: they are checked, and how far their outputs agree; they are owed as they stand."""
    all_full(call)
    useful = len(table.pairs)
    if table.functional:
        return {"answer": (0, useful, 0, 0, 0, 0, 0, 0)}, []
    said = call.lent["answer"].items(8)
    if said[:2] != (1, useful) or any(count > call.sizes[lent] for lent, count in zip(SHOWN, said[2:])):
        return {}, [f"expected split, u {useful}, and counts of what fits; answered {said}"]
    witness = tuple(call.lent[lent].items(count) for lent, count in zip(SHOWN, said[2:]))
    return {"answer": said, **dict(zip(SHOWN, witness))}, faults_of_witness(table.transducer, useful, witness, said[7])


def owed_translate(table, call):
    """For a word with several outputs any of them will do, and 7 only if one of them does not fit."""
    word, places = call.inputs[1], call.sizes["output"]
    output = table.by_reference(reference.translate, word)
    if output is AMBIGUOUS:
        return owed_ambiguous(table, call, word, places)
    if len(output) > places:
        raise Refused(TOO_SHORT)
    return {"output": output, "answer": (len(output),)}, []


def owed_ambiguous(table, call, word, places):
    if call.returned == TOO_SHORT and table.by_reference(reference.writes_longer, word, places):
        raise Refused(TOO_SHORT)
    (length,) = call.lent["answer"].items(1)
    if length > places:
        return {}, [f"answered {length} codes, lent {places} places"]
    output = call.lent["output"].items(length)
    faults = [] if table.by_reference(reference.relates, word, output) else [f"no accepting path writes {output}"]
    return {"output": output, "answer": (length,)}, faults


def owed_accepts(table, call):
    return {"answer": (int(table.by_reference(reference.accepts, *call.inputs[1:])),)}, []


def owed_useful_states(table, call):
    all_full(call)
    return {"flags": flags_of(table.by_reference(generate.useful_states))}, []


def owed_look(_table, call):
    """What is kept, right or wrong."""
    all_full(call)
    return {"flags": kept_in(call.inputs[0])}, []


def owed_useful_pairs(table, call):
    all_full(call)
    flags = tuple(int(divmod(place, MAX_STATES) in table.pairs) for place in range(PAIRS))
    return {"flags": flags, "answer": (len(table.pairs),)}, []


def owed_difference(_table, call):
    """How the lists compare; of a clash, how many codes they have in common, else 0."""
    x, y = call.inputs
    common = reference.shared(x, y)
    if common < min(len(x), len(y)):
        return {"answer": (CLASH, common)}, []
    return {"answer": (LEVEL if len(x) == len(y) else FIRST_AHEAD if len(x) > len(y) else SECOND_AHEAD, 0)}, []


def owed_write(table, call):
    """The table's file, which must fit."""
    if len(table.content) > call.sizes["out"]:
        raise Refused(TOO_SHORT)
    return {"out": table.content, "answer": (len(table.content),)}, []


def owed_join(table, call):
    """The joined table."""
    second = table_held(call.inputs[1][:HELD])
    if second.refused:
        raise second.refused
    return {"result": held_of(table.by_reference(reference.join, second.transducer))}, []


def owed_append(table, call):
    """The table with the line as its last. Of the line no more is looked at than its places."""
    return {"table": held_of(table.by_reference(reference.append, call.inputs[1][:LINE_PLACES]))}, []


def owed_remove(table, call):
    """The table without the line."""
    return {"table": held_of(table.by_reference(reference.remove, call.inputs[1]))}, []


OWED = {"version": owed_nothing, "check": owed_nothing, "read": owed_read, "write": owed_write, "verdict": owed_verdict, "translate": owed_translate,
        "accepts": owed_accepts, "useful_states": owed_useful_states, "look": owed_look, "useful_pairs": owed_useful_pairs, "append": owed_append,
        "remove": owed_remove, "join": owed_join, "difference": owed_difference}


# --- any call --------------------------------------------------------------------------------------------------------


def begins(call):
    """Whether every list is there without which the call cannot begin: the answer, held tables, a line."""
    read, written = CALLS[call.name]
    lent = [(len(given), FIXED[name]) for name, given in zip(read, call.inputs) if name in FIXED]
    lent += [(call.sizes[name], size) for name, _, size in written if name in ("answer", "table", "result")]
    return all(places >= size for places, size in lent)


def owed(table, call):
    """The refusals in their order: a list without which it cannot begin, the file or the table, the call. The look asks nothing of the table."""
    if not begins(call):
        raise Refused(LIST_TOO_SHORT)
    if table is not None and table.refused and call.name != "look":
        raise table.refused
    return OWED[call.name](table, call)


def faults_of(table, call):
    """What the call owes (a Refusal, or None for done), and in what it is not so. Everything lent is compared whole: what owes nothing must hold
    what it held."""
    try:
        refusal, (lists, faults) = None, owed(table, call)
    except Refused as refused:
        refusal, lists, faults = Refusal(refused.number, refused.record), {}, []
    if call.refusal() != refusal:
        faults = [f"expected {refusal or 'done'}, returned {call.refusal() or 'done'}"]
        return refusal, faults + [f"{lent} is changed" for lent in call.changed({})]
    return refusal, faults + [f"{lent} holds something else than it owes" for lent in call.changed(lists)]
