"""A call of the library, made through ctypes, compared with what it owes (owed.py) or with what is known of it."""

from copy import copy

from means import named
from means.compare import as_codes
from means.held import COUNT, FINALS, HELD, INVALID, LINES, LIST_TOO_SHORT, STARTS, USEFUL, flags_of, held_of
from means.library import CALLS, FIXED, full_sizes
from means.lines import changed
from means.listing import Refusal
from means.owed import faults_of, table_for
from means.transducer import MAX_STATES

SOME_TABLES = 4  # one table of a kind in so many is compared through the library

P_HELD = held_of(named.P)
# ways in which table P is held wrongly
BROKEN = {
    "no state": changed(P_HELD, 0, 0), "33 states": changed(P_HELD, 0, MAX_STATES + 1), "a start flag of 2": changed(P_HELD, STARTS, 2),
    "a final state that is none": changed(P_HELD, FINALS + 1, 1), "no useful state": changed(P_HELD, USEFUL, 0),
    "a useful state that is none": changed(P_HELD, USEFUL + 31, 1), "a line beyond the count": changed(P_HELD, COUNT, 1),
    "the bytes of the count exchanged": changed(changed(P_HELD, COUNT, 0), COUNT + 1, 2), "a line that leaves no state": changed(P_HELD, LINES, 1),
    "an output beyond the count": changed(P_HELD, LINES + 11, 1), "a byte in the last place": changed(P_HELD, HELD - 1, 1),
}
# places for the answer and held tables, each with the refusal that it gets
ANSWERS = ((0, LIST_TOO_SHORT), (1, None), (3, None))
TABLES = ((P_HELD, None), (P_HELD + b"\xff", None), (P_HELD[:-1], LIST_TOO_SHORT), (b"", LIST_TOO_SHORT),
          *((BROKEN[name], INVALID) for name in ("no state", "a start flag of 2", "no useful state", "a byte in the last place")))


def said_yes(call):
    """The answer of a word test."""
    return call.lent["answer"].items(1) == (1,)


def written_by(call):
    """The file that a call has written."""
    return bytes(call.lent["out"].items(call.lent["answer"].items(1)[0]))


def as_note(given):
    return "\n".join(f"number {one}" if isinstance(one, int) else as_codes(one) for one in given)


def held_by(call):
    """The table that a call has written: read, joined or edited."""
    lent = call.read["table"] if "table" in call.read else next(iter(call.lent.values()))
    return bytes(lent.items(HELD))


def check(findings, group, call, note=""):
    """One call compared whole; returns whether it passed."""
    table = table_for(call)
    refusal, faults = faults_of(table, call)
    findings.check(f"library, {group}", faults, table.content if table else b"", f"{call}\n{note}".rstrip())
    done = "done" if call.name != "accepts" else "yes" if said_yes(call) else "no"
    findings.count(f"library, {call.name}", f"refused {refusal.number}" if refusal else done)
    return not faults


def owes_only(call, **owed):
    """In what a call is not done, or holds something else than this."""
    faults = [f"returned {call.refusal()}"] if call.returned else []
    return faults + [f"{lent} holds something else than it owes" for lent in call.changed(owed)]


def look_at(library, findings, random, group, held, useful, note=""):
    """The look at a held table whose useful states are known: exactly these flags, and all else that is lent as it was. Returns whether it is so.
    Whatever is drawn after it is the same as without it."""
    call = library.call(copy(random), "look", held)
    faults = owes_only(call, flags=flags_of(useful))
    findings.check(f"library, {group}", faults, call.inputs[0], f"useful states: {sorted(useful)}\n{note}".rstrip())
    findings.count(f"library, {group}, useful states", f"{len(useful)}:" if len(useful) in (0, 1, MAX_STATES) else f"2 to {MAX_STATES - 1}:")
    return not faults


def written(library, findings, random, group, held, content, note=""):
    """A held table written, which must give this file, and the file read again, which must give the table: both compared whole. Returns whether it is
    so. Whatever is drawn after it is the same as without it."""
    random = copy(random)
    call = library.call(random, "write", held)
    faults = owes_only(call, out=content, answer=(len(content),))
    faults += owes_only(library.call(random, "read", content), table=call.inputs[0][:HELD])
    findings.check(f"library, {group}, written and read again", faults, content, note)
    return not faults


def faults_of_refused(call, number, record=0):
    """In what a call is not refused so, or changes something."""
    refusal = Refusal(number, record)
    faults = [] if call.refusal() == refusal else [f"expected {refusal}; returned {call.refusal() or 'done'}"]
    return faults + [f"{lent} is changed" for lent in call.changed({})]


def same_refusal(findings, group, call, number, record=0, note=""):
    """A call that must be refused so, and change nothing."""
    findings.check(f"library, {group}", faults_of_refused(call, number, record), call.inputs[0], f"{call}\n{note}".rstrip())


def check_known(findings, group, call, answer, note):
    """A call whose answer is known by the way what it reads was made; that, too, is compared whole."""
    findings.check(f"library, {group}", owes_only(call, answer=answer), b"",
                   f"{note}: expected {answer}, answered {call.lent['answer'].items(len(answer))}")


# --- how much is lent ------------------------------------------------------------------------------------------------


def exact_sizes(call):
    """The sizes below which the call must not go: the lists' sizes, for a written output or file its own length."""
    sizes = full_sizes(call.name)
    result = next((lent for lent in ("output", "out") if lent in sizes), None)
    return sizes | {result: call.lent["answer"].items(1)[0]} if result and not call.returned else sizes


def one_short(sizes):
    """The same sizes with one place less in one list, for each list that has places."""
    return [sizes | {lent: places - 1} for lent, places in sizes.items() if places]


def longer(random, name, inputs):
    """What is lent with a content, and often more places behind what has a fixed size, which are not looked at."""
    return tuple(given + random.randbytes(random.choice((0, 1, 9))) if lent in FIXED else given for lent, given in zip(CALLS[name][0], inputs))


def shorter(name, inputs):
    """What is lent with a content, with one place less of one list that has a fixed size, for each of them."""
    fixed = [place for place, lent in enumerate(CALLS[name][0][:len(inputs)]) if lent in FIXED]
    return [(*inputs[:place], inputs[place][:FIXED[CALLS[name][0][place]] - 1], *inputs[place + 1:]) for place in fixed]


def any_size(random, full):
    """A number of places: enough, just not, or anything."""
    return random.choice((full, full, full, full + 3, full - 1, 0, random.randint(0, full)))
