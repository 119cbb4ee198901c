"""Calls of the library from two threads at once."""

import threading

from means import generate, series
from means.compare import randomness
from means.everycall import inputs_of, some_inputs
from means.held import held_of
from means.library import EDITS, OF_FILES, OF_TABLES, Call, full_sizes
from means.transducer import table_file

ROUNDS = 3  # how often each thread makes every call


def thread_calls():
    """Calls of every kind, on tables of every kind, some times over. The memory that is lent has the same content each time this is asked."""
    calls = []
    for kind, (_, make) in generate.KINDS.items():
        random = randomness("library, threads", kind)
        transducer, _ = make(random)
        content, held, more = table_file(transducer), held_of(transducer), some_inputs(random, transducer)
        given = [(name, inputs) for name in OF_TABLES for inputs in inputs_of(name, held, more)] + [(name, (content,)) for name in OF_FILES]
        given += [("difference", (content, content[:-1])), ("join", tuple(map(held_of, series.two_kinds(random))))]
        calls += [Call(random, name, inputs, full_sizes(name)) for name, inputs in given * ROUNDS]
    return calls


def make_all(library, calls, start):
    start.wait()
    for call in calls:
        call.make(library)


def same_answers(call, other):
    """Whether two calls returned the same and left the same in all that was lent."""
    lists, others = call.read | call.lent, other.read | other.lent
    return call.returned == other.returned and all(others[name].memory.raw == lent.memory.raw for name, lent in lists.items())


def compare_threads(library, findings):
    """The same calls from two threads at once, in opposite orders, against those of one thread: both are lent the same tables, files and words, but for
    the tables that are edited, and what is written is each one's own. Some must have run at the same time."""
    group = "library, two threads at once"
    alone, first, second = thread_calls(), thread_calls(), thread_calls()
    for call, other in zip(first, second):
        other.read = other.read if call.name in EDITS else call.read
    make_all(library, alone, threading.Barrier(1))
    start = threading.Barrier(2)
    threads = [threading.Thread(target=make_all, args=(library, calls, start)) for calls in (first, second[::-1])]
    for thread in threads:
        thread.start()
    for thread in threads:
        thread.join()
    for one, call in zip(alone * 2, first + second):
        findings.check(group, [] if same_answers(one, call) else ["another answer than in one thread"], call.inputs[0], str(call))
    for call in first:
        during = any(call.begun < other.ended and other.begun < call.ended for other in second)
        findings.count(group, "during a call of the other" if during else "between its calls")
    if not findings.tally[group, "during a call of the other"]:
        findings.check(group, ["no call of one thread ran during one of the other"], b"")
