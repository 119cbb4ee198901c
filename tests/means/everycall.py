"""Comparisons of every call of the library that reads a file or a held table (the join in joins.py)."""

from means import damage, generate, lines, named, reference
from means.calls import (BROKEN, P_HELD, any_size, as_note, check, exact_sizes, faults_of_refused, longer, one_short, owes_only, same_refusal,
                         shorter)
from means.compare import randomness
from means.held import INVALID, LIST_TOO_SHORT, held_of, kept_in
from means.library import CALLS, OF_FILES, OF_TABLES, Call, full_sizes, header_version
from means.listing import parse_verdict
from means.named import LATE, NO_FILE, P_FILE
from means.owed import CLASH, COMPARISONS, TOO_SHORT
from means.transducer import LINE_PLACES, MAX_WORD, places_of, table_file


def some_inputs(random, transducer):
    """What calls read beside the table, two of each: for translations a word, for word tests an input word and an output word, for edits a line or the
    number of one."""
    return {"translate": [(word,) for word in generate.input_words(random, transducer)],
            "accepts": generate.word_tests(random, transducer)[:2],
            "append": [(places_of(lines.good_line(random, transducer)),), (lines.wrong_line(random, transducer)[1],)],
            "remove": [(lines.any_number(random, transducer),) for _ in range(2)]}


def any_inputs(random, transducer):
    """The same, one for each call, which may break a limit."""
    word = random.choice(generate.input_words(random, transducer) + [generate.broken_word(random, transducer)])
    return {"translate": [(word,)], "accepts": [generate.broken_words(random, transducer)],
            "append": [(lines.any_line(random, transducer),)], "remove": [(lines.any_number(random, transducer),)]}


def inputs_of(name, given, more):
    """What a call is given to read: the file or the table, and what there is for it beside that."""
    return [(given, *beside) for beside in more.get(name, [()])]


def compare_table(library, findings, kind, index):
    """Every call on one generated table and its file: with more than enough lent, with exactly enough, and with each list one place short."""
    random = randomness("library", kind, index)
    transducer, _ = generate.KINDS[kind][1](random)
    given = some_inputs(random, transducer)
    for name in (*OF_FILES, *OF_TABLES):
        for inputs in inputs_of(name, table_file(transducer) if name in OF_FILES else held_of(transducer), given):
            note = as_note(inputs[1:])
            more = {lent: places + random.choice((0, 1, 9)) for lent, places in full_sizes(name).items()}
            call = library.call(random, name, *longer(random, name, inputs), **more)
            check(findings, name, call, note)
            sizes = exact_sizes(call)
            check(findings, "exactly enough lent", library.call(random, name, *inputs, **sizes), note)
            for less in one_short(sizes):
                check(findings, "one list one place short", library.call(random, name, *inputs, **less), note)
            for less in shorter(name, inputs):
                check(findings, "one list one place short", library.call(random, name, *less, **sizes), note)


def compare_mixed(library, findings, index):
    """Every call on one file or one held table, mostly damaged, with any words and any sizes: which of several refusals comes first."""
    random = randomness("library, mixed", index)
    transducer, _ = generate.KINDS[random.choice(damage.DAMAGED_KINDS)][1](random)
    content, held = table_file(transducer), held_of(transducer)
    if random.random() < 0.6:
        content, held = damage.damaged(random, content)[0], damage.damaged_held(random, held)[0]
    for name in (*OF_FILES, *OF_TABLES):
        inputs = inputs_of(name, content if name in OF_FILES else held, any_inputs(random, transducer))[0]
        sizes = {lent: any_size(random, full) for lent, full in full_sizes(name).items()}
        if name == "translate" and random.random() < 0.5:
            sizes["output"] = random.randrange(12)
        check(findings, "any file, table, words and sizes", library.call(random, name, *inputs, **sizes), as_note(inputs[1:]))


# --- which refusal goes first ----------------------------------------------------------------------------------------

D_HELD = held_of(named.D)
LONG, ZERO, UNREAD = b"\1" * MAX_WORD + b"\0", b"\1\0", b"\1\1"
# what calls read beside the file or the table: nothing or no more than zeros, and what is refused
LEAST = {"translate": [(b"",)], "accepts": [(b"", b"")], "difference": [(b"",)], "join": [(P_HELD,)], "append": [(bytes(LINE_PLACES),)],
         "remove": [(0,)]}
REFUSED = {"translate": [(LONG,)], "accepts": [(LONG, LONG)], "difference": [(LONG,)], "join": [(b"",)], "append": [(LONG[::-1],)],
           "remove": [(lines.MAX_NUMBER,)]}
NOTHING = {name: {lent: 0 for lent in full_sizes(name)} for name in CALLS}
NEEDED = ("answer", "table", "result")  # of what is written: without it a call cannot begin
BEGUN = {name: NOTHING[name] | {lent: places for lent, places in full_sizes(name).items() if lent in NEEDED} for name in CALLS}
ASKING = tuple(name for name in OF_TABLES if name != "look")  # these refuse a table that is held wrongly

# which refusal goes first where several hold: call, what is lent to be read, sizes that are not full, number, record
ORDERS = (
    *((name, *inputs_of(name, given, REFUSED), NOTHING[name], LIST_TOO_SHORT, 0) for name in CALLS if "answer" in NOTHING[name]
      for given in (P_HELD, BROKEN["no state"], P_HELD[:-1], b"")),
    *((name, *inputs_of(name, held, beside), BEGUN[name], LIST_TOO_SHORT, 0) for name in (*OF_TABLES, "join") for beside in (LEAST, REFUSED)
      for held in (P_HELD[:-1], BROKEN["no state"][:-1], b"")),
    *(("join", tables, sizes, LIST_TOO_SHORT, 0) for held in (P_HELD, BROKEN["no state"])
      for tables, sizes in (((held, P_HELD[:-1]), {}), ((P_HELD[:-1], held), {}), ((held, P_HELD), {"result": 3170}), ((P_HELD, held), {"result": 0}))),
    *(("read", (content,), {"table": places}, LIST_TOO_SHORT, 0) for content in (P_FILE, NO_FILE, LATE, b"") for places in (0, 3170)),
    *(("append", (held, line), {}, LIST_TOO_SHORT, 0) for held in (P_HELD, BROKEN["no state"]) for line in (b"", bytes(11), b"\xff" * 11)),
    *((name, *inputs_of(name, held, beside), BEGUN[name], INVALID, 0) for held in BROKEN.values() for name in ASKING
      for beside in (LEAST, {name: some for name, some in REFUSED.items() if name != "append"} | {"append": [(b"\xff" * LINE_PLACES,)]})),
    *(("join", tables, {}, INVALID, 0) for held in BROKEN.values() for tables in ((held, P_HELD), (P_HELD, held), (held, held))),
    *(("look", (held,), {"flags": places}, TOO_SHORT, 0) for held in (P_HELD, *BROKEN.values()) for places in (0, 31)),
    *((name, (LATE,), BEGUN[name], 6, 5) for name in OF_FILES),
    *((name, (NO_FILE,), BEGUN[name], 2, 0) for name in OF_FILES),
    *((name, (b"",), BEGUN[name], 1, 0) for name in OF_FILES),
    ("translate", (D_HELD, LONG), {"output": 0}, 9, 0),
    ("translate", (D_HELD, ZERO), {"output": 0}, 10, 0),
    ("translate", (D_HELD, b"\1\xfb"), {"output": 0}, 10, 0),
    ("translate", (D_HELD, UNREAD), {"output": 0}, 11, 0),
    ("translate", (D_HELD, b"\1\2"), {"output": 1}, TOO_SHORT, 0),
    ("translate", (D_HELD, b"\1\2"), {"output": 0}, TOO_SHORT, 0),
    *((name, (held,), {lent: places - 1}, TOO_SHORT, 0) for name in ("verdict", "useful_states", "look", "useful_pairs") for held in (P_HELD, D_HELD)
      for lent, places in full_sizes(name).items() if lent != "answer"),
    *(("write", (held_of(reference.read(file)),), {"out": len(file) - 1}, TOO_SHORT, 0) for file in (P_FILE, named.LONGEST)),
)


def compare_orders(library, findings):
    """Which refusal goes first; the look takes what the others refuse; and the version is the header's."""
    random = randomness("library, orders")
    for name, inputs, sizes, number, record in ORDERS:
        same_refusal(findings, "which refusal goes first", library.call(random, name, *inputs, **sizes), number, record)
    for name, held in BROKEN.items():
        findings.check("library, look at what is held wrongly", owes_only(library.call(random, "look", held), flags=kept_in(held)), held, name)
    said, version = library.call(random, "version").returned, header_version()
    findings.check("library, version", [] if said == version else [f"{said:#x}, and the header has {version:#x}"], b"")


# --- outputs that a split verdict shows ------------------------------------------------------------------------------


def compare_shown(library, findings):
    """The verdict on the named tables that are split, with at least as many codes in common as is known, and the difference of the outputs that it shows:
    where they clash it has the verdict's number, and where one is a beginning of the other 0."""
    group, random = "outputs shown", randomness("library, outputs shown")
    tables = [(title, transducer, parse_verdict(printed).shared) for title, transducer, printed in named.VERDICTS if parse_verdict(printed).split]
    for title, transducer, least in (*tables, *named.PART_LATE):
        call = library.call(random, "verdict", held_of(transducer))
        if not check(findings, group, call, title):
            continue
        *_, x, y, shared = call.lent["answer"].items(8)
        outputs = [bytes(call.lent[lent].items(count)) for lent, count in (("output_x", x), ("output_y", y))]
        difference = library.call(random, "difference", *outputs)
        check(findings, group, difference, title)
        kind, at = difference.lent["answer"].items(2)
        faults = [] if shared >= least and at == (shared if kind == CLASH else 0) else [f"{shared} codes in common; of the difference {kind}, {at}"]
        findings.check(f"library, {group}", faults, table_file(transducer), title)
        findings.count(f"library, {group}, codes in common", f"{shared} {COMPARISONS[kind]}:")


# --- bytes behind the last record ------------------------------------------------------------------------------------


def compare_counts_behind(library, findings, name, content, records):
    """Every count of bytes behind the last record of one whole file, lines and parts of lines: one list is lent, each time one place more of it."""
    group = f"library, {named.BEHIND}"
    call = Call(randomness(group, name), "check", (content + named.behind(named.LINE, named.MOST_BEHIND),), {})
    call.lend_only("file", len(content))
    findings.check(group, owes_only(call.make(library)), content, f"{call}\nno bytes behind")
    for count in range(1, named.MOST_BEHIND + 1):
        call.lend_only("file", len(content) + count)
        faults = faults_of_refused(call.make(library), 6, records)
        findings.check(group, faults, content, f"{call}\nbytes behind: {count:,}")
        findings.count(f"{group}, every count", f"{name}:")


def compare_behind(library, findings):
    """Both calls that read files, on whole ones and with bytes behind the last record."""
    random = randomness("library", named.BEHIND)
    for title, content, _ in named.WHOLE:
        for name in OF_FILES:
            check(findings, named.BEHIND, library.call(random, name, content), title)
    for title, content, records in named.files_with_bytes_behind():
        for name in OF_FILES:
            same_refusal(findings, named.BEHIND, library.call(random, name, content), 6, records, title)
