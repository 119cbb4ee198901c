"""Comparisons of the library's join of two tables (yotselina_join): with what it owes (owed.py), with tables that are known by hand, and of the
joined table with the two that it is made of."""

from itertools import product

from means import damage, generate, reference, series
from means.calls import TABLES, any_size, as_note, check, held_by, longer, look_at, owes_only, said_yes, same_refusal, shorter, written
from means.compare import randomness, size_name
from means.composition import composed_words, small_tests
from means.held import HELD, INVALID, LIST_TOO_SHORT
from means.namedjoins import A_TO_B, B_TO_C, KNOWN, LIMITS
from means.owed import table_held
from means.series import held_pair
from means.transducer import MAX_TESTED_INPUT, MAX_TESTED_OUTPUT, table_file

GROUP = "join"
ITSELF = "reference itself, join"
EVERY = 4  # for one pair of a kind in so many it is asked for all words of at most two codes
TOO_LONG = 9  # the translator's refusal of a word that is too long


def as_second(held, *more):
    """The second table as its file, for the report of a failure."""
    return "\n".join(("the second table:", table_held(held[:HELD]).content.decode("ascii", "backslashreplace"), *more))


def check_reference(findings, first, second, joined, tests):
    """The reference against the definition: its join relates the words as the composition does; and two functional tables give a functional one."""
    faults = [f"composed: {composed}, and by the join it is not so: {test}" for test, composed in tests.items()
              if reference.relates(joined, *test) != composed]
    functional = [reference.functional(made, reference.useful_pairs(made)) for made in (first, second, joined)]
    if all(functional[:2]) and not functional[2]:
        faults.append("two functional tables, and the join is not")
    findings.check_apart(ITSELF, faults, table_file(first), f"the second table:\n{table_file(second).decode()}")


# --- generated pairs -------------------------------------------------------------------------------------------------


def look_at_joined(library, findings, random, call):
    """Of a join that is not refused, the look at the table that it made: all states of the table that the reference joins, none if that is blank; and
    its file."""
    if call.returned:
        return
    first, second = (table_held(held[:HELD]) for held in call.inputs)
    joined = first.by_reference(reference.join, second.transducer)
    useful = set() if joined == reference.BLANK else set(range(joined.states))
    faults = [] if generate.useful_states(joined) == useful else ["some state of the joined table is not useful, or one of the blank table is"]
    findings.check_apart(ITSELF, faults, first.content, as_second(call.inputs[1]))
    note = f"the first table:\n{first.content.decode()}the second table:\n{second.content.decode()}"
    look_at(library, findings, random, f"{GROUP}, look at the joined table", held_by(call), useful, note)
    written(library, findings, random, GROUP, held_by(call), table_file(joined), note)


def translated(library, random, held, word):
    """The translator's output, or the number of its refusal."""
    call = library.call(random, "translate", held, word)
    return call.returned or bytes(call.lent["output"].items(call.lent["answer"].items(1)[0]))


def compare_translations(library, findings, random, pair, joined):
    """Of three single tables: the joined one translates as the two do one after the other, unless the word between is too long for the translator."""
    words = [word for held in (pair[0], joined) for word in generate.input_words(random, table_held(held).transducer)]
    for word in words:
        between = translated(library, random, pair[0], word)
        expected = between if isinstance(between, int) else translated(library, random, pair[1], between)
        if expected == TOO_LONG and not isinstance(between, int):
            continue
        said = translated(library, random, joined, word)
        faults = [] if said == expected else [f"one after the other {expected}, joined {said}"]
        findings.check(f"library, {GROUP} and translator", faults, table_held(joined).content, as_note([word]))
        findings.count(f"library, {GROUP} and translator", f"refused {said}" if isinstance(said, int) else "translated")


def compare_joined(library, findings, random, pair, joined, tests):
    """The joined table, by other calls of the library: two single tables give a single one; it says yes to what paths of both write."""
    verdicts = [library.call(random, "verdict", held) for held in (*pair, joined)]
    single = [(call.returned, call.lent["answer"].items(1)) == (0, (0,)) for call in verdicts]
    faults = [f"the verdict of {name} returned {call.returned}" for name, call in zip(("the first", "the second", "the joined one"), verdicts)
              if call.returned]
    faults += ["two single tables, and the joined one is not"] if all(single[:2]) and not single[2] else []
    first = table_held(pair[0]).content
    findings.check(f"library, {GROUP}, verdict", faults, first, as_second(pair[1]))
    named = ["refused" if call.returned else "single" if one else "split" for call, one in zip(verdicts, single)]
    findings.count(f"library, {GROUP}, verdicts", f"{named[0]} and {named[1]} give {named[2]}")
    if all(single):
        compare_translations(library, findings, random, pair, joined)
    for test, composed in tests.items():
        call = library.call(random, "accepts", joined, *test)
        said = call.returned, said_yes(call)
        faults = [] if said == (0, composed) else [f"composed: {composed}; returned {said[0]}, yes: {said[1]}"]
        findings.check(f"library, {GROUP} and word test", faults, first, as_second(pair[1], as_note(test)))
        findings.count(f"library, {GROUP} and word test", "yes" if composed else "no")


def compare_pair(library, findings, kind, index):
    """One generated pair: with more than enough lent, exactly enough, each list one place short, and no place for the result; then what was made."""
    random = randomness(GROUP, kind, index)
    first, second = series.KINDS[kind][1](random)
    pair = held_pair((first, second))
    note = as_second(pair[1])
    call = library.call(random, "join", *longer(random, "join", pair), result=HELD + random.choice((0, 1, 9)))
    if not check(findings, GROUP, call, note):
        return
    for tables, places in ((pair, HELD), (pair, HELD - 1), (pair, 0), *((less, HELD) for less in shorter("join", pair))):
        check(findings, f"{GROUP}, exactly enough lent or less", library.call(random, "join", *tables, result=places), note)
    if call.returned:
        return
    look_at_joined(library, findings, random, call)
    held = held_by(call)
    joined = table_held(held).transducer
    findings.count(f"library, {GROUP}, lines", size_name(len(joined.transitions)) if joined != reference.BLANK else "blank")
    tests = small_tests(random, first, second, joined, index % EVERY == 0)
    if tests:
        check_reference(findings, first, second, joined, tests)
    test = composed_words(random, first, second, MAX_TESTED_INPUT)
    if test and len(test[1]) <= MAX_TESTED_OUTPUT:
        tests[test] = True
    compare_joined(library, findings, random, pair, held, tests)


def compare_mixed(library, findings, index):
    """Two tables of which most are damaged, with any sizes: which of several refusals comes first."""
    random = randomness(GROUP, "mixed", index)
    pair = held_pair(series.KINDS[random.choice(list(series.KINDS))][1](random))
    pair = [damage.damaged_held(random, held)[0] if random.random() < 0.3 else held for held in pair]
    call = library.call(random, "join", *pair, result=any_size(random, HELD))
    if check(findings, f"{GROUP}, any tables and sizes", call, as_second(pair[1])):
        look_at_joined(library, findings, random, call)


def compare_alike(library, findings, index):
    """Two tables, and two that are alike: what is made of either is owed, and where both are taken the joined tables are alike."""
    random = randomness(GROUP, "alike", index)
    kind = random.choice([kind for kind in series.KINDS if "large" not in kind])
    pair = series.KINDS[kind][1](random)
    others = [generate.same_lines(random, one) if random.random() < 0.8 else one for one in pair]
    calls = []
    for tables in (held_pair(pair), held_pair(others)):
        calls.append(library.call(random, "join", *tables))
        if not check(findings, f"{GROUP}, alike", calls[-1], as_second(tables[1])):
            return
        look_at_joined(library, findings, random, calls[-1])
    if any(call.returned for call in calls):
        findings.count(f"library, {GROUP}, alike", "one or both refused")
        return
    joined = [table_held(held_by(call)).transducer for call in calls]
    faults = [] if reference.alike(*joined) else ["the joined tables are not alike"]
    findings.check(f"library, {GROUP}, alike tables give alike ones", faults, table_file(pair[0]), as_second(calls[0].inputs[1]))
    findings.count(f"library, {GROUP}, alike", "the same table" if joined[0] == joined[1] else "alike and not the same")


# --- known joins -----------------------------------------------------------------------------------------------------


def compare_known(library, findings):
    """Two files read, joined and written: what is made, byte for byte."""
    random = randomness(GROUP, "known")
    for title, first, second, joined in KNOWN:
        expected, pair = table_file(joined), [held_by(library.call(random, "read", table_file(one))) for one in (first, second)]
        call = library.call(random, "join", *pair)
        faults = [f"returned {call.returned}"] if call.returned else []
        faults += owes_only(library.call(random, "write", held_by(call)), out=expected, answer=(len(expected),))
        findings.check(f"library, {GROUP}, known tables", faults, table_file(first), f"{title}\nthe second table:\n{table_file(second).decode()}")
        if not faults:
            look_at_joined(library, findings, random, call)


def compare_limits(library, findings):
    random = randomness(GROUP, "limits")
    for title, first, second, known in LIMITS:
        call = library.call(random, "join", *held_pair((first, second)))
        if isinstance(known, int):
            same_refusal(findings, f"{GROUP}, at the limits", call, known, note=title)
        elif check(findings, f"{GROUP}, at the limits", call, title):
            made = table_held(held_by(call)).transducer
            faults = [] if (made.states, len(made.transitions)) == known else [f"{made.states} states and {len(made.transitions)} lines, not {known}"]
            findings.check(f"library, {GROUP}, at the limits", faults, table_file(first), as_second(call.inputs[1], title))
            look_at_joined(library, findings, random, call)


# --- refusals --------------------------------------------------------------------------------------------------------

# two tables, and the number of their refusal
REFUSED = ((A_TO_B, B_TO_C, None),
           *((first, second, known) for title, first, second, known in LIMITS
             if title in ("two codes and 33 pairs", "33 joined pairs", "256 times 256 lines")))


def compare_refusals(library, findings):
    """Every refusal, and every two and more of them at once: a table or the place for the result that is too short, either table, the call's own."""
    random = randomness(GROUP, "refusals")
    for (first, second, number), (other, of_first), (another, of_second) in product(REFUSED, TABLES, TABLES):
        pair = [wrong if refused else held for held, wrong, refused in zip(held_pair((first, second)), (other, another), (of_first, of_second))]
        for places in (0, HELD - 1, HELD, HELD + 5):
            refused = {of_first, of_second, LIST_TOO_SHORT if places < HELD else None}
            refusals = [number for number in (LIST_TOO_SHORT, INVALID) if number in refused] + [number] * bool(number)
            call = library.call(random, "join", *pair, result=places)
            if refusals:
                same_refusal(findings, f"{GROUP}, which refusal goes first", call, refusals[0])
            elif check(findings, f"{GROUP}, no refusal", call, as_second(pair[1])):
                look_at_joined(library, findings, random, call)
