"""The library's answers in words."""

import textwrap

WIDTH = 100
SHOWN = 40  # items of a long list that are shown, where not all are asked for


def counted(count, one, many=None):
    return f"{count:,} {one if count == 1 else many or one + 's'}"


def listed(items, every=True):
    """The items; of a long list its beginning and its end."""
    items = [str(item) for item in items]
    if not every and len(items) > SHOWN:
        half = SHOWN // 2
        items = [*items[:half], f".. {len(items) - SHOWN:,} more ..", *items[-half:]]
    return " ".join(items) or "nothing"


def word_listed(word, every=True):
    """An input word."""
    return listed(word, every) if word else "the empty word"


def lines_listed(path, every=True):
    """A path: the numbers of its lines."""
    return f"{'line' if len(path) == 1 else 'lines'} {listed(path, every)}" if path else "no line"


def wrapped(head, text):
    """A head of nine columns and the text beside it."""
    return textwrap.wrap(text, WIDTH, initial_indent=head.ljust(9), subsequent_indent=" " * 9, break_on_hyphens=False)


def columns(rows):
    """Rows of words in left-justified columns."""
    widths = [max(map(len, column)) for column in zip(*rows)]
    return ["  ".join(word.ljust(width) for word, width in zip(row, widths)).rstrip() for row in rows]


# --- a split ---------------------------------------------------------------------------------------------------------


def in_common(first, second):
    """How many items two paths have in common at the beginning."""
    count = 0
    while count < min(len(first), len(second)) and first[count] == second[count]:
        count += 1
    return count


def where_paths_part(table, path_a, path_b):
    """One sentence. A stands before B in dictionary order, so B never ends first."""
    common = in_common(path_a, path_b)
    b_line = table.lines[path_b[common]]
    a_line = table.lines[path_a[common]] if common < len(path_a) else None
    if common:
        place = f"after {counted(common, 'line')} in common, at state {b_line.source}"
    elif a_line and a_line.source != b_line.source:
        place = f"at the start: A starts at state {a_line.source}, B at state {b_line.source}"
    else:
        place = f"at the start, state {b_line.source}" if a_line else "at the start"
    a_does = f"A takes line {a_line.number}" if a_line else "A ends there" if common else "A is empty"
    return f"The paths part {place}: {a_does}, B takes line {b_line.number}."


def writer_of(table, path, place):
    """The line of the path that writes the output code at this place."""
    for number in path:
        if place < len(table.lines[number].output):
            return number
        place -= len(table.lines[number].output)
    raise IndexError(place)


def where_outputs_part(table, witness):
    """One sentence, from the library's number of codes that the two outputs have in common."""
    common = witness.shared

    def writes(name, path, output):
        return f"{name} writes {output[common]} (line {writer_of(table, path, common)})" if common < len(output) else f"{name} has ended"

    a, b = writes("A", witness.path_a, witness.output_x), writes("B", witness.path_b, witness.output_y)
    place = f"after {counted(common, 'code')} in common" if common else "at the first code"
    return f"The outputs part {place}: {a}, {b}."


def lines_of_paths(table, witness):
    """A row for each line that a path takes: where it is in the file and what it does."""
    rows = [("line", "in the file", "from", "to", "reads", "writes", "on path")]
    for line in table.lines:
        on = [name for name, path in (("A", witness.path_a), ("B", witness.path_b)) if line.number in path]
        if on:
            rows.append((str(line.number), f"line {line.place}", str(line.source), str(line.target),
                         str(line.input or "nothing"), listed(line.output), " and ".join(on)))
    return columns(rows)


def split(table, useful, witness, every):
    """A split verdict, line by line."""
    said = [f"split: one input word, two paths, two outputs (u = {useful:,})", ""]
    said += wrapped("word", word_listed(witness.word, every))
    for name, path, output in (("A", witness.path_a, witness.output_x), ("B", witness.path_b, witness.output_y)):
        said += wrapped(f"path {name}", lines_listed(path, every))
        said += wrapped("  writes", listed(output, every))
    said += ["", *textwrap.wrap(where_paths_part(table, witness.path_a, witness.path_b), WIDTH),
             *textwrap.wrap(where_outputs_part(table, witness), WIDTH), ""]
    said += lines_of_paths(table, witness)
    return said + ["", "Make both paths write the same, or take a line of one of them out, with its repeats; then ask again:",
                   "a table may be split in more than one place, and each verdict shows one."]


# --- the rest --------------------------------------------------------------------------------------------------------


def described(name, what, content, table):
    """The counts of a table, and what was done with its file."""
    return (f"{name}: {what}: {counted(table.states, 'state')}, {counted(len(table.starts), 'start state')}, "
            f"{counted(len(table.finals), 'final state')}, {counted(len(table.lines), 'line')}, {counted(len(content), 'byte')}")


def joined(names, content, table):
    """What two tables were joined to. A joined table that is not blank has a start state."""
    first, second, out = names
    said = [described(out, "joined", content, table)]
    return said if table.starts else said + [f"This is the blank table: {second} reads no output of {first}."]


def accepted(yes, word, output):
    """Whether an accepting path reads the word and writes the output."""
    return f"{'yes: an' if yes else 'no: no'} accepting path reads {word_listed(word)} and writes {listed(output)}"


def useful(table, flags, count, partners):
    """The useful states and the useful pairs."""
    kept = [state for state in range(table.states) if flags[state]]
    left = [state for state in range(table.states) if not flags[state]]
    said = [f"useful states ({len(kept)} of {table.states}): {listed(kept) if kept else 'none'}",
            f"not useful: {listed(left) if left else 'none'}",
            f"useful pairs of states: u = {count:,}"]
    return said + [f"  {state} with {listed(partners[state])}" for state in range(table.states) if partners[state]]
