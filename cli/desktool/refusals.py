"""The refusal numbers in words: cause and cure, as in the table of docs/MANUAL.md (tests/parts/desk.py holds the two against each other)."""

from typing import NamedTuple

from . import table


class Failed(Exception):
    """What the tool could not do, in words for its user."""


class Refused(Exception):
    """A refusal of the library: its number; of a call on a file also the record and the file's bytes, else None."""

    def __init__(self, number, record, file):
        super().__init__(number, record, file)
        self.number = number
        self.record = record
        self.file = file


class Words(NamedTuple):
    of_file: bool  # the refusal has a record
    cause: str
    cure: str


WORDS = {
    1: Words(True, "the text ends inside a record or before it", "complete the file: the counts of `T` say how many records follow"),
    2: Words(True, "a wrong letter, or no byte 10 at the record's end",
             "put the letter or the line end right; no spaces at the end of a line"),
    3: Words(True, "a field is not a number", "right-justify the number in its four columns, with spaces in front and no leading zero"),
    4: Words(True, "a field is outside its range",
             "n is 1 to 32, a state 0 to n - 1, k at most 256, an input 0 to 250, a count of outputs 0 to 8, an output 1 to 250"),
    5: Words(True, "the states of `S` or `F` records do not rise", "sort them, each once"),
    6: Words(True, "bytes follow the last record", "remove them, or correct the counts of `T`"),
    7: Words(False, "a buffer is too short: for the result (writer, translator); else (verdict, useful states, the look, useful pairs) below its size, "
             "whatever the outcome would be",
             "lend a longer one: 13,202 bytes hold any file, 65,528 places any output; the verdict takes 2,047 for the word and each path, "
             "16,376 for each output; useful states and the look take 32 flags, useful pairs 1,024"),
    8: Words(False, "a held table breaks a rule of document 01, has a flag other than 0 and 1, or keeps another set than that of its useful states",
             "make held tables by reading files, by joining and by editing only, and lend all of their bytes as they were written: each of these calls "
             "writes a table that is taken, with the right set; if its memory was overwritten, read the file again"),
    9: Words(False, "the input word has over 255 codes",
             "use a shorter word; its parts are other words, which the table may not read or may translate otherwise"),
    10: Words(False, "an input code is 0 or over 250", "codes are 1 to 250"),
    11: Words(False, "no accepting path reads the input word", "the table has no output for it"),
    # 12 is not used again
    13: Words(False, "word test: the input word has over 63 codes, or the output word over 127",
              "ask about shorter words; the translator takes input words of up to 255 codes"),
    14: Words(False, "an output code is 0 or over 250", "codes are 1 to 250"),
    15: Words(False, "join: a line of the first table writes more than one code",
              "split the line: it writes its first code and enters a new state; from there lines that read nothing write the others, one each, and "
              "the last enters the state that the line entered"),
    16: Words(False, "join: over 32 joined pairs of states", "take states and lines that the series does not need out of either table"),
    17: Words(False, "join, appending: the table would have over 256 lines",
              "take lines out of the table, of a join out of either, repeats first: there a line of the one makes a line with each line of the "
              "other that it steps with"),
    18: Words(False, "removing: no line has that number", "lines are counted from 0 in the order of the file, so the last of k has the number k - 1"),
    19: Words(False, "appending: the line breaks a range, or holds anything but 0 beyond its count of outputs",
              "a state is 0 to n - 1, the input 0 to 250, the count of outputs 0 to 8, an output 1 to 250; fill up the eight places of the "
              "outputs with 0"),
    100: Words(False, "a list without which the call cannot begin is too short: `answer`, a held table, or the line to append",
               "lend as many places as include/yotselina.h names: 3,171 for a held table, 12 for a line, for an answer those of the call"),
}
UNKNOWN = Words(False, "a number that this tool does not know", "see docs/MANUAL.md of the library's own version")
MORE_THAN_ONE_CODE = 15
LONGEST_SHOWN = 72  # bytes of a faulty line that are shown


def shown(content, line):
    """A line of the file for a reader, the first counted as 1; what is not plain text is escaped."""
    lines = content.split(b"\n")
    if line > len(lines) or line == len(lines) and not lines[-1]:
        return "(the file ends before this line)"
    text = lines[line - 1]
    plain = "".join(chr(byte) if 32 <= byte < 127 else f"\\x{byte:02x}" for byte in text[:LONGEST_SHOWN])
    return f"{plain} .." if len(text) > LONGEST_SHOWN else plain


def long_line(content):
    """The line of the file, counted from 1, of the table's first line that writes more than one code; None if there is none."""
    return next((line.place for line in table.parse(content).lines if len(line.output) > 1), None)


def in_words(refused, names, contents):
    """What a refusal means: number, record, the file's line with its text, cause and cure. Each record is one line, so record 0 is line 1. Of two
    files the one is named that it is about, or both."""
    words, said = WORDS.get(refused.number, UNKNOWN), f"refused with number {refused.number}"
    place = 0 if refused.file is None else contents.index(refused.file)
    name, content = names[place], contents[place]
    line = refused.record + 1 if words.of_file else long_line(content) if refused.number == MORE_THAN_ONE_CODE else None
    if line:
        record = f", record {refused.record}" if words.of_file else ""
        head = [f"{name}:{line}: {said}{record} (line {line} of the file):", f"    {shown(content, line)}"]
    else:
        head = [f"{' and '.join(names)}: {said}:"]
    return "\n".join(head + [f"cause: {words.cause}", f"cure:  {words.cure}"])
