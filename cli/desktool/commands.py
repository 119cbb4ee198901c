"""The subcommands, as one table, and the main function."""

import argparse
import os
import sys
from typing import Callable, NamedTuple

from . import picture, refusals, table, words
from .library import ACCEPTS_INPUT, ACCEPTS_OUTPUT, FILE, VARIABLE, Library
from .refusals import Failed, Refused

DONE, SPLIT, REFUSED = 0, 1, 2
YES, NO = 0, 1


def read_file(name):
    """The file's first 13,203 bytes: the library refuses what is longer."""
    try:
        with open(name, "rb") as opened:
            return opened.read(FILE + 1)
    except OSError as error:
        raise Failed(f"cannot read {name}: {error.strerror}") from error


def complain(text):
    """A line on standard error. Where that takes nothing either, the exit status is all that is left."""
    try:
        print(text, file=sys.stderr, flush=True)
    except OSError:
        pass


def write_file(name, content):
    try:
        with open(name, "wb") as opened:
            opened.write(content)
    except OSError as error:
        raise Failed(f"cannot write {name}: {error.strerror}") from error


# --- the subcommands: each returns its exit status and what it prints, line by line -------------------------------------


def check(library, options, content):
    library.check(content)
    return DONE, [words.described(options.file, "taken", content, table.parse(content))]


def verdict(library, options, content):
    useful, witness = library.verdict(library.read(content))
    if witness is None:
        return DONE, [f"single: every input word has one output at most (u = {useful:,})"]
    return SPLIT, words.split(table.parse(content), useful, witness, options.all)


def note_split(library, options, held):
    """Says on standard error where the table is split."""
    if library.verdict(held)[1] is not None:
        complain(f"note: {options.file} is split, so another unit may write another output for this word")


def translate(library, options, content):
    held = library.read(content)
    output = library.translate(held, options.codes)
    note_split(library, options, held)
    return DONE, [" ".join(map(str, output))]


def accepts(library, options, content):
    held = library.read(content)
    yes = library.accepts(held, options.input, options.output)
    if yes:
        note_split(library, options, held)
    return YES if yes else NO, [words.accepted(yes, options.input, options.output)]


def useful(library, options, content):
    held = library.read(content)
    count, partners = library.useful_pairs(held)
    return DONE, words.useful(table.parse(content), library.useful_states(held), count, partners)


def keep_apart(out, what, *files):
    """Refuses to write over a table file that is read."""
    if os.path.exists(out) and any(os.path.samefile(out, file) for file in files):
        raise Failed(f"{out} is the table file itself: choose another name for the {what}")


def draw(library, options, content):
    keep_apart(options.out, "picture", options.file)
    held, read = library.read(content), table.parse(content)
    count, witness = library.verdict(held)
    text = picture.graph(options.file, read, library.useful_states(held), count, witness)
    write_file(options.out, picture.rendered(text, options.out.rpartition(".")[2]))
    said = "split, path A blue, path B orange" if witness else "single"
    return DONE, [f"{options.out}: drawn: {words.counted(read.states, 'state')}, {words.counted(len(read.lines), 'line')}, {said}"]


def join(library, options, first, second):
    keep_apart(options.out, "joined table", options.first, options.second)
    content = library.write(library.join(library.read(first), library.read(second)))
    write_file(options.out, content)
    return DONE, words.joined((options.first, options.second, options.out), content, table.parse(content))


# --- their arguments -------------------------------------------------------------------------------------------------


def code(text):
    """A code as the library takes it, in one byte; which bytes are input codes is for the library to say."""
    if not (text.isascii() and text.isdigit() and int(text) <= 255):
        raise argparse.ArgumentTypeError(f"{text!r} is no code: codes are numbers from 1 to 250")
    return int(text)


def picture_name(text):
    if text.rpartition(".")[2] not in picture.FORMATS or "." not in text:
        raise argparse.ArgumentTypeError(f"{text!r} must end in .{', .'.join(picture.FORMATS)}")
    return text


def verdict_arguments(parser):
    parser.add_argument("--all", action="store_true", help="print long lists whole")


def translate_arguments(parser):
    parser.add_argument("codes", metavar="CODE", nargs="*", type=code, help="the codes of the input word, 1 to 250 each; none for the empty word")


def accepts_arguments(parser):
    for name, most in (("input", ACCEPTS_INPUT), ("output", ACCEPTS_OUTPUT)):
        parser.add_argument(f"--{name}", metavar="CODE", nargs="*", type=code, action="extend", default=[],
                            help=f"the codes of the {name} word, 1 to 250 each, at most {most}; none, or no --{name}, for the empty word")


def draw_arguments(parser):
    parser.add_argument("-o", dest="out", metavar="PICTURE", type=picture_name, required=True,
                        help=f"where the picture goes; its name ends in .{', .'.join(picture.FORMATS)}")


def join_arguments(parser):
    parser.add_argument("-o", dest="out", metavar="JOINED", required=True, help="where the joined table's file goes")


class Command(NamedTuple):
    run: Callable
    help: str
    more: str
    arguments: Callable = lambda parser: None
    files: dict = {"file": "the table file"}  # the table files that it reads


COMMANDS = {
    "check": Command(check, "is this a table file?", "Exit status: 0 it is, 2 refused."),
    "verdict": Command(verdict, "has every input word one output at most?",
                       "Exit status: 0 single, 1 split, 2 refused. A split is shown: the input word, the two paths, where they part, and "
                       "which lines write what. Lines are counted from 0 in the order of the file.", verdict_arguments),
    "translate": Command(translate, "the output of an input word", "Exit status: 0 done, 2 refused.", translate_arguments),
    "accepts": Command(accepts, "does this input word give this output word?",
                       "Exit status: 0 yes, 1 no, 2 refused. Yes: some accepting path reads the input word and writes the output word, all of it "
                       "and no more. FILE stands before --input and --output.", accepts_arguments),
    "useful": Command(useful, "the useful states and the useful pairs of states", "Exit status: 0 done, 2 refused."),
    "draw": Command(draw, "the table as a picture, a split with its two paths",
                    "Exit status: 0 drawn, 2 refused or not drawn. Needs Graphviz (Debian: graphviz) for all but .dot, the graph's text. "
                    "Path A is blue, path B orange.", draw_arguments),
    "join": Command(join, "two tables in series as one: what the first writes, the second reads",
                    "Exit status: 0 joined, 2 refused or not written. A line of FIRST may write one code at most.", join_arguments,
                    {"first": "the table file whose output codes are read", "second": "the table file that reads them"}),
}


def make_parser():
    parser = argparse.ArgumentParser(
        prog="yotselina", description="Asks the Yotselina library about a table file, or joins two.",
        epilog=f"Errors go to standard error with exit status 2. {VARIABLE} or --library names the library (a shared object); else it is made "
               "from target/staticlib/libunit.a (by `tools/build unit`) on first use. `yotselina COMMAND --help` says more.")
    commands = parser.add_subparsers(dest="command", metavar="COMMAND", required=True)
    for name, command in COMMANDS.items():
        one = commands.add_parser(name, help=command.help, description=f"{name}: {command.help}", epilog=command.more)
        for file, meaning in command.files.items():
            one.add_argument(file, metavar=file.upper(), help=meaning)
        command.arguments(one)
        one.add_argument("--library", metavar="SO", help=f"the library as a shared object (else {VARIABLE}, else that of the build)")
    return parser


# --- running ---------------------------------------------------------------------------------------------------------


def run(options):
    """Runs the subcommand. What it cannot do and what the library refuses is said on standard error, with exit status 2."""
    command, contents = COMMANDS[options.command], []
    names = [getattr(options, file) for file in command.files]
    try:
        contents += map(read_file, names)
        return command.run(Library(options.library), options, *contents)
    except Failed as failed:
        complain(f"yotselina: {failed}")
    except Refused as refused:
        complain(refusals.in_words(refused, names, contents))
    return REFUSED, []


def put(lines):
    """Prints the lines; says so where standard output does not take them."""
    try:
        sys.stdout.reconfigure(errors="backslashreplace")  # a file's name may have any bytes
        for line in lines:
            print(line)
        sys.stdout.flush()
        return True
    except OSError as error:
        os.dup2(os.open(os.devnull, os.O_WRONLY), sys.stdout.fileno())
        complain(f"yotselina: cannot write standard output: {error.strerror}")
        return False


def main(arguments):
    """Returns the exit status."""
    status, lines = run(make_parser().parse_args(arguments))
    return status if put(lines) else REFUSED
