"""The desk tool (cli/yotselina), run as a user would run it.

It runs in a copy of its folder beside a copy of the archive, so that its first use, which makes the shared object, is tried too.
"""

import os
import re
import shutil
import subprocess
import sys
from itertools import product
from pathlib import Path

from means import damage, generate, named, refusals, series
from means.compare import as_codes, expected_verdict, randomness
from means.deskanswers import (KINDS, expected_join, faults_of_joined, faults_of_run, faults_of_translation, faults_of_useful, faults_of_word_test,
                         faults_of_words, faults_where)
from means.deskpicture import faults_of_picture
from means.library import compile_c, find_archive, header_version
from means.listing import Refusal, parse_verdict
from means.namedjoins import LIMITS
from means.owed import table_of
from means.programs import HANGS, ROOT, TIME_LIMIT
from means.series import files_of
from means.settings import share
from means.tools import debian
from means.transducer import FILE_SEEN, MAX_TESTED_INPUT, MAX_TESTED_OUTPUT, MAX_WORD, table_file
from means.workers import spread

sys.path.append(str(ROOT / "cli"))

from desktool.commands import COMMANDS
from desktool.library import VARIABLE
from desktool.refusals import LONGEST_SHOWN, MORE_THAN_ONE_CODE, UNKNOWN, WORDS

GROUP = "desk tool"
DOCUMENTS = "desk tool, documents"
TABLES = 48  # generated tables that the tool is asked about
PICTURES = 4  # one of so many is drawn, too
DAMAGED = 40  # damaged files
JOINS = 60  # generated pairs of tables that it joins, of which some are damaged
WORD_TESTS = 2  # asked of each table
P_WITNESS = ((1,), (0,), (1,), (5,), (6,))  # the only one of table P with at most 2u - 1 items
NO_BYTES = ("x", "256", "-1", "+1", "1.5", "", "\u00b2", "0x1")  # what is no code at all: wrong usage
MORE = {"draw": ("-o", "picture.dot"), "join": ("other", "-o", "joined")}  # what a subcommand needs beside the file


class Tool:
    """A copy of the tool in a folder of its own; the table that it is asked about is the file `table` there, and `other` is one that is taken."""

    def __init__(self, folder):
        self.folder = folder
        self.archive = folder / "target" / "staticlib" / "libunit.a"
        self.shared = self.archive.with_name("libyotselina.so")
        self.archive.parent.mkdir(parents=True)
        shutil.copytree(ROOT / "cli", folder / "cli")
        for name in ("table", "other"):
            (folder / name).write_bytes(named.P_FILE)

    def __call__(self, *words, stdout=subprocess.PIPE, **variables):
        """Exit status, standard output, standard error."""
        outside = {name: value for name, value in os.environ.items() if name != VARIABLE} | variables
        try:
            done = subprocess.run([sys.executable, self.folder / "cli" / "yotselina", *words], cwd=self.folder, env=outside, stdout=stdout,
                                  stderr=subprocess.PIPE, text=True, timeout=TIME_LIMIT, check=False)
        except subprocess.TimeoutExpired:
            return None, "", HANGS
        return done.returncode, done.stdout, done.stderr

    def about(self, content, command, *words):
        """The same about a table file of this content."""
        (self.folder / "table").write_bytes(content)
        return self(command, "table", *words)

    def join(self, *files):
        """The same for a join of two table files of these contents; with the file that is there afterwards, None if there is none."""
        for name, content in zip(("first", "second"), files):
            (self.folder / name).write_bytes(content)
        joined = self.folder / "joined"
        joined.unlink(missing_ok=True)
        run = self("join", "first", "second", "-o", "joined")
        return run, joined.read_bytes() if joined.exists() else None


# --- where the library comes from, usage, files -------------------------------------------------------------------------


def try_first_use(tool, findings):
    """No archive, no gcc, then the archive; made again when the archive is newer; other places."""
    def check(name, faults):
        findings.check(GROUP, faults, b"", f"first use: {name}")

    def made():
        return tool.shared.stat().st_mtime_ns

    check("no archive", faults_of_run(tool.about(named.P_FILE, "check"), 2, "", "tools/build unit"))
    shutil.copy(find_archive(), tool.archive)
    check("no gcc", faults_of_run(tool("check", "table", PATH="/nowhere"), 2, "", "gcc -shared -o"))
    check("nothing is left behind", faults_where((os.listdir(tool.archive.parent) == ["libunit.a"], "more files than the archive")))
    check("the archive", faults_of_run(tool("check", "table"), 0, "taken"))
    first = made()
    check("the second use", faults_of_run(tool("check", "table"), 0, "taken") + faults_where((made() == first, "made twice")))
    os.utime(tool.archive, ns=(first + 10**9,) * 2)
    check("a newer archive", faults_of_run(tool("check", "table"), 0, "taken") + faults_where((made() != first, "not made again")))
    check("an archive that is none", with_broken_archive(tool))
    check("a library that is not there", faults_of_run(tool("check", "table", "--library", "/none.so"), 2, "", "no library at /none.so"))
    check("a library that is not there", faults_of_run(tool("check", "table", **{VARIABLE: "/none.so"}), 2, "", "no library at /none.so"))
    check("a library that is none", faults_of_run(tool("check", "table", "--library", "table"), 2, "", "cannot be loaded"))
    check("a library named", faults_of_run(tool("check", "table", PATH="/nowhere", **{VARIABLE: str(tool.shared)}), 0, "taken"))


def with_broken_archive(tool):
    """In what the tool is wrong while its archive is no archive and no shared object is there."""
    whole = tool.archive.read_bytes()
    tool.shared.unlink()
    tool.archive.write_bytes(b"none")
    faults = faults_of_run(tool("check", "table"), 2, "", "could not be made by")
    tool.archive.write_bytes(whole)
    return faults + faults_of_run(tool("check", "table"), 0, "taken")


def try_usage(tool, findings):
    wrong = ((), ("nothing",), ("check",), ("check", "table", "more"), ("check", "--nothing", "table"), ("verdict", "table", "1"),
             *(("translate", "table", code) for code in NO_BYTES),
             *(("accepts", "table", "--input", "1", "--output", code) for code in NO_BYTES), ("accepts", "table", "--input", "256"),
             ("accepts", "table", "1"), ("accepts", "--input", "1"), ("accepts", "--input", "1", "table"), ("accepts", "table", "--inputs", "1"),
             ("draw", "table"), ("draw", "table", "-o"), ("draw", "table", "-o", "picture.xyz"), ("draw", "table", "-o", "svg"),
             ("join", "table", "-o", "joined"), ("join", "table", "table"), ("join", "table", "table", "-o"),
             ("join", "table", "table", "table", "-o", "joined"))
    for words in wrong:
        findings.check(GROUP, faults_of_run(tool(*words), 2, "", "usage: yotselina"), b"", f"wrong usage: {' '.join(words)!r}")
    for words in ((), *((name,) for name in COMMANDS)):
        run = tool(*words, "--help")
        faults = faults_of_run(run, 0, "usage: yotselina")
        faults += [f"no word of {name}" for name in COMMANDS if not words and not re.search(rf"^    {name}\s", run[1], re.MULTILINE)]
        findings.check(GROUP, faults, b"", f"{' '.join(words)} --help")


def try_files(tool, findings):
    """What cannot be read or written is said, by every subcommand; names of files may have any characters."""
    unreadable = (("none", "No such file"), (".", "Is a directory"), ("/proc/self/mem", "Input/output error"))
    for command in COMMANDS:
        for file, says in unreadable:
            run = tool(command, file, *MORE.get(command, ()))
            findings.check(GROUP, faults_of_run(run, 2, "", f"cannot read {file}: {says}"), b"", f"{command} {file}")
        with open("/dev/full", "w", encoding="ascii") as full:
            status, _, complaint = tool(command, "table", *MORE.get(command, ()), stdout=full)
        faults = faults_of_run((status, "", complaint), 2, "", "cannot write standard output: No space")
        findings.check(GROUP, faults, b"", f"{command} > /dev/full")
    for file, says in unreadable:
        run = tool("join", "table", file, "-o", "none.joined")
        faults = faults_of_run(run, 2, "", f"cannot read {file}: {says}")
        faults += faults_where((not (tool.folder / "none.joined").exists(), "something is written"))
        findings.check(GROUP, faults, b"", f"join table {file}")
    os.symlink("/dev/full", tool.folder / "full.svg")
    for file, says in (("none/picture.svg", "No such file"), ("full.svg", "No space")):
        for words in (("draw", "table"), ("join", "table", "other")):
            findings.check(GROUP, faults_of_run(tool(*words, "-o", file), 2, "", f"cannot write {file}: {says}"), b"", f"{words[0]} -o {file}")
    for file in (b"a <b> & \"c\" \\n", b"\xff\xfe", "\u00fc".encode(), b"own.svg"):
        (tool.folder / os.fsdecode(file)).write_bytes(named.P_FILE)
        for command in COMMANDS:
            more = MORE | {"draw": ("-o", "picture.svg"), "translate": ("1",), "accepts": ("--input", "1", "--output", "6")}
            status, _, complaint = tool(command, os.fsdecode(file), *more.get(command, ()))
            faults = faults_where((status == (1 if command == "verdict" else 0), f"exit status {status}, {complaint}"))
            findings.check(GROUP, faults, b"", f"{command} {file}")
    for words in (("draw", "own.svg"), ("join", "own.svg", "table"), ("join", "table", "own.svg"), ("join", "own.svg", "own.svg")):
        faults = faults_of_run(tool(*words, "-o", "./own.svg"), 2, "", "is the table file itself")
        faults += faults_where(((tool.folder / "own.svg").read_bytes() == named.P_FILE, "the table is overwritten"))
        findings.check(GROUP, faults, b"", f"{' '.join(words)} over the table itself")


# --- refusals ----------------------------------------------------------------------------------------------------------


def faults_of_refusal(run, refusal, content, name="table", words=None):
    """In what a refusal is not said whole: number, record, the file's name and line and its text, cause and cure; by the words of its number, or
    those given."""
    words = words or WORDS[refusal.number]
    expected = [f"refused with number {refusal.number}", f"\ncause: {words.cause}\n", f"\ncure:  {words.cure}\n"]
    if words.of_file:
        lines = content[:FILE_SEEN].removesuffix(b"\n").split(b"\n") if content else []
        text = lines[refusal.record] if refusal.record < len(lines) else b"(the file ends before this line)"
        plain = re.match(rb"[ -~]{0,%d}" % LONGEST_SHOWN, text)[0].decode("ascii")
        expected += [f"record {refusal.record} (line {refusal.record + 1} of the file):\n    {plain}", f"{name}:{refusal.record + 1}: "]
    else:
        expected += [f"{name}: "]
    return [fault for says in expected for fault in faults_of_run(run, 2, "", says)]


def try_refusals(tool, findings):
    """Named files of each number, by every subcommand; and refused words."""
    seen = set()
    for name, content, printed in named.FILES:
        said = parse_verdict(printed)
        if not isinstance(said, Refusal):
            findings.check(GROUP, faults_of_run(tool.about(content, "check"), 0, "table: taken: "), content, name)
            continue
        for command in ("check",) if said.number in seen else COMMANDS:
            run = tool.about(content, command, *MORE.get(command, ()))
            findings.check(GROUP, faults_of_refusal(run, said, content), content, f"{command}: {name}")
            findings.count("desk tool, refusals", said.number)
        seen.add(said.number)
    try_refused_joins(tool, findings)
    for number, word in ((9, [1] * (MAX_WORD + 1)), (10, [0]), (10, [251]), (11, [2])):
        run = tool.about(named.P_FILE, "translate", *map(str, word))
        findings.check(GROUP, faults_of_refusal(run, Refusal(number, 0), named.P_FILE), named.P_FILE, as_codes(word))
        findings.count("desk tool, refusals", number)


def faults_of_refused_join(run, made, refusal, files):
    """In what the refusal of a join is not said whole; nothing is written. Of 15 the first line is shown that writes more than one code."""
    names = "first", "second"
    faults = faults_where((made is None, "something is written"))
    if WORDS[refusal.number].of_file:
        return faults + faults_of_refusal(run, refusal, files[refusal.second], names[refusal.second])
    if refusal.number != MORE_THAN_ONE_CODE:
        return faults + faults_of_refusal(run, refusal, b"", " and ".join(names))
    lines = files[0].splitlines()
    place = next(i for i, line in enumerate(lines, 1) if line.startswith(b"L") and int(line[13:17]) > 1)
    shown = f"first:{place}: refused with number 15 (line {place} of the file):\n    {lines[place - 1].decode()}\ncause: "
    return faults + faults_of_run(run, 2, "", shown) + faults_of_refusal(run, refusal, b"", f"first:{place}")


def try_refused_joins(tool, findings):
    """The limits of a join; either file refused, and both: the first is named."""
    pairs = [files_of((first, second)) for _, first, second, known in LIMITS if isinstance(known, int)]
    refused = {parse_verdict(printed).number: content for _, content, printed in named.FILES if isinstance(parse_verdict(printed), Refusal)}
    pairs += [pair for content in refused.values() for pair in ((content, named.P_FILE), (named.P_FILE, content), (content, named.P_FILE + b" "))]
    for files in pairs:
        (run, made), (_, refusal) = tool.join(*files), expected_join(*files)
        findings.check("desk tool, join", faults_of_refused_join(run, made, refusal, files), files[0], "refused")
        findings.count("desk tool, refused joins", f"{refusal.number}{' of the second file' * refusal.second}")


def try_joins(tool, findings):
    """Joins of generated pairs by the reference; a table with itself."""
    for index in range(share(JOINS)):
        random = randomness("desk, join", index)
        files = files_of(series.KINDS[list(series.KINDS)[index % len(series.KINDS)]][1](random))
        files = [damage.damaged(random, content)[0] if random.random() < 0.1 else content for content in files]
        (run, made), (expected, refusal) = tool.join(*files), expected_join(*files)
        faults = faults_of_refused_join(run, made, refusal, files) if refusal else faults_of_joined(run, made, expected)
        findings.check("desk tool, join", faults, files[0], run[1] + run[2])
        findings.count("desk tool, joins", f"refused {refusal.number}" if refusal else "blank" if b"S" not in expected else "joined")
    run = tool.about(named.P_FILE, "join", "table", "-o", "joined")
    findings.check("desk tool, join", faults_of_joined(run, (tool.folder / "joined").read_bytes(), expected_join(named.P_FILE, named.P_FILE)[0]),
                   named.P_FILE, "a table with itself")


def as_options(word, output):
    return "--input", *map(str, word), "--output", *map(str, output)


def try_word_test(tool, findings, content, word, output):
    run = tool.about(content, "accepts", *as_options(word, output))
    refused, faults = faults_of_word_test(run, table_of(content), word, output)
    findings.check("desk tool, word test", faults_of_refusal(run, refused, content) if refused else faults, content, f"{(*word,)}, {(*output,)}")
    findings.count("desk tool, word tests", f"refused {refused.number}" if refused else "no" if run[0] else "yes")


def try_words(tool, findings):
    """Input words and output words of table P: at the limits and beyond, of any bytes, empty; and the ways to say an empty word."""
    words = (b"", b"\1", b"\0", b"\xfb", b"\1" * MAX_TESTED_INPUT, b"\0" * (MAX_TESTED_INPUT + 1))
    outputs = (b"", b"\5", b"\0", b"\xff", b"\6" * MAX_TESTED_INPUT, b"\5" * (MAX_TESTED_OUTPUT + 1))
    for word, output in product(words, outputs):
        try_word_test(tool, findings, named.P_FILE, word, output)
    empty = "accepting path reads the empty word and writes"
    for more, status, says in (((), 0, f"yes: an {empty} nothing"), (("--input",), 0, f"yes: an {empty} nothing"),
                               (("--output", "--input"), 0, f"yes: an {empty} nothing"), (("--output", "5"), 1, f"no: no {empty} 5"),
                               (("--input", "1", "--output", "5", "6", "--input", "1"), 0, "yes: an accepting path reads 1 1 and writes 5 6")):
        faults = faults_of_run(tool.about(named.P_FILE, "accepts", *more), status, says, "" if status else "is split")
        findings.check("desk tool, word test", faults, named.P_FILE, " ".join(more))


def try_damaged(tool, findings):
    for index in range(share(DAMAGED)):
        random = randomness("desk, damaged", index)
        content, _ = damage.damaged(random, table_file(generate.KINDS["random, small"][1](random)[0]))
        expected, _ = expected_verdict(content)
        run = tool.about(content, "check")
        refused = isinstance(expected, Refusal)
        findings.check(GROUP, faults_of_refusal(run, expected, content) if refused else faults_of_run(run, 0, "taken"), content, "damaged")


def try_fake(tool, findings):
    """Libraries that answer every check with one number, for those that cannot be had: the tool says what the library says, whatever the file; of a
    number that no refusal has, that it does not know it. A library of another version is not asked."""
    source = tool.folder / "fake.c"
    for number, words in (*((number, WORDS[number]) for number in (7, 8, 18, 19, 100)), (refusals.UNUSED, UNKNOWN)):
        fake = tool.folder / f"fake{number}.so"
        source.write_text(f"unsigned yotselina_check(void) {{ return {2 << 16 | number}; }}\n", encoding="ascii")
        complaint = compile_c("gcc", "-shared", "-fPIC", "-o", fake, source)
        run = tool.about(named.P_FILE, "check", "--library", str(fake))
        faults = [complaint] if complaint else faults_of_refusal(run, Refusal(number, 2), named.P_FILE, words=words)
        findings.check(GROUP, faults, b"", f"number {number} from a fake library")
        findings.count("desk tool, refusals by a fake library", number)
    run = tool.about(named.P_FILE, "verdict", "--library", str(fake))
    findings.check(GROUP, faults_of_run(run, 2, "", "has no call yotselina_version"), b"", "a library without the call")
    for version in (header_version() - 0x10000, header_version() + 0x10000):
        source.write_text(f"unsigned yotselina_version(void) {{ return {version}; }}\n", encoding="ascii")
        other = tool.folder / f"version{version}.so"
        complaint = compile_c("gcc", "-shared", "-fPIC", "-o", other, source)
        run = tool.about(named.P_FILE, "verdict", "--library", str(other))
        faults = [complaint] if complaint else faults_of_run(run, 2, "", f"is of another version, {version:#010x}")
        findings.check(GROUP, faults, b"", f"a library of version {version:#010x}")


# --- answers -----------------------------------------------------------------------------------------------------------


def try_picture(tool, findings, content, transducer, witness, note):
    run = tool.about(content, "draw", "-o", "picture.svg")
    faults = faults_of_run(run, 0, "picture.svg: drawn: ")
    faults += [] if faults else faults_of_picture((tool.folder / "picture.svg").read_bytes(), transducer, witness)
    findings.check("desk tool, picture", faults, content, note)
    findings.count("desk tool, pictures", "split" if witness else "single")


def try_table(tool, findings, name, transducer, word, tests, draw):
    """All answers about one table, by the reference."""
    content = table_file(transducer)
    expected, _ = expected_verdict(content)
    faults, said = faults_of_words(tool.about(content, "verdict", "--all"), expected, transducer)
    findings.check("desk tool, verdict in words", faults, content, name)
    findings.count("desk tool, verdicts", "split" if expected.split else "single")
    findings.check("desk tool, useful", faults_of_useful(tool.about(content, "useful"), transducer), content, name)
    run = tool.about(content, "translate", *map(str, word))
    refused, faults = faults_of_translation(run, content, word, expected.split)
    findings.check("desk tool, translation", faults_of_refusal(run, refused, content) if refused else faults, content, as_codes(word))
    for test in tests:
        try_word_test(tool, findings, content, *test)
    if draw and said:
        try_picture(tool, findings, content, transducer, said.witness, name)


def try_named_tables(tool, findings):
    """Document 01's small tables, and those whose outputs part late."""
    for name, transducer, _ in (*named.VERDICTS, *named.PART_LATE):
        try_table(tool, findings, name, transducer, b"\1", [(b"\1", b"\5")], len(transducer.transitions) <= 16)


def try_tables(tool, findings):
    """Generated tables."""
    for index in range(share(TABLES)):
        kind = KINDS[index % len(KINDS)]
        random = randomness("desk", kind, index)
        transducer, _ = generate.KINDS[kind][1](random)
        word, tests = generate.input_words(random, transducer)[index % 2], generate.word_tests(random, transducer)[:WORD_TESTS]
        try_table(tool, findings, kind, transducer, word, tests, index // len(KINDS) % PICTURES == 0)


def try_formats(tool, findings):
    """The other formats, and no Graphviz."""
    for name, begins in (("picture.png", b"\x89PNG"), ("picture.pdf", b"%PDF"), ("picture.dot", b"digraph")):
        faults = faults_of_run(tool.about(named.P_FILE, "draw", "-o", name), 0, f"{name}: drawn: 1 state, 2 lines, split")
        faults += [] if faults else faults_where(((tool.folder / name).read_bytes().startswith(begins), f"{name} does not begin with {begins}"))
        findings.check("desk tool, picture", faults, named.P_FILE, name)
    for name, status, says in (("missing.svg", 2, "apt-get install graphviz"), ("missing.dot", 0, "")):
        faults = faults_of_run(tool("draw", "table", "-o", name, PATH="/nowhere"), status, "" if status else "drawn", says)
        faults += faults_where(((tool.folder / name).exists() == (status == 0), "a picture without Graphviz, or none of the graph's text"))
        findings.check("desk tool, picture", faults, named.P_FILE, f"no Graphviz, {name}")


def try_documents(tool, findings):
    """The refusal numbers are the same wherever they stand; the manual has the tool's causes and cures and what it says of tables/split; docs/ has
    the picture of it."""
    refusals.check_numbers(findings)
    manual = (ROOT / "docs" / "MANUAL.md").read_text(encoding="utf-8")
    rows = {int(number): (bool(of_file), cause, cure)
            for number, of_file, cause, cure in re.findall(r"^\| (\d+)(, record)? \| (.*) \| (.*) \|$", manual, re.MULTILINE)}
    other = sorted({number for number in rows.keys() | WORDS.keys() if rows.get(number) != WORDS.get(number)})
    findings.check(DOCUMENTS, [f"the manual and the tool differ about number {number}" for number in other], b"", "refusal numbers")
    for command, name, *more in (("verdict", "split"), ("accepts", "single", *as_options(b"\1\2", b"\5\6"))):
        content = (ROOT / "tables" / name).read_bytes()
        said = tool.about(content, command, *more)[1].splitlines()
        shown = "".join(f"    {line}".rstrip() + "\n" for line in (" ".join(("$ cli/yotselina", command, f"tables/{name}", *more)), *said))
        findings.check(DOCUMENTS, faults_where((shown in manual, f"not shown: {shown}")), content, f"the manual's {command} in words")
    names = [f"tables/{name}" for name in ("console", "single")]
    said = tool("join", *(str(ROOT / name) for name in names), "-o", "series")[1]
    shown = f"    $ cli/yotselina join {' '.join(names)} -o series\n    {said}"
    findings.check(DOCUMENTS, faults_where((said and shown in manual, f"not shown: {shown}")), b"", "the manual's join in words")
    faults = faults_of_picture((ROOT / "docs" / "split.svg").read_bytes(), named.P, P_WITNESS)
    findings.check(DOCUMENTS, faults, named.P_FILE, "docs/split.svg is the picture of tables/split")


LONGEST_FIRST = (try_tables, try_files, try_named_tables, try_refusals, try_joins, try_words, try_usage, try_damaged, try_fake, try_formats,
                 try_documents)


def try_first(_, findings):
    """The first use, in the current folder."""
    try_first_use(Tool(Path.cwd()), findings)


def try_one(archive, findings, part):
    """One of the others, with a copy of the tool and the archive in the current folder."""
    tool = Tool(Path.cwd())
    shutil.copy(archive, tool.archive)
    part(tool, findings)


def run(findings):
    """All of the above, each with a copy of the tool."""
    debian("gcc")
    debian("dot", "graphviz")
    spread(find_archive, [*((try_one, part) for part in LONGEST_FIRST), (try_first,)], findings, batch=1)
