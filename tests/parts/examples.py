"""What others build on the library with: the header's sizes, its promise about the stack, the examples and the files of make-library (the part linked has
the header itself)."""

import re
import shutil
import sys
import tempfile
from itertools import product
from pathlib import Path

from means import generate, lines, named, reference
from means.compare import as_codes, expected_translation, expected_verdict, faults_of_output, randomness
from means.deskanswers import KINDS, faults_of_run, faults_where, numbers
from means.library import STRICT, compile_c, find_archive, header_version
from means.listing import Refusal
from means.programs import ROOT, run_program
from means.settings import share
from means.stack import LISTS, run_stack, stack_of_lists
from means.tools import debian
from means.transducer import MAX_TRANSITIONS, places_of, table_file

sys.path.append(str(ROOT / "cli"))

import desktool.library

TABLES = 24  # generated tables that the examples are run on


def text_of(*names):
    return ROOT.joinpath(*names).read_text(encoding="utf-8")


# --- the header --------------------------------------------------------------------------------------------------------


def try_sizes(_, findings):
    """The sizes in the tool and in the Rust example are the header's, and the tool's version."""
    sizes = {name: int(number) for name, number in re.findall(r"^#define YOTSELINA_(\w+) (\d+)$", text_of("include", "yotselina.h"), re.MULTILINE)}
    tool = {name: value for name, value in vars(desktool.library).items() if name.isupper() and isinstance(value, int)}
    rust = {name: int(number) for name, number in re.findall(r"const (\w+): usize = ([\d_]+);", text_of("examples", "table.rs"))}
    for where, found in (("cli/desktool/library.py", tool), ("examples/table.rs", rust)):
        other = [f"{name} is {size} in {where} and {sizes.get(name)} in the header" for name, size in found.items() if sizes.get(name) != size]
        findings.check("header", other or faults_where((found, f"no sizes in {where}")), b"", "sizes")
    same = desktool.library.Library.VERSION == header_version()
    findings.check("header", faults_where((same, "cli/desktool/library.py has another version")), b"", "version")


def try_stack(folder, findings):
    """The stack that each call takes is no more than the header says, and a difference takes the same for long lists; the figures are printed."""
    header = text_of("include", "yotselina.h")
    promises = re.findall(r"^ \* Stack: ([\d,]+) bytes\.\n \*/\nYOTSELINA_CALL (\w+)\(", header, re.MULTILINE)
    promised = {name: int(number.replace(",", "")) for number, name in promises}
    run = run_stack(folder, find_archive())
    taken = {name: int(number) for name, number in re.findall(r"^(\w+) (\d+)$", run[1], re.MULTILINE)}
    print("  stack, bytes: " + ", ".join(f"{name.removeprefix('yotselina_')} {number:,}" for name, number in taken.items()))
    faults = faults_of_run(run, 0, "yotselina_")
    faults += [f"{name} takes {taken.get(name)} bytes of stack, and the header says {promised.get(name)}"
               for name in sorted(taken.keys() | promised.keys()) if not 0 < taken.get(name, 0) <= promised.get(name, 0)]
    faults += faults_where((f"#define YOTSELINA_STACK {max(promised.values(), default=0)}\n" in header, "YOTSELINA_STACK is not the largest"))
    manual = text_of("docs", "MANUAL.md")
    faults += [f"docs/MANUAL.md has another figure for {name}" for name, most in promised.items()
               if not re.search(rf"^\| `{name}` \|.*\| {most:,} \|$", manual, re.MULTILINE)]
    findings.check("header", faults, b"", "stack")
    lists = stack_of_lists(run)
    print(f"  stack of a difference, bytes for {LISTS[0]:,} and {LISTS[1]:,} codes: " + ", ".join(f"{name} {both}" for name, both in lists.items()))
    for name, (short, long) in lists.items():
        findings.check("stack of a difference", faults_where((short and short == long, f"{short} and {long} bytes")), b"", f"{name}, {LISTS} codes")


# --- the examples ------------------------------------------------------------------------------------------------------


def built_examples(folder, findings):
    """The example programs, built as their heads say, with warnings as errors: name and path of each."""
    archive, built = find_archive(), []
    complaint = compile_c("gcc", "-std=c99", *STRICT, "-o", folder / "example-c", ROOT / "examples" / "table.c", archive)
    commands = [("C", folder / "example-c", complaint)]
    if shutil.which("rustc") is None:
        findings.leave_out("the Rust example: no rustc")
    else:
        status, _, complaint = run_program("rustc", "--edition", "2021", "-O", "-D", "warnings", "-o", folder / "example-rust",
                                           "-L", f"native={archive.parent}", "-l", f"static={archive.stem.removeprefix('lib')}",
                                           ROOT / "examples" / "table.rs")
        commands.append(("Rust", folder / "example-rust", complaint or (status and f"exit status {status}")))
    for name, program, complaint in commands:
        findings.check("examples", [complaint] if complaint else [], b"", f"the {name} example is built")
        built += [] if complaint else [(name, program)]
    return built


def expected_of(content, word):
    """Exit status, how standard output begins, and what standard error has."""
    expected, _ = expected_verdict(content)
    if isinstance(expected, Refusal):
        return 2, "", f"refused with number {expected.number}, record {expected.record}\n"
    says = ("split: two accepting paths read one input word and write different outputs" if expected.split
            else "single: every input word has one output at most")
    output, _ = expected_translation(content, word)
    if word and isinstance(output, Refusal):
        return 2, f"{says} (u = {expected.useful})\n", f"translate: refused with number {output.number}, record 0\n"
    return int(expected.split), f"{says} (u = {expected.useful})\n", ""


def faults_of_shared(said):
    """In what the number of codes in common is not that of the two outputs printed, where there are any."""
    outputs = [numbers(codes) for codes in re.findall(r"^  writes:(.*)$", said, re.MULTILINE)]
    common = numbers("".join(re.findall(r"^codes in common at the beginning: (\d+)$", said, re.MULTILINE)))
    return faults_where((common == ((reference.shared(*outputs),) if outputs else ()), f"codes in common: {common}"))


def faults_of_example(run, content, word):
    """In what an example's run is wrong, by the reference."""
    status, says, complaint = expected_of(content, word)
    faults = faults_of_run(run, status, says, complaint) + faults_of_shared(run[1])
    if faults or complaint or not word:
        return faults
    output = re.search(r"^output:(.*)$", run[1], re.MULTILINE)
    return faults_of_output(word, numbers(output[1]), *expected_translation(content, word)) if output else ["no output"]


def questions():
    """Files and words: those of tables/, some of the named files, tables whose outputs part late, and generated ones."""
    for path in sorted((ROOT / "tables").iterdir()):
        yield from ((path.read_bytes(), word) for word in (b"", b"\1\2", b"\7", b"\0", b"\1" * 256))
    yield from ((content, b"\1") for _, content, _ in named.FILES[::6])
    yield from ((table_file(transducer), b"") for _, transducer, _ in named.PART_LATE)
    for index in range(share(TABLES)):
        random = randomness("examples", index)
        transducer, _ = generate.KINDS[KINDS[index % len(KINDS)]][1](random)
        yield table_file(transducer), generate.input_words(random, transducer)[0]


def jobs_on(transducer, line):
    """Rows of jobs; what each prints behind the verdict, by the reference; how it complains where an edit is refused."""
    count, append = len(transducer.transitions), ("append", line.source, line.target, line.input, *line.output)
    yield ("append", 0, transducer.states, 1), "", "append: refused with number 19, record 0\n"
    if count == MAX_TRANSITIONS:
        yield append, "", "append: refused with number 17, record 0\n"
        return
    edited = reference.append(transducer, places_of(line))
    useful = "".join(f" {state}" for state in sorted(generate.useful_states(edited)))
    shown = f"useful states:{useful}\n{table_file(edited).decode()}{table_file(transducer).decode()}"
    yield (*append, ",", "look", ",", "write", ",", "remove", count, ",", "write"), shown, ""
    yield ("remove", count), "", "remove: refused with number 18, record 0\n"


def try_jobs(built, folder, findings):
    """Edits, looks and files of a table where it is held: a line that is appended and removed leaves the file as it was."""
    for index in range(share(TABLES)):
        random = randomness("examples, jobs", index)
        transducer, _ = generate.KINDS[KINDS[index % len(KINDS)]][1](random)
        content = table_file(transducer)
        (folder / "table").write_bytes(content)
        status, says, _ = expected_of(content, b"")
        for (jobs, shown, complaint), (name, program) in product(jobs_on(transducer, lines.good_line(random, transducer)), built):
            run = run_program(program, folder / "table", *map(str, jobs))
            faults = faults_of_run(run, 2 if complaint else status, says, complaint)
            findings.check("examples", faults + faults_where((run[1].endswith(f"\n{shown}"), f"prints {run[1]}")), content, f"{name}, {jobs}")


def try_examples(folder, findings):
    """Each example by the reference, and both must print the same; what they cannot do ends with status 2 and a complaint."""
    built = built_examples(folder, findings)
    try_jobs(built, folder, findings)
    for content, word in questions():
        (folder / "table").write_bytes(content)
        runs = [(name, run_program(program, folder / "table", *map(str, word))) for name, program in built]
        for name, run in runs:
            findings.check("examples", faults_of_example(run, content, word), content, f"{name}, {as_codes(word)}")
        findings.check("examples", faults_where((len({run[1] for _, run in runs}) == 1, f"they print {runs}")), content, "all print the same")
    for name, program in built:
        for words in ((), (folder / "none",), (folder,), (ROOT / "tables" / "single", "x"), (ROOT / "tables" / "single", "256")):
            status, _, complaint = run_program(program, *words)
            findings.check("examples", faults_where((status == 2 and complaint, f"exit status {status}")), b"", f"{name}: {words}")


def try_made(folder, findings):
    """The files of make-library: the shared object has the header's calls and nothing else, and the C example runs with it, by the name it asks for."""
    made = run_program("env", f"ARCHIVE={find_archive()}", ROOT / "make-library", folder / "lib")
    shared, program = folder / "lib" / "libyotselina.so", folder / "example-shared"
    findings.check("make-library", faults_of_run(made, 0, str(shared)), b"", "made")
    listed = run_program(debian("nm", "binutils"), "-D", "-P", "--defined-only", shared)[1]
    declared = set(re.findall(r"^YOTSELINA_CALL (\w+)\(", text_of("include", "yotselina.h"), re.MULTILINE))
    found = {line.split()[0] for line in listed.splitlines()}
    findings.check("make-library", faults_where((found == declared, f"it has {sorted(found)}, declared are {sorted(declared)}")), b"", "calls")
    complaint = compile_c("gcc", "-std=c99", *STRICT, "-o", program, ROOT / "examples" / "table.c", f"-L{shared.parent}", "-lyotselina")
    shared.unlink()  # a program asks for the name with the version
    run = run_program("env", f"LD_LIBRARY_PATH={shared.parent}", program, ROOT / "tables" / "single", "1", "2")
    findings.check("make-library", [complaint] if complaint else faults_of_run(run, 0, "\noutput: 5 6\n"), b"", "the C example with the shared object")


def try_manual(_, findings):
    """The manual's pieces of C and Rust are pieces of the examples."""
    for language, example in (("c", "table.c"), ("rust", "table.rs")):
        pieces = re.findall(rf"^```{language}\n(.*?)^```$", text_of("docs", "MANUAL.md"), re.MULTILINE | re.DOTALL)
        faults = faults_where((pieces and all(piece in text_of("examples", example) for piece in pieces), "not a piece of the example"))
        findings.check("examples", faults, b"", f"the manual and examples/{example}")


def run(findings):
    with tempfile.TemporaryDirectory() as folder:
        for part in (try_sizes, try_stack, try_examples, try_made, try_manual):
            part(Path(folder), findings)
