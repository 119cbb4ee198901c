"""The named cases through both programs."""

from means.compare import answer, as_codes, compare_translation, expected_verdict, faults_of_verdict
from means.listing import Refusal, parse_translation, parse_verdict
from means.named import (BEHIND, D, D_SPLIT, FILES, LONGEST, P, P_FILE, PART_LATE, TRANSLATIONS, VERDICTS, WHOLE, files_with_bytes_behind,
                         longest_translation, output, refused, single, split, table)
from means.programs import Programs
from means.transducer import MAX_CODE, MAX_FILE, MAX_WORD, table_file
from means.workers import spread

GROUP = "named case"
MADE = "files that are compared with"


def faults_of_bytes(expected, run, *given):
    """In what the program's listing is not the one expected, byte for byte."""
    printed, faults = answer(bytes, run, *given)
    return faults if faults or printed == expected else [f"expected {expected[:200]!r}, printed {printed[:200]!r}"]


def run_verdicts(programs, findings):
    """Byte for byte; the reference must agree, too."""
    for name, content, printed in [(n, table_file(t), printed) for n, t, printed in VERDICTS] + list(FILES):
        faults = faults_of_bytes(printed, programs.verdict, content)
        faults += faults_of_verdict(programs, findings, content, *expected_verdict(content))
        findings.check(GROUP, faults, content, name)


def run_late(programs, findings):
    """Outputs with thousands of codes in common: no fewer than any two of a word have, whichever are shown."""
    for name, transducer, least in PART_LATE:
        content = table_file(transducer)
        faults = faults_of_verdict(programs, findings, content, *expected_verdict(content))
        said = None if faults else parse_verdict(programs.verdict(content))
        findings.check(GROUP, faults or ([] if said.shared >= least else [f"{said.shared} codes in common"]), content, name)
        findings.count("named case, outputs that part late", f"{said.shared} codes:" if said else "wrong")


def run_refused_tables(programs, findings):
    """The translating program refuses the same files, with the same records, before it looks at the word."""
    for name, content, printed in FILES:
        if printed.startswith(b"R"):
            findings.check(GROUP, faults_of_bytes(printed, programs.translate, content, b"\0" * 256), content, name)
    findings.check(GROUP, faults_of_bytes(refused(1), programs.translate, None, b""), b"", "no file named table")


def run_translations(programs, findings):
    """Byte for byte; the reference must agree, too."""
    for name, transducer, word, printed in TRANSLATIONS:
        content, word = table_file(transducer), bytes(word)
        findings.check(GROUP, faults_of_bytes(printed, programs.translate, content, word), content, f"{name}, {as_codes(word)}")
        compare_translation(programs, findings, content, word, GROUP)


def run_longest(programs, findings):
    """The longest translation, and split tables on which any output of the word will do; that the longest file and that of table P are what they
    should be."""
    findings.check_apart(MADE, [] if len(LONGEST) == MAX_FILE else [f"{len(LONGEST)} bytes"], b"", "the longest file")
    findings.check_apart(MADE, [] if table_file(P) == P_FILE and len(P_FILE) == 74 else ["other bytes"], P_FILE, "the file of table P")
    transducer, word, expected = longest_translation()
    printed, faults = answer(parse_translation, programs.translate, table_file(transducer), bytes(word))
    if not faults and (isinstance(printed, Refusal) or printed != expected):
        faults = ["another output"]
    findings.check(GROUP, faults, table_file(transducer), "the longest translation")
    for transducer in (P, table(1, [0], [0], (0, 0, 0, 5)), D_SPLIT):
        for word in (b"", b"\1", b"\1\1\1", b"\1\2"):
            compare_translation(programs, findings, table_file(transducer), word, GROUP)


def run_behind(programs, findings):
    """Whole files are taken; with bytes behind the last record both programs refuse them, translating before it looks at the word."""
    for name, content, _ in WHOLE:
        findings.check(GROUP, faults_of_verdict(programs, findings, content, *expected_verdict(content)), content, name)
        compare_translation(programs, findings, content, b"", GROUP)
    findings.check(GROUP, faults_of_bytes(single(1_024), programs.verdict, LONGEST), LONGEST, "the longest file")
    printed = output(*[MAX_CODE] * 8)
    findings.check(GROUP, faults_of_bytes(printed, programs.translate, LONGEST, bytes((MAX_CODE,))), LONGEST, "the longest file, the word 250")
    for name, content, records in files_with_bytes_behind():
        for run_program, *word in ((programs.verdict,), (programs.translate, b"\0" * (MAX_WORD + 1))):
            findings.check(BEHIND, faults_of_bytes(refused(6, records), run_program, content, *word), content, name)


def run_in_pieces(programs, findings):
    """Standard input that comes in pieces is read to its end."""
    d_file = table_file(D)
    pieces = (P_FILE[:1], P_FILE[1:20], P_FILE[20:])
    findings.check(GROUP, faults_of_bytes(split(1, [1], [0], [1], [5], [6], 0), programs.verdict, *pieces), P_FILE, "the file in pieces")
    pieces = (LONGEST[:5_000], LONGEST[5_000:], b"\n")
    findings.check(GROUP, faults_of_bytes(refused(6, 321), programs.verdict, *pieces), LONGEST, "the file and a byte after it, in pieces")
    findings.check(GROUP, faults_of_bytes(output(5, 6), programs.translate, d_file, b"\1", b"\2"), d_file, "the word in pieces")
    findings.check(GROUP, faults_of_bytes(refused(9), programs.translate, d_file, b"\1" * 200, b"\1" * 56), d_file, "a long word in pieces")


def compare_all(programs, findings):
    """One after the other, in one worker."""
    for part in (run_verdicts, run_late, run_refused_tables, run_translations, run_longest, run_behind, run_in_pieces):
        part(programs, findings)


def run(findings):
    spread(Programs, [(compare_all,)], findings)
