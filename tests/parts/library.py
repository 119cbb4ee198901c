"""Every call of the library but the join, made through ctypes."""

from means import generate, named
from means.calls import SOME_TABLES, check, exact_sizes, one_short, same_refusal
from means.compare import randomness
from means.differences import compare_differences, compare_long
from means.everycall import LEAST, compare_behind, compare_counts_behind, compare_mixed, compare_orders, compare_shown, compare_table, inputs_of
from means.held import held_of
from means.library import OF_FILES, OF_TABLES, Library, build
from means.listing import Refusal, parse_verdict
from means.owed import table_of
from means.settings import share
from means.workers import spread

MIXED = 1_500  # files and held tables with random damages, words and sizes


def compare_files(library, findings):
    """The files of named.py, by the numbers that stand there; and the words."""
    random = randomness("library, files")
    for title, content, printed in named.FILES:
        said = parse_verdict(printed)
        for name in OF_FILES:
            call = library.call(random, name, content)
            if isinstance(said, Refusal):
                same_refusal(findings, "named file", call, said.number, said.record, title)
            else:
                check(findings, "named file", call, title)
        for name in () if isinstance(said, Refusal) else OF_TABLES:
            check(findings, "named file", library.call(random, name, *inputs_of(name, held_of(table_of(content).transducer), LEAST)[0]), title)
    for title, transducer, word, _ in named.TRANSLATIONS:
        check(findings, "named word", library.call(random, "translate", held_of(transducer), bytes(word)), title)
    transducer, word, _ = named.longest_translation()
    call = library.call(random, "translate", held_of(transducer), bytes(word))
    check(findings, "named word", call, "the longest translation")
    for less in one_short(exact_sizes(call)):
        check(findings, "named word", library.call(random, "translate", *call.inputs, **less), "the longest, one place short")


def run(findings):
    build()
    jobs = [(compare_table, kind, index) for kind, (count, _) in generate.KINDS.items() for index in range(share(-(-count // SOME_TABLES)))]
    jobs += [(compare_mixed, index) for index in range(share(MIXED))]
    jobs += [(compare_orders,), (compare_files,), (compare_shown,), (compare_behind,), (compare_differences,), (compare_long,)]
    jobs += [(compare_counts_behind, *whole) for whole in named.WHOLE]
    spread(Library, jobs, findings)
