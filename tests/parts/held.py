"""Held tables: every byte changed; made in several ways; the same exactly when their bytes are."""

from means import generate
from means.calls import SOME_TABLES
from means.heldtables import PIECE, TABLES, compare_bytes, compare_same
from means.held import HELD
from means.library import Library, build
from means.settings import share
from means.workers import spread


def run(findings):
    build()
    jobs = [(compare_bytes, name, first) for name in TABLES for first in range(0, HELD, PIECE)]
    jobs += [(compare_same, kind, index) for kind, (count, _) in generate.KINDS.items() for index in range(share(-(-count // SOME_TABLES)))]
    spread(Library, jobs, findings)
