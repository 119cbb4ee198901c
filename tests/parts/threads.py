"""The same calls of the library from two threads at once and from one."""

from means.atonce import compare_threads
from means.library import Library, build
from means.workers import spread


def run(findings):
    build()
    spread(Library, [(compare_threads,)], findings)
