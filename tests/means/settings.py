"""What the surroundings may choose when the tests are run by hand. The gate (.ci/run) clears all of it: it runs everything, on what it has built."""

import os

DEFAULTS = {
    "VERDICT": "target/bin/verdict",
    "TRANSLATE": "target/bin/translate",
    "UNIT": "target/staticlib/libunit.a",
    "TESTS_WORKERS": "2",
    "TESTS_SHARE": "100",
    "TESTS_WITHOUT_FOMA": "",
}


def setting(name):
    return os.environ.get(name, DEFAULTS[name])


def chosen(name):
    """Whether the surroundings say something else than what holds by itself."""
    return setting(name) != DEFAULTS[name]


def share(count):
    """How many of a kind are compared: each kind keeps at least one."""
    return max(1, count * int(setting("TESTS_SHARE")) // 100)
