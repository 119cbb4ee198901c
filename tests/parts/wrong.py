"""Wrong programs and wrong definitions, which the contracts of a crate must refuse: the edits of crates/NAME/wrong.

`rt must-fail` tries them in a copy of the crates in which they stand in the place of those of must-fail/. It begins with what rt has kept of the crates'
proofs, so that only what an edit touches is proved again. This is a test of the contracts and no verdict on the code.
"""

import re
import shutil
import subprocess
import tempfile
from pathlib import Path

from means.programs import ROOT
from means.settings import setting
from means.tools import Missing

GROUP = "wrong edit is refused"
CRATES = ROOT / "crates"
SAID = re.compile(r"^rt: must-fail (\w+)/(\w+)\.edit: (.*)$", re.MULTILINE)
REFUSED = "refused, as it must be"
# what says less than that a fact does not hold: that a proof file names what is gone, and that the prover came to a limit
LESS = ("(only because a proof file names what the edit took away", "(only by a limit of the prover")


def copy(folder, edits):
    """The crates, each with the edits of wrong/ as those that must fail."""
    shutil.copy(ROOT / "crates.txt", folder)
    for crate in sorted(path for path in CRATES.iterdir() if (path / "src").is_dir()):
        for part in ("src", "specs", "proofs"):
            if (crate / part).is_dir():
                shutil.copytree(crate / part, folder / "crates" / crate.name / part)
    for edit in edits:
        to = folder / "crates" / edit.parts[-3] / "must-fail"
        to.mkdir(exist_ok=True)
        shutil.copy(edit, to)


def run_rt(folder, *words):
    try:
        return subprocess.run(["rt", *words], cwd=folder, stdin=subprocess.DEVNULL, stdout=subprocess.PIPE, stderr=subprocess.STDOUT, text=True,
                              errors="replace", check=False)
    except OSError as error:
        raise Missing(f"rt {' '.join(words)}: {error}") from error


def try_all(edits):
    """What rt says of each edit, by its crate and its name, once the crates are proved without them; None where they are not."""
    names = sorted({edit.parts[-3] for edit in edits})
    with tempfile.TemporaryDirectory() as place:
        folder = Path(place).resolve()
        copy(folder, edits)
        control = run_rt(folder, "all", "check", "--jobs", setting("TESTS_WORKERS"))
        if control.returncode != 0:
            return None, control.stdout[-600:]
        done = run_rt(folder, "must-fail", *names)
    said = {(crate, name): words for crate, name, words in SAID.findall(done.stdout)}
    return said, done.stdout[-600:]


def faults_of(edit, said, end):
    """In what an edit is not refused by its crate's contracts: for a fact that no longer holds, and not for a name that is gone or at a limit."""
    if said is None:
        return [f"its crate is not proved without it, or one that stands beside it: .. {end}"]
    words = said.get((edit.parts[-3], edit.stem))
    if words is None:
        return [f"nothing is said of it: .. {end}"]
    if not words.startswith(REFUSED):
        return [words[:300]]
    return [f"that it is refused shows nothing: {words[:300]}"] if any(words.startswith(f"{REFUSED} {less}") for less in LESS) else []


def run(findings):
    edits = sorted(CRATES.glob("*/wrong/*.edit"))
    if not edits:
        return
    said, end = try_all(edits)
    for edit in edits:
        faults = faults_of(edit, said, end)
        findings.check(f"{GROUP}: {edit.parts[-3]}/{edit.stem}" if faults else GROUP, faults, b"")
        findings.count("wrong edits", "tried")
