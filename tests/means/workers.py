"""Comparisons in batches over several workers. A worker that dies, or a comparison that breaks off, fails the run."""

import contextlib
import signal
import tempfile
import traceback
from concurrent.futures import ProcessPoolExecutor, as_completed
from concurrent.futures.process import BrokenProcessPool

from means.findings import Findings
from means.settings import setting

BATCH = 20  # comparisons that a worker takes at a time
TIME_LIMIT = 300  # seconds for a batch; a worker that takes longer ends, and with it the run
GROUP = "workers"


def work(tested, jobs):
    """One batch of comparisons of what is tested (made here), in a folder of its own because the translating program reads a file there."""
    findings, tested = Findings(), tested()
    signal.alarm(TIME_LIMIT)
    with tempfile.TemporaryDirectory() as folder, contextlib.chdir(folder):
        for job, *names in jobs:
            if not findings.hanging():
                job(tested, findings, *names)
    signal.alarm(0)
    return findings


def gather(waiting, findings):
    """Adds what the batches found, as they end; stops at once when a worker has died or a program does not end."""
    for number, batch in enumerate(as_completed(waiting)):
        try:
            findings.add(batch.result())
        except BrokenProcessPool:
            findings.check(GROUP, [f"a worker died: {len(waiting) - number} of {len(waiting)} batches are not compared"], b"")
            return
        except Exception:  # a fault in the tests themselves: it is shown, and the run has failed
            findings.check(GROUP, ["a comparison broke off"], b"", traceback.format_exc())
        if findings.hanging():
            return


def spread(tested, jobs, findings, batch=BATCH):
    """The comparisons over the workers. Long ones are dealt out among the batches, so that none takes much longer."""
    tested()  # what is missing is said here, once
    count = max(1, len(jobs) // batch)
    with ProcessPoolExecutor(int(setting("TESTS_WORKERS"))) as pool:
        gather([pool.submit(work, tested, jobs[start::count]) for start in range(count)], findings)
        pool.shutdown(cancel_futures=True)
