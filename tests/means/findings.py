"""What a run has found: comparisons that passed, failures with what shows them, and counts for the report."""

from collections import Counter

from means.programs import HANGS

SHOWN = 3  # failures of a group that are printed in full, the smallest files first
LONGEST_SHOWN = 13_203  # bytes of a file that are printed


def as_text(content):
    """The bytes of a file for a reader: as they are where that can be seen, else with escapes."""
    content = content[:LONGEST_SHOWN]
    plain = all(byte == 10 or 32 <= byte < 127 for byte in content)
    return content.decode("ascii") if plain else repr(content) + "\n"


def by_number(counted):
    """Names that begin with a number stand in its order, before the others."""
    first = counted[0].split()[0]
    return (0, int(first), "") if first.isdigit() else (1, 0, counted[0])


class Findings:
    """Counts that can be added up; workers hand them back."""

    def __init__(self):
        self.passed = Counter()
        self.apart = Counter()
        self.failures = []
        self.left_out = []
        self.tally = Counter()

    def check(self, group, faults, content, note=""):
        """One comparison: passed if there are no faults. The content of the file and the note are printed with a failure."""
        if faults:
            self.failures.append((group, list(faults), content, note))
        else:
            self.passed[group] += 1

    def check_apart(self, group, faults, content, note=""):
        """Something that runs nothing of what is tested: it can fail the run, and is not counted as passed."""
        if faults:
            self.check(group, faults, content, note)
        else:
            self.apart[group] += 1

    def leave_out(self, what):
        """Something that is not run because someone chose so; it is said where it would run and at the end."""
        self.left_out.append(what)
        print(f"LEFT OUT: {what}", flush=True)

    def count(self, title, what):
        """Counts for the report, under a title."""
        self.tally[title, str(what)] += 1

    def add(self, other):
        self.passed.update(other.passed)
        self.apart.update(other.apart)
        self.failures += other.failures
        self.tally.update(other.tally)

    def total(self):
        return sum(self.passed.values())

    def events(self):
        """How much has passed, failed or been left out so far."""
        return self.total() + len(self.failures) + len(self.left_out)

    def groups(self):
        return sorted({*self.passed, *(failure[0] for failure in self.failures)})

    def hanging(self):
        """Whether some start of a program did not end."""
        return any(HANGS in fault for _, faults, _, _ in self.failures for fault in faults)

    def failed(self, group):
        return [failure for failure in self.failures if failure[0] == group]

    def print_tally(self):
        """One line for each title."""
        for title in sorted({title for title, _ in self.tally}):
            counts = sorted(((what, count) for (t, what), count in self.tally.items() if t == title), key=by_number)
            print(f"  {title}: " + ", ".join(f"{what} {count:,}" for what, count in counts))

    def print_failures(self, group):
        for _, faults, content, note in sorted(self.failed(group), key=lambda failure: len(failure[2]))[:SHOWN]:
            print(f"\nFAILED, {group}: {'; '.join(faults)}")
            if note:
                print(note)
            if content:
                print(f"the file ({len(content):,} bytes):\n{as_text(content)}", end="")
        if len(self.failed(group)) > SHOWN:
            print(f"\n.. and {len(self.failed(group)) - SHOWN:,} more failures of this kind")

    def print_all(self):
        """The report; the last line has the sums. Returns whether something passed and nothing failed."""
        self.print_tally()
        for group in self.groups():
            self.print_failures(group)
        print()
        for group, count in sorted(self.apart.items()):
            print(f"not counted (runs nothing of what is tested), {group}: {count:,} held")
        for group in self.groups():
            print(f"{group}: {self.passed[group]:,} passed, {len(self.failed(group)):,} failed")
        for what in self.left_out:
            print(f"LEFT OUT: {what}")
        print(f"{self.total()} passed, {len(self.failures)} failed")
        return self.total() > 0 and not self.failures
