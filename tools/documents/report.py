"""The count of comparisons, and the faults that they found."""
import sys


class Report:
    """Counts comparisons and prints their faults."""

    def __init__(self, prints=True):
        self.passed, self.failed, self.prints = 0, 0, prints
        self.faults = []

    def judge(self, what, faults):
        """Counts a comparison, which failed if it has faults."""
        found = list(dict.fromkeys(faults))
        if found:
            self.failed += 1
        else:
            self.passed += 1
        for fault in found:
            self.note(f"{what}: {fault}")

    def note(self, fault):
        """Keeps a fault, and prints it."""
        self.faults.append(fault)
        if self.prints:
            print(f"documents: {fault}", file=sys.stderr)

    def add(self, other):
        """Adds the comparisons and faults of another report."""
        self.passed += other.passed
        self.failed += other.failed
        for fault in other.faults:
            self.note(fault)


def differences(in_page, in_sources):
    """Returns the faults of a reference: names that it lacks, and names that no source has."""
    found, wanted = set(in_page), set(in_sources)
    if not wanted:
        return ["no name was found in the sources"]
    faults = [f"the reference lacks {shown(it)}" for it in sorted(wanted - found, key=str)]
    return faults + [f"no source has {shown(it)}" for it in sorted(found - wanted, key=str)]


def shown(value):
    """Returns a name, or several with blanks between them."""
    return " ".join(str(it) for it in value) if isinstance(value, tuple) else str(value)
