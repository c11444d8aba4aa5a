"""Checks that are counted. What came otherwise than it was wanted is printed."""


def difference(got, wanted):
    """What is other in what came, in few words: of lists of one length, what is other in the first that is."""
    if isinstance(got, (list, tuple)) and isinstance(wanted, (list, tuple)) and len(got) == len(wanted):
        return next((difference(*pair) for pair in zip(got, wanted) if pair[0] != pair[1]), f"{got} {wanted}")
    if isinstance(got, (list, tuple)) and isinstance(wanted, (list, tuple)):
        at = next((at for at, pair in enumerate(zip(got, wanted)) if pair[0] != pair[1]), min(len(got), len(wanted)))
        return f"from {at} on {got[at:at + 4]!r:.300} in place of {wanted[at:at + 4]!r:.300}"
    if isinstance(got, bytes) and isinstance(wanted, bytes) and len(got) + len(wanted) > 200:
        at = next((at for at, pair in enumerate(zip(got, wanted)) if pair[0] != pair[1]), min(len(got), len(wanted)))
        return (f"{len(got)} bytes in place of {len(wanted)}, and from {at} on {got[at:at + 20].hex()} "
                f"in place of {wanted[at:at + 20].hex()}")
    return f"{got!r:.600} in place of {wanted!r:.600}"


class Checks:
    """Counts what is as it is wanted, and prints what is otherwise."""

    def __init__(self):
        self.passed = self.failed = 0
        self.group = ""

    def check(self, what, holds, *shown):
        if holds:
            self.passed += 1
        else:
            self.failed += 1
            print(f"{self.group}: {what}:", *shown)

    def same(self, what, got, wanted):
        self.check(what, got == wanted, difference(got, wanted))

    def no_faults_of(self, group, faults, most=None):
        """A group of checks, counted as one."""
        self.group = group
        self.no_faults(faults, most)

    def no_faults(self, faults, most=None):
        """Counts a group of checks as one, by what is wrong in it. So many of the faults are printed."""
        faults = list(faults)
        self.passed += not faults
        self.failed += bool(faults)
        self.tell(faults, most)

    def tell(self, faults, most=None):
        """Prints so many of the faults, and how many there are besides. They are counted elsewhere."""
        for fault in faults[:most]:
            print(f"{self.group}: {fault}")
        if len(faults[:most]) < len(faults):
            print(f"{self.group}: {len(faults) - most} more")

    def ended(self):
        """Says how many passed and failed, and gives the status: 0 if some passed and none failed."""
        print(f"{self.passed} passed, {self.failed} failed")
        return int(self.failed > 0 or self.passed == 0)
