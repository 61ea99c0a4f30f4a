"""What was checked: a line for each check, and at last how many passed and how many failed."""
import time


class Report:
    """Each line begins with the seconds since the report began."""

    def __init__(self):
        self.began = time.monotonic()
        self.passed = 0
        self.failed = 0

    def say(self, text):
        print(f"{time.monotonic() - self.began:7.1f} {text}", flush=True)

    def check(self, what, is_right, found=""):
        """A check, and what was found where it fails."""
        if is_right:
            self.passed += 1
            self.say(f"ok     {what}")
        else:
            self.failed += 1
            self.say(f"FAILED {what}: {found}")

    def equals(self, what, found, wanted):
        self.check(what, found == wanted, f"{found!r}, not {wanted!r}")

    def has(self, what, text, *wanted):
        """A check that each of these stands in a text."""
        self.check(what, all(word in text for word in wanted), text)

    def tell(self, text):
        """Prints what is no check."""
        for line in text.strip().splitlines():
            self.say(f"       {line}")


def end(*reports):
    """Prints how many checks of these reports passed and how many failed. The status of a trial."""
    passed = sum(one.passed for one in reports)
    failed = sum(one.failed for one in reports)
    print(f"{passed} passed, {failed} failed")
    return 1 if failed or not passed else 0
