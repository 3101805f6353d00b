"""Cases: the comparisons of a test, of which one that fails does not end it."""
from program import entries_of, run, tidy


class Cases:
    def __init__(self):
        # How many passed, failed, and were skipped.
        self.counts = [0, 0, 0]

    def equal(self, name, got, want):
        is_equal = got == want
        self.counts[0 if is_equal else 1] += 1
        if not is_equal:
            print(f"FAILED {name}\n  got  {short(got)}\n  want {short(want)}")

    def printed(self, name, text, want):
        """`tidy` prints the text like this, and `check` counts its entries, with status 0."""
        self.ran(name, tidy(text), want, b"", 0)
        self.ran(f"check: {name}", run(text, "check"), b"ok %d\n" % entries_of(want), b"", 0)

    def refused(self, name, text, fault_line):
        """`tidy` prints this line on standard error, `check` on standard output, with status 1."""
        self.ran(name, tidy(text), b"", fault_line + b"\n", 1)
        self.ran(f"check: {name}", run(text, "check"), fault_line + b"\n", b"", 1)

    def ran(self, name, ran, *want):
        self.equal(name, (ran.out, ran.err, ran.status), want)

    def skipped(self, name, why):
        """Counts a case that can't be tried here, and says why."""
        self.counts[2] += 1
        print(f"skipped {name}: {why}")


class Counts:
    """A plugin of pytest: counts cases. A test without any is one; so is what ends one early."""
    def __init__(self):
        self.all, self.broken, self.is_interrupted = (0, 0, 0), set(), False

    def add(self, *counts):
        self.all = tuple(map(sum, zip(self.all, counts)))

    def pytest_runtest_logreport(self, report):
        cases = dict(report.user_properties).get("cases", (0, 0, 0))
        if report.when == "call":
            self.add(*cases)
            passed, failed = report.passed and not any(cases), report.failed and not cases[1]
            self.add(passed, failed, report.skipped)
        elif not report.passed:
            self.add(0, report.failed, report.skipped)

    def pytest_keyboard_interrupt(self):
        self.is_interrupted = True

    def pytest_collectreport(self, report):
        # Each process reports it.
        if report.failed and report.nodeid not in self.broken:
            self.broken.add(report.nodeid)
            self.add(0, 1, 0)


def last_line(passed, failed, skipped):
    """The last line of a run."""
    return f"{passed} passed, {failed} failed" + (f", {skipped} skipped" if skipped else "")


def short(value):
    text = repr(value)
    return text if len(text) <= 400 else text[:200] + " .. " + text[-200:]
