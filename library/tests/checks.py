"""What the tests of the library count and tell."""

import os
import signal
import subprocess

SECONDS = 120


class Told:
    """How many checks passed, and which failed. What a machine lacks is told as skipped."""

    def __init__(self):
        self.passed, self.failed = 0, 0

    def check(self, what, holds, why=""):
        if holds:
            self.passed += 1
        else:
            self.failed += 1
            print("FAILED %s%s" % (what, ": " + why if why else ""))
        return holds

    def same(self, what, got, wanted):
        return self.check(what, got == wanted, "%.300r, not %.300r" % (got, wanted))

    def count(self, passed, wrong):
        """Checks that were made elsewhere, of which these lines tell the failed ones."""
        self.passed, self.failed = self.passed + passed, self.failed + len(wrong)
        print("".join("FAILED %s\n" % line for line in wrong), end="")

    def skip(self, what, why):
        print("skipped %s: %s" % (what, why))

    def ends_well(self, what, command, **options):
        """Whether a command ends with status 0; what it says where it does not."""
        status, out, err = ended(command, **options)
        return self.check(what, status == 0, "status %s\n%s%s" % (status, out.decode(errors="replace"), err.decode(errors="replace")))

    def last_line(self):
        print("%d passed, %d failed" % (self.passed, self.failed))
        return 1 if self.failed else 0


def ended(command, given=b"", seconds=SECONDS, **options):
    """The status, the output and the standard error of a command that is given this input."""
    child = subprocess.Popen(command, stdin=subprocess.PIPE, stdout=subprocess.PIPE, stderr=subprocess.PIPE, start_new_session=True, **options)
    try:
        out, err = child.communicate(given, timeout=seconds)
        return child.returncode, out, err
    except subprocess.TimeoutExpired:
        os.killpg(child.pid, signal.SIGKILL)
        return "no end", *child.communicate()
