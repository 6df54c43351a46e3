"""What a part of the runs counts, and what it waits for."""

import re
import sys
import time

from program_runs.report import Report

# nothing takes so many seconds, whatever else the machine does
LIMIT = 120


class Checks(Report):
    """Counts what was looked at, and the differences."""

    def __init__(self, name):
        super().__init__(name)
        self.count = 0

    def same(self, name, wanted, got):
        self.count += 1
        self.expect_same(name, wanted, got)

    def raises(self, name, wanted, pattern, call):
        """The call raises such an error, and says what fits the pattern."""
        self.count += 1
        try:
            got = call()
        except wanted as error:
            if not re.search(pattern, str(error)):
                self.expect_same(name, pattern, str(error))
        else:
            self.expect_same(name, wanted.__name__, got)

    def comes(self, name, holds):
        """It holds before long; and how many seconds that took."""
        start = time.monotonic()
        while not holds() and time.monotonic() - start < LIMIT:
            time.sleep(0.05)
        self.same(name, True, holds())
        return time.monotonic() - start

    def end(self):
        sys.exit(self.close(self.count))
