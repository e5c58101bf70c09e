"""Looks at what something gives, which are counted; what comes otherwise than it has to is printed."""
import sys


class Looks:
    """How many looks there were, and how many showed something else."""

    def __init__(self):
        self.count = self.wrong = 0

    def tell(self, says, wanted, came):
        self.count += 1
        if wanted != came:
            self.differs(says, wanted, came)

    def differs(self, says, wanted, came):
        self.wrong += 1
        print("%s\n  wanted: %.800r\n  came:   %.800r" % (says, wanted, came))

    def end(self, what="looks"):
        """Ends the script, with 1 if something differs."""
        print("%d %s, %d differences" % (self.count, what, self.wrong))
        sys.exit(1 if self.wrong else 0)
