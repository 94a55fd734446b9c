"""The words of a tool in Python: its head, the text in front of its code, is what --help shows."""

import argparse


class Parser(argparse.ArgumentParser):
    """A parser that shows a tool's own head in place of a usage that is made up."""

    def __init__(self, head):
        super().__init__(description=head, formatter_class=argparse.RawDescriptionHelpFormatter, usage=argparse.SUPPRESS)

    def error(self, message):
        self.exit(2, "%s: %s (--help tells more)\n" % (self.prog, message))
