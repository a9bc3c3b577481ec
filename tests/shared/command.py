"""The command lines of scripts that ask the built program."""

import argparse
import os
import sys

from tests.shared.paths import PROGRAM


class Words(argparse.ArgumentParser):
    """The words of a script with this page, and the program that it asks, which has to be there."""

    def __init__(self, page):
        super().__init__(description=page, formatter_class=argparse.RawDescriptionHelpFormatter)
        self.add_argument("--program", default=PROGRAM)

    def parse_args(self, *given):
        options = super().parse_args(*given)
        options.program = os.path.abspath(options.program)
        if not os.access(options.program, os.X_OK):
            sys.exit("%s is not there: cd crates/rvcfi && rt run -- verify data/a.img data/a.graph" % options.program)
        return options
