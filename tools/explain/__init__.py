"""The parts of the tools that put names to what `rvcfi` tells in numbers. Nothing of them is trusted."""

import importlib.util
import os
import sys

MISSING = """%s needs pyelftools: apt-get install python3-pyelftools (and then /usr/bin/python3), or python3 -m pip install
pyelftools."""

if not importlib.util.find_spec("elftools"):
    sys.exit(MISSING % os.path.basename(sys.argv[0]))
