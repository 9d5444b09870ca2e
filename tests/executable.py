"""The executable that the tests run."""

import os
import subprocess
import sys

TOP = os.path.dirname(os.path.dirname(os.path.abspath(__file__)))


def executable():
    """Returns the name of the one that PROGRAM in the environment names, or else of the one that belongs to the sources as they
    stand, which is made first where there is none. Ends with 125 where there is none and it can't be made."""
    program = os.environ.get("PROGRAM")
    if not program:
        found = subprocess.run([os.path.join(TOP, "tools", "executable")], stdout=subprocess.PIPE, text=True)
        program = found.stdout.strip()
        if found.returncode != 0:
            sys.exit(125)
    if not os.access(program, os.X_OK):
        print("tests: no executable: %s" % program, file=sys.stderr)
        sys.exit(125)
    return os.path.abspath(program)
