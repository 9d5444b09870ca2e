"""harness: what the parts of tests/users share: running a tool, and counting what passed.

The program is that of PROGRAM in the environment, or ./bdevrun at the top.
"""

import importlib.machinery
import importlib.util
import io
import os
import shutil
import subprocess
import sys

TOP = os.path.dirname(os.path.dirname(os.path.dirname(os.path.realpath(__file__))))
PROGRAM = os.environ.get("PROGRAM") or f"{TOP}/bdevrun"
SECONDS = 120


class Stopped(Exception):
    """The first failure, where no more is asked for."""


class Checks:
    def __init__(self, stops=False):
        self.passed = self.failed = 0
        self.stops = stops

    def that(self, good, words):
        if good:
            self.passed += 1
        else:
            self.failed += 1
            print(f"tests/users: {words}", flush=True)
            if self.stops:
                raise Stopped

    def equal(self, given, wanted, words):
        self.that(given == wanted, f"{words}: {given!r:.400} in place of {wanted!r:.400}")

    def skip(self, words):
        print(f"tests/users: skipped: {words}", flush=True)


def run(*words, given=b"", folder=TOP, **more):
    """Runs a command: its status, and what it printed on standard output and standard error."""
    given = given.encode() if isinstance(given, str) else given
    try:
        ran = subprocess.run(words, input=given, capture_output=True, cwd=folder, timeout=SECONDS, **more)
    except subprocess.TimeoutExpired:
        return None, "", f"no end within {SECONDS} seconds"
    return ran.returncode, ran.stdout.decode(errors="replace"), ran.stderr.decode(errors="replace")


def called(name, *words, **more):
    """A tool, called as its users do."""
    return run(f"{TOP}/tools/{name}", *words, **more)


MODULES = {}


def tool(name, *words, given=b""):
    """A tool, called within this process, which takes a tenth of the time; at the top of the repository."""
    if name not in MODULES:
        loader = importlib.machinery.SourceFileLoader(f"tool_{name}", f"{TOP}/tools/{name}")
        MODULES[name] = importlib.util.module_from_spec(importlib.util.spec_from_loader(loader.name, loader))
        loader.exec_module(MODULES[name])
    given = given.encode() if isinstance(given, str) else given
    kept = sys.argv, sys.stdin, sys.stdout, sys.stderr
    out, err = io.StringIO(), io.StringIO()
    os.chdir(TOP)
    try:
        sys.argv, sys.stdin, sys.stdout, sys.stderr = [name, *words], io.TextIOWrapper(io.BytesIO(given)), out, err
        status = MODULES[name].main()
    finally:
        sys.argv, sys.stdin, sys.stdout, sys.stderr = kept
    return status, out.getvalue(), err.getvalue()


def program(*words, **more):
    return run(PROGRAM, *words, **more)


def there(name):
    return shutil.which(name) is not None


def read(name):
    with open(f"{TOP}/{name}", encoding="utf-8") as it:
        return it.read()


def write(name, text):
    with open(name, "w", encoding="utf-8") as it:
        it.write(text)
    return name
