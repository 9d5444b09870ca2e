"""What a fault of the program means: the mistakes behind its line."""

import os
import resource
import stat

from . import words
from .files import Refused, bytes_of
from .mistakes import USAGE, first_of
from .places import counted, shown
from .rules import CHECK, NOT_FOUND, served_line
from .script import Script
from .verdict import Checked

MOST_SAID = 20


def same(line, other):
    """Whether two lines are one, where a shell left the bytes 0 out of the second."""
    return line.replace("\0", "").rstrip("\n") == other.rstrip("\n")


def can_be_read_again(name):
    """Whether a file says the same when it is read a second time, or can't be read at all."""
    try:
        mode = os.stat(name).st_mode
    except (OSError, ValueError):
        return True
    return stat.S_ISREG(mode) or stat.S_ISDIR(mode) or os.path.realpath(name) == os.devnull


def by_pipe(name, what):
    return ["%s came from %s, which can be read once; from a file its %s would be named" % (what[0], shown(name, 200), what[1])]


def refused_methods(mistakes):
    """What is said where methods aren't served: each command, and at the end what is served."""
    lines = [each.line() for each in mistakes[:MOST_SAID]]
    if len(mistakes) > MOST_SAID:
        left = {}
        for each in mistakes[MOST_SAID:]:
            method = each.text.split(": ")[0].split(", ")[1].split(" ")[0]
            left[method] = left.get(method, 0) + 1
        lines.append("and %s: %s" % (counted(len(mistakes) - MOST_SAID, "command more", "commands more"), ", ".join("%s (%d)" % item for item in left.items())))
    return [*lines, served_line()]


def is_of_method(mistake):
    return mistake.fault.endswith(": %d" % NOT_FOUND)


def lines_for(mistakes, line):
    """What is said of the mistakes that the program's line is about, and how many more there are."""
    first = first_of(mistakes)
    if first is None or not same(first.fault, line):
        return []
    if is_of_method(first):
        about = [each for each in mistakes if is_of_method(each)]
        lines = refused_methods(about)
    else:
        about = [each for each in mistakes if each.order == first.order and each.fault == first.fault]
        lines = [each.line() for each in about[:MOST_SAID]]
    left = len(mistakes) - len(about)
    return [*lines, *(["%s: %s names them all" % (counted(left, "mistake more", "mistakes more"), CHECK)] if left else [])]


def of_memory():
    limit = resource.getrlimit(resource.RLIMIT_AS)[0]
    said = "there was no memory left for the run: its memory devices, requests and threads take it"
    return [said + ("" if limit == resource.RLIM_INFINITY else "; ulimit -v allows %d KiB" % (limit // 1024))]


def of_words(given, line):
    if not same(USAGE, line):
        return []
    try:
        words.read(given)
    except words.NotAsked as no:
        return [no.why]
    return []


def of_run(asked, line):
    """The reason for a run's line: nothing where it isn't sure."""
    again = [can_be_read_again(asked.config), can_be_read_again(asked.jobs)]
    if line.startswith("configuration "):
        if not again[0]:
            return by_pipe(asked.config, ("the configuration", "line and column"))
        if not again[1]:
            return lines_for(Checked(asked.config, lambda: bytes_of(asked.config)).mistakes, line)
    elif line.startswith("script line "):
        if not again[1]:
            return by_pipe(asked.jobs, ("the script", "line"))
        try:
            return lines_for(Script(asked.jobs, bytes_of(asked.jobs), asked.threads).mistakes, line)
        except Refused:
            return []
    elif not all(again):
        return []
    both = Checked(asked.config, lambda: bytes_of(asked.config), asked.jobs, lambda: bytes_of(asked.jobs), asked.threads)
    return lines_for(both.mistakes, line)


def reason(status, line, given):
    """What is printed below the program's line, where it ended with this status on these words."""
    if status == 2:
        return of_words(given, line)
    if (status, line) == (3, "write fault"):
        return ["standard output took no more bytes: the disk is full, the reader of the pipe ended, or it is closed"]
    if (status, line) == (4, "out of memory"):
        return of_memory()
    try:
        asked = words.read(given)
    except words.NotAsked:
        return []
    if asked.command != "run" or status not in (1, 3):
        return []
    return of_run(asked, line)
