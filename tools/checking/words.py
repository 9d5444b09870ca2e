"""Reads the words of a command line as the program does, and says what is wrong with those that it doesn't take."""

import re

from .places import listed, quoted
from .rules import MOST_REACTORS, MOST_THREADS, MOST_WORK, U64, meant

COMMANDS = ("run", "exercise", "generate", "--help", "--version")
OPTIONS = {"--threads": (1, MOST_THREADS), "--reactors": (1, MOST_REACTORS), "--schedule": (0, U64)}
FORMS = {
    "run": "run CONFIG JOBS [--threads N] [--reactors N | --schedule N]",
    "exercise": "exercise N [--threads N] [--reactors N | --schedule N]",
    "generate": "generate N [--threads N]",
}


class Asked:
    """What words ask: the command, its files or its number, and its options."""

    def __init__(self, command, config=None, jobs=None, threads=1):
        self.command = command
        self.config = config
        self.jobs = jobs
        self.threads = threads


class NotAsked(Exception):
    """The words aren't in the program's grammar: what was meant."""

    def __init__(self, why):
        super().__init__(why)
        self.why = why


def number(word):
    return int(word) if re.fullmatch("0|[1-9][0-9]{0,19}", word) and int(word) <= U64 else None


def is_text(word):
    """Whether a word is UTF-8: Python has the bytes that aren't as half characters."""
    try:
        word.encode()
    except UnicodeEncodeError:
        return False
    return True


def command_line(words):
    """Words as they are typed."""
    return " ".join(["bdevrun", *(word if re.fullmatch(r"[A-Za-z0-9_./=+:,@%-]+", word) else "'%s'" % word.replace("'", "'\\''") for word in words)])


def read(words):
    """What the words ask."""
    for place, word in enumerate(words, 1):
        if not is_text(word):
            raise NotAsked("word %d, %s, isn't UTF-8; a link with another name reaches the file" % (place, quoted(word.encode(errors="surrogateescape").decode(errors="backslashreplace"))))
    if not words:
        raise NotAsked("there are no words; the first is run, exercise, generate, --help or --version")
    first = words[0]
    if first in ("--help", "--version"):
        if len(words) > 1:
            raise NotAsked("%s stands alone; %s stands after it" % (first, quoted(words[1])))
        return Asked(first)
    helps(words)
    if first not in FORMS:
        not_a_command(words)
    if first == "run":
        return run(words)
    if len(words) == 1:
        raise NotAsked("%s takes a number from 1 to %d after it" % (first, MOST_WORK))
    value = number(words[1])
    if value is None or not 1 <= value <= MOST_WORK:
        if words[1].startswith("-"):
            raise NotAsked("the number comes first, and then options: %s" % FORMS[first])
        raise NotAsked("N of %s is %s; it must be a whole number from 1 to %d" % (first, quoted(words[1]), MOST_WORK))
    return Asked(first, threads=options(words, 2)["--threads"])


def helps(words):
    """Raises what is said where help or the version is asked for in another way."""
    for word in words:
        if word in ("-h", "-?", "-help", "--usage") or word == "help" and words[0] == word or word == "--help":
            raise NotAsked("%s stands for help, it seems: 'bdevrun --help' prints it, with no other word" % quoted(word))
        if word in ("-V", "-v", "-version") or word == "version" and words[0] == word or word == "--version":
            raise NotAsked("%s stands for the version, it seems: 'bdevrun --version' prints it, with no other word" % quoted(word))


def not_a_command(words):
    first = words[0]
    if first.startswith("-"):
        command = next((word for word in words if word in FORMS), None)
        if command:
            raise NotAsked("%s stands before %s; options come last: %s" % (quoted(first), command, FORMS[command]))
        raise NotAsked("the first word is %s; it must be %s" % (quoted(first), listed(COMMANDS)))
    close = meant(first.lower(), COMMANDS)
    if close:
        raise NotAsked("the first word is %s; '%s' is meant, it seems" % (quoted(first), close))
    if len(words) >= 2 and not words[1].startswith("-"):
        raise NotAsked("the first word is %s; it must be %s: 'run' is missing before the files, it seems" % (quoted(first), listed(COMMANDS)))
    raise NotAsked("the first word is %s; it must be %s" % (quoted(first), listed(COMMANDS)))


def sorted_words(words):
    """The words of a run with its files first; None where they aren't two files and options."""
    files, rest, i = [], [], 1
    while i < len(words):
        if words[i] in OPTIONS and i + 1 < len(words):
            rest += words[i : i + 2]
            i += 2
        elif words[i].startswith("-") or not words[i]:
            return None
        else:
            files.append(words[i])
            i += 1
    return ["run", *files, *rest] if len(files) == 2 and words != ["run", *files, *rest] else None


def run(words):
    for place, what in ((1, "CONFIG"), (2, "JOBS")):
        if len(words) <= place:
            missing = "CONFIG and JOBS, the names of two files, are missing" if place == 1 else "JOBS, the name of the script, is missing"
            raise NotAsked("%s; the form is %s" % (missing, FORMS["run"]))
        word = words[place]
        if not word:
            raise NotAsked("%s is empty; it must be the name of a file" % what)
        if word == "-":
            raise NotAsked("%s is '-', which is no name of a file; standard input is /dev/stdin" % what)
        if word.startswith("-"):
            better = sorted_words(words)
            if better:
                raise NotAsked("%s stands before the files; options come last: %s" % (quoted(word), command_line(better)))
            if word.partition("=")[0] in OPTIONS:
                raise NotAsked("%s stands where %s is expected; options come last, each with its number as a word of its own: %s" % (quoted(word), what, FORMS["run"]))
            raise NotAsked("%s is %s; a name of a file that begins with - is written as ./%s" % (what, quoted(word), word))
    return Asked("run", words[1], words[2], options(words, 3)["--threads"])


def options(words, begin):
    """The options from a place on, with their numbers."""
    command = words[0]
    allowed = ("--threads",) if command == "generate" else tuple(OPTIONS)
    found = {"--threads": 1}
    seen = set()
    i = begin
    while i < len(words):
        word = words[i]
        name, equals, rest = word.partition("=")
        if equals and name in OPTIONS:
            raise NotAsked("%s has its number after a space: %s %s" % (quoted(word), name, rest or "N"))
        if word not in OPTIONS:
            close = meant(word, OPTIONS) if word.startswith("-") else None
            if close:
                raise NotAsked("%s is no option; '%s' is meant, it seems" % (quoted(word), close))
            if word.startswith("-"):
                raise NotAsked("%s is no option; those are %s" % (quoted(word), listed(allowed, "and")))
            more = "; a name with a space in it stands in quotes" if command == "run" else ""
            raise NotAsked("%s is one word too many; the form is %s%s" % (quoted(word), FORMS[command], more))
        if word not in allowed:
            raise NotAsked("%s is no option of %s, which takes %s alone" % (word, command, listed(allowed, "and")))
        if word in seen:
            raise NotAsked("%s stands twice" % word)
        if i + 1 == len(words):
            raise NotAsked("the number after %s is missing; it is from %d to %d" % (word, *OPTIONS[word]))
        value = number(words[i + 1])
        least, most = OPTIONS[word]
        if value is None or not least <= value <= most:
            raise NotAsked("%s is %s; it must be a whole number from %d to %d" % (word, quoted(words[i + 1]), least, most))
        found[word] = value
        seen.add(word)
        if {"--reactors", "--schedule"} <= seen:
            raise NotAsked("--reactors and --schedule don't stand beside each other: with a schedule there are no reactors")
        i += 2
    return found
