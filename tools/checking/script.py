"""Reads a script: each line that isn't a command, with the word that is wrong."""

import re

from .mistakes import JOBS_TEXT, Mistake
from .places import counted, listed, quoted, shown
from .rules import MOST_LINES, MOST_THREADS, U64, meant

NAME = re.compile(rb"[A-Za-z0-9_-]{1,32}")
DEVICE = re.compile(rb"[!-~]{1,255}")
WORDS = re.compile(rb"[^ \t]+")

# Of each command the words after it.
COMMANDS = {
    "open": ("HANDLE", "DEVICE", "MODE"),
    "close": ("HANDLE",),
    "claim": ("HANDLE", "KIND"),
    "read": ("HANDLE", "LBA", "COUNT"),
    "write": ("HANDLE", "LBA", "COUNT", "SEED"),
    "zeroes": ("HANDLE", "LBA", "COUNT"),
    "unmap": ("HANDLE", "LBA", "COUNT"),
    "flush": ("HANDLE", "LBA", "COUNT"),
    "remove": ("DEVICE",),
    "gone": ("HANDLE",),
    "resize": ("DEVICE", "BLOCKS"),
    "sized": ("HANDLE", "BLOCKS"),
    "wait": (),
    "post": ("MARK",),
    "await": ("MARK",),
    "sleep": ("MICROS",),
    "reset": ("HANDLE",),
    "abort": ("HANDLE", "LINE"),
}
SUBMITS = ("read", "write", "zeroes", "unmap", "flush", "reset", "abort")
NUMBERS = ("LBA", "COUNT", "SEED", "KEY", "LINE", "MICROS", "BLOCKS")
CLAIMS = ("exclusive", "one", "none", "shared")


def number(word):
    """The number that a word is; None where it is none."""
    if not re.fullmatch(rb"0|[1-9][0-9]{0,19}", word):
        return None
    value = int(word)
    return value if value <= U64 else None


def text_of(word):
    return word.decode(errors="backslashreplace")


def no_number(word):
    """Why a word is no number."""
    text = text_of(word)
    if re.fullmatch(r"0[0-9]+", text):
        return "a number has no leading zero"
    if re.fullmatch(r"[0-9]+", text):
        return "a number is at most %d" % U64
    if re.fullmatch(r"0[xX][0-9a-fA-F]+", text):
        value = int(text, 16)
        return "a number is decimal" + (": %d" % value if value <= U64 else "")
    if re.fullmatch(r"[0-9]+[kKmMgGbB].*", text):
        return "a number has no unit; LBA, COUNT and BLOCKS are numbers of blocks"
    if re.fullmatch(r"-[0-9]+", text):
        return "a number isn't below 0"
    if re.fullmatch(r"[0-9]*[.][0-9]*|[0-9.]+[eE][+-]?[0-9]+", text):
        return "a number is whole, in decimal digits alone"
    return "a number is decimal digits without a leading zero"


class Wrong(Exception):
    """The word of this place is wrong; the place after the last one where one is missing."""

    def __init__(self, place, why):
        super().__init__(why)
        self.place = place
        self.why = why


class Script:
    """What a script's bytes say for a number of threads. `commands` are the lines that are in the grammar: number, thread, words."""

    def __init__(self, name, content, threads):
        self.name = name
        self.threads = threads
        self.mistakes = []
        self.commands = []
        self.columns = {}  # of lines that are commands, where they begin
        self.submitted = set()
        lines = content.split(b"\n")
        last = lines.pop()
        lines = [line[:-1] if line.endswith(b"\r") else line for line in lines] + ([last] if last else [])
        for place, line in enumerate(lines[:MOST_LINES], 1):
            self.line(place, line)
        if len(lines) > MOST_LINES:
            said = "the script has %d lines, those without a command too; there are at most %d" % (len(lines), MOST_LINES)
            self.add(JOBS_TEXT, MOST_LINES + 1, lines[MOST_LINES], 0, said)

    def add(self, order, place, line, column, said):
        text = shown(text_of(line), 100)
        before = len(shown(text_of(line[:column]), 100))
        pointed = "\n    %s\n    %s^" % (text, " " * before) if text and before < 100 else ""
        at = (self.name, (place, len(line[:column].decode(errors="replace")) + 1))
        self.mistakes.append(Mistake((order, place), "script line %d" % place, 1, said + pointed, at, place))

    def line(self, place, line):
        words = [(each.start(), each.group()) for each in WORDS.finditer(line)]
        if line.startswith(b"#") or not words:
            return
        try:
            self.command(place, [word for _, word in words])
        except Wrong as wrong:
            column = words[wrong.place][0] if wrong.place < len(words) else len(line.rstrip(b" \t"))
            self.add(JOBS_TEXT, place, line, column, wrong.why)
            return
        word = text_of(words[1][1])
        thread = number(words[0][1])
        self.columns[place] = words[0][0] + 1
        self.commands.append((place, thread, [text_of(each) for _, each in words[1:]]))
        if word in SUBMITS:
            self.submitted.add((thread, place))

    def command(self, place, words):
        """Raises what is wrong first with a line's words."""
        thread = self.thread(place, words)
        if len(words) < 2:
            raise Wrong(1, "the line ends after the thread's number; a command is %s" % listed(list(COMMANDS)))
        word = text_of(words[1])
        if word not in COMMANDS:
            close = meant(word.lower(), COMMANDS)
            raise Wrong(1, "%s is no command%s; a command is %s" % (quoted(word), "; '%s' is meant, it seems" % close if close else "", listed(list(COMMANDS))))
        wanted = COMMANDS[word]
        if word == "claim" and words[3:4] == [b"shared"]:
            wanted = ("HANDLE", "KIND", "KEY")
        if word == "reset" and len(words) > 3:
            wanted = ("HANDLE", "MICROS")
        form = " ".join([word, *wanted])
        for i, kind in enumerate(wanted, 2):
            if i >= len(words):
                missing = wanted[i - 2 :]
                raise Wrong(i, "%s %s missing; the form is '%s'%s" % (listed(missing, "and"), "is" if len(missing) == 1 else "are", form, self.may(missing[0])))
            self.word(i, kind, words[i], form)
        if word == "abort" and (thread, number(words[3])) not in self.submitted:
            said = "LINE is %s; it must be the number of an earlier line of thread %d that is a %s"
            raise Wrong(3, said % (text_of(words[3]), thread, listed(SUBMITS)))
        if len(words) > len(wanted) + 2:
            extra = text_of(words[len(wanted) + 2])
            more = ": a comment has a line of its own, which begins with #" if extra.startswith("#") else ""
            raise Wrong(len(wanted) + 2, "%s stands after the command; the form is '%s'%s" % (quoted(extra), form, more))

    def thread(self, place, words):
        first = text_of(words[0])
        thread = number(words[0])
        if thread is None:
            if place == 1 and words[0].startswith(b"\xef\xbb\xbf"):
                raise Wrong(0, "the file begins with a byte order mark, which a script doesn't have: save it as UTF-8 without one")
            if words[0][:2] in (b"\xff\xfe", b"\xfe\xff"):
                raise Wrong(0, "the file is UTF-16, it seems; a script has one byte a character")
            if place == 1 and first.startswith("{"):
                raise Wrong(0, "this is a configuration, it seems; the script comes after it, and its lines begin with the thread's number")
            if first in COMMANDS:
                raise Wrong(0, "the thread's number is missing; the line begins with it, as '0 %s'" % first)
            raise Wrong(0, "the thread's number is %s: %s" % (quoted(first), no_number(words[0])))
        if thread >= self.threads:
            if thread >= MOST_THREADS:
                raise Wrong(0, "the thread's number is %d; it must be from 0 to %d, as there are at most %d threads" % (thread, MOST_THREADS - 1, MOST_THREADS))
            have = "there is one thread, 0" if self.threads == 1 else "there are %d threads, 0 to %d" % (self.threads, self.threads - 1)
            raise Wrong(0, "the thread's number is %d, and %s: it needs --threads %d or more" % (thread, have, thread + 1))
        return thread

    def may(self, kind):
        """What may stand for a word."""
        if kind == "MODE":
            return ", where MODE is r (reading) or w (reading and writing)"
        if kind == "KIND":
            return ", where KIND is exclusive, one, none or shared KEY"
        if kind in NUMBERS:
            return ", where %s is a number" % kind
        return ""

    def word(self, place, kind, word, form):
        """Raises why a word isn't of its kind."""
        text = text_of(word)
        if kind in ("HANDLE", "MARK") and not NAME.fullmatch(word):
            why = "it is %s long" % counted(len(word), "byte") if len(word) > 32 else "it is %s" % quoted(text)
            raise Wrong(place, "%s has 1 to 32 characters: ASCII letters, digits, _ and -; %s" % (kind, why))
        if kind == "DEVICE" and not DEVICE.fullmatch(word):
            why = "it is %s long" % counted(len(word), "byte") if len(word) > 255 else "it is %s" % quoted(text)
            raise Wrong(place, "DEVICE has 1 to 255 printable ASCII characters; %s" % why)
        if kind == "MODE" and text not in ("r", "w"):
            raise Wrong(place, "MODE is %s; it must be r (reading) or w (reading and writing)" % quoted(text))
        if kind == "KIND" and text not in CLAIMS:
            close = meant(text.lower(), CLAIMS)
            more = "; '%s' is meant, it seems" % close if close else ""
            raise Wrong(place, "KIND is %s%s; it must be exclusive, one, none or shared KEY" % (quoted(text), more))
        if kind in NUMBERS and number(word) is None:
            raise Wrong(place, "%s is %s: %s; it must be from 0 to %d" % (kind, quoted(text), no_number(word), U64))
