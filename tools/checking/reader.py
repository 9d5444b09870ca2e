"""Reads JSON as the program does, and keeps where each value stands.

`read(text)` gives the value of a text, or raises `NotJson` at the first character that doesn't fit. `read_on(text)` goes on after
slips that can be mended without doubt, as a comma too many, so that what is wrong after them is found too.
"""

import re

MOST_DEPTH = 127
MOST_MENDS = 50
# So many characters are read at most to find slips after the first.
MOST_READ = 4000000
LEAST_WHOLE, MOST_WHOLE = -(1 << 63), (1 << 64) - 1

BLANK = frozenset(" \t\n\r")
BLANKS = re.compile(r"[ \t\n\r]*")
GOES_ON = re.compile(r"[ \t\n\r]*,[ \t\n\r]*(?![ \t\n\r\]}])")
COLON = re.compile(r"[ \t\n\r]*:[ \t\n\r]*")
PLAIN = re.compile(r'"[^"\\\x00-\x1f]*"')
CHARACTERS = re.compile(r'[^"\\\x00-\x1f]*')
NUMBER = re.compile(r"-?(?:0|[1-9][0-9]*)(?:\.[0-9]+)?(?:[eE][+-]?[0-9]+)?")
WHOLE = re.compile(r"-?[0-9]+")
UNIT = re.compile(r"[0-9a-fA-F]{4}")
WORD = re.compile(r"[A-Za-z_$][A-Za-z0-9_$]*")
NUMBER_LIKE = re.compile(r"[+.]?[0-9][0-9A-Za-z_.+-]*|[+-][A-Za-z0-9.]*")
NUMBER_WORD = re.compile(r"[0-9A-Za-z_.+-]+")
COMMENT = re.compile(r"//[^\n]*|#[^\n]*|/\*.*?\*/", re.DOTALL)
SINGLE = re.compile(r"'[^'\"\\\n]*'")

ESCAPES = {'"': '"', "\\": "\\", "/": "/", "b": "\b", "f": "\f", "n": "\n", "r": "\r", "t": "\t"}
LITERALS = {"true": True, "false": False, "null": None}
MEANT = {"True": "true", "TRUE": "true", "False": "false", "FALSE": "false", "None": "null", "NULL": "null", "nil": "null", "undefined": "null"}


class NotJson(Exception):
    """A text isn't JSON: where, why, and the replacement of a piece by which reading can go on, if there is one."""

    def __init__(self, at, why, mend=None):
        super().__init__(why)
        self.at = at
        self.why = why
        self.mend = mend


class Node:
    """A value: its kind, what it holds, and from where to where it stands.

    Kinds are object (a dict of nodes, the last of each key), array (a list of nodes), text, whole (a number of digits alone that
    fits in 64 bits), number (any other), true, false and null.
    """

    __slots__ = ("kind", "value", "begin", "end")

    def __init__(self, kind, value, begin, end):
        self.kind = kind
        self.value = value
        self.begin = begin
        self.end = end

    def get(self, key):
        """The value under a key; None where this is no object, or has no such key."""
        return self.value.get(key) if self.kind == "object" else None


class Reader:
    def __init__(self, text):
        self.text = text
        self.at = 0
        self.twice = []  # each key that stands again in its object: its text, and where it stands

    def blanks(self):
        if self.text[self.at : self.at + 1] in BLANK:
            self.at = BLANKS.match(self.text, self.at).end()

    def peek(self):
        return self.text[self.at : self.at + 1]

    def whole_text(self):
        if self.text.startswith("\ufeff"):
            raise NotJson(0, "the file begins with a byte order mark, which JSON doesn't have: save it as UTF-8 without one", (0, 1, " "))
        self.blanks()
        if not self.peek():
            raise NotJson(self.at, "there is no value: the file is empty or has only blanks")
        value = self.value(0, None)
        self.blanks()
        if self.peek():
            self.comment()
            raise NotJson(self.at, "something stands after the value, which ended before")
        return value

    def comment(self):
        """Refuses a comment that stands here."""
        found = COMMENT.match(self.text, self.at)
        if found:
            raise NotJson(self.at, "JSON has no comments", (found.start(), found.end(), " "))

    def ends(self, opened):
        where = self.text.count("\n", 0, opened) + 1, opened - self.text.rfind("\n", 0, opened)
        return NotJson(self.at, "the file ends here, before the %s of line %d, column %d is closed" % (self.text[opened], *where))

    def value(self, depth, opened):
        begin = self.at
        first = self.text[begin : begin + 1]
        if first == '"':
            return Node("text", self.string(), begin, self.at)
        if first == "{":
            return self.object(depth)
        if first == "[":
            return self.array(depth)
        found = NUMBER.match(self.text, self.at)
        if found:
            return self.number(found)
        for word, kind in (("true", "true"), ("false", "false"), ("null", "null")):
            if self.text.startswith(word, self.at):
                self.at += len(word)
                return Node(kind, LITERALS[word], self.at - len(word), self.at)
        raise self.no_value(opened)

    def no_value(self, opened):
        """What is said where no value begins."""
        begin, first = self.at, self.peek()
        if not first:
            return self.ends(opened) if opened is not None else NotJson(begin, "the file ends here, and there is no value")
        self.comment()
        if SINGLE.match(self.text, begin):
            end = SINGLE.match(self.text, begin).end()
            return NotJson(begin, "a text stands in double quotes, not in single ones", (begin, end, '"' + self.text[begin + 1 : end - 1] + '"'))
        found = NUMBER_LIKE.match(self.text, begin)
        if found:
            return NotJson(begin, "a number has digits first, after a - where it is below zero", None)
        found = WORD.match(self.text, begin)
        if found:
            meant = MEANT.get(found.group())
            said = "a value is true, false, null, a number, a text in double quotes, an array or an object; this is none"
            return NotJson(begin, said + (": %s is meant, it seems" % meant if meant else ""), meant and (begin, found.end(), meant))
        return NotJson(begin, "a value is expected here")

    def number(self, found):
        token, begin = found.group(), self.at
        self.at = found.end()
        if WHOLE.fullmatch(token) and token != "-0" and len(token) <= 20 and LEAST_WHOLE <= int(token) <= MOST_WHOLE:
            node = Node("whole", int(token), begin, self.at)
        elif float(token) in (float("inf"), float("-inf")):
            raise NotJson(begin, "the number is larger than readers of JSON take")
        else:
            node = Node("number", None, begin, self.at)
        if self.peek() and (self.peek().isalnum() or self.peek() in "._+-"):
            whole_word = NUMBER_WORD.match(self.text, begin)
            said = "a number has digits without a leading zero, at most one point with digits after it, and an exponent; no unit"
            zeros = re.fullmatch("0+[1-9][0-9]*", whole_word.group())
            raise NotJson(begin, said, zeros and (begin, whole_word.end(), whole_word.group().lstrip("0")))
        return node

    def string(self):
        found = PLAIN.match(self.text, self.at)
        if found:
            self.at = found.end()
            return self.text[found.start() + 1 : found.end() - 1]
        begin, pieces = self.at, []
        self.at += 1
        while True:
            found = CHARACTERS.match(self.text, self.at)
            pieces.append(found.group())
            self.at = found.end()
            char = self.peek()
            if char == '"':
                self.at += 1
                return "".join(pieces)
            if not char:
                raise NotJson(begin, "the text that begins here isn't closed by a double quote")
            if char == "\\":
                pieces.append(self.escape())
            elif char in "\n\r":
                raise NotJson(begin, "the text that begins here isn't closed by a double quote on its line")
            else:
                raise NotJson(self.at, "a control character in a text is written as an escape, a tab as \\t", (self.at, self.at + 1, "?"))

    def escape(self):
        begin = self.at
        kind = self.text[begin + 1 : begin + 2]
        if kind != "u":
            if kind not in ESCAPES or not kind:
                raise NotJson(begin, 'no escape: those are \\" \\\\ \\/ \\b \\f \\n \\r \\t and \\u with four hexadecimal digits', kind and (begin, begin + 2, "??"))
            self.at += 2
            return ESCAPES[kind]
        unit = self.unit(begin)
        if 0xDC00 <= unit < 0xE000:
            raise NotJson(begin, "the second half of a character stands without the first")
        if 0xD800 <= unit < 0xDC00:
            low = self.unit(begin + 6) if self.text.startswith("\\u", begin + 6) else 0
            if not 0xDC00 <= low < 0xE000:
                raise NotJson(begin, "the first half of a character stands without the second")
            self.at = begin + 12
            return chr(0x10000 + ((unit - 0xD800) << 10) + (low - 0xDC00))
        self.at = begin + 6
        return chr(unit)

    def unit(self, begin):
        found = UNIT.match(self.text, begin + 2)
        if not found:
            raise NotJson(begin, "\\u takes four hexadecimal digits")
        return int(found.group(), 16)

    def deeper(self, depth):
        if depth == MOST_DEPTH:
            raise NotJson(self.at, "arrays and objects are nested deeper than %d here" % MOST_DEPTH)
        begin = self.at
        self.at += 1
        self.blanks()
        return begin

    def next_item(self, begin, closing, item):
        """Goes on after an item of what began there: whether there is another."""
        found = GOES_ON.match(self.text, self.at)
        if found:
            self.at = found.end()
            return True
        self.blanks()
        char = self.peek()
        if char == closing:
            self.at += 1
            return False
        if char == ",":
            comma = self.at
            self.at += 1
            self.blanks()
            if self.peek() == closing:
                raise NotJson(comma, "a comma stands before the closing %s: the last %s has none after it" % (closing, item), (comma, comma + 1, " "))
            return True
        if not char:
            raise self.ends(begin)
        self.comment()
        before = self.at - 1
        mend = (before, self.at, ",") if self.text[before] in " \t\n\r" and (char in '"[{' or char.isalnum()) else None
        raise NotJson(self.at, "a comma or the closing %s is expected here" % closing, mend)

    def array(self, depth):
        begin = self.deeper(depth)
        found = []
        if self.peek() == "]":
            self.at += 1
            return Node("array", found, begin, self.at)
        while True:
            found.append(self.value(depth + 1, begin))
            if not self.next_item(begin, "]", "element"):
                return Node("array", found, begin, self.at)

    def object(self, depth):
        begin = self.deeper(depth)
        found = {}
        if self.peek() == "}":
            self.at += 1
            return Node("object", found, begin, self.at)
        while True:
            key_begin = self.at
            if self.peek() != '"':
                raise self.no_key(begin)
            key = self.string()
            colon = COLON.match(self.text, self.at)
            if not colon:
                raise self.no_colon(begin)
            self.at = colon.end()
            value = self.value(depth + 1, begin)
            if key in found:
                self.twice.append((key, key_begin))
            found[key] = value
            if not self.next_item(begin, "}", "member"):
                return Node("object", found, begin, self.at)

    def no_colon(self, opened):
        """What is said where no colon stands after a key."""
        self.blanks()
        if not self.peek():
            return self.ends(opened)
        self.comment()
        return NotJson(self.at, "a colon is expected after the key")

    def no_key(self, opened):
        """What is said where no key begins."""
        if not self.peek():
            return self.ends(opened)
        self.comment()
        single = SINGLE.match(self.text, self.at)
        if single:
            return NotJson(self.at, "a key stands in double quotes, not in single ones", (self.at, single.end(), '"' + single.group()[1:-1] + '"'))
        return NotJson(self.at, "a key in double quotes is expected here")


def read(text):
    """The value of a text, and the keys that stand twice in an object."""
    reader = Reader(text)
    return reader.whole_text(), reader.twice


def mended(text, mend):
    """The text with a piece replaced, and everything else where it was; None where that can't be."""
    begin, end, replacement = mend
    if len(replacement) > end - begin:
        return None
    blanks = "".join(each if each == "\n" else " " for each in text[begin + len(replacement) : end])
    return text[:begin] + replacement + blanks + text[end:]


def read_on(text):
    """The value of a text, the keys that stand twice, and what isn't JSON in it. There may be no value, where a slip can't be mended."""
    found = []
    most = min(MOST_MENDS, MOST_READ // (len(text) + 1))
    while True:
        try:
            value, twice = read(text)
            return value, twice, found
        except NotJson as no:
            found.append(no)
            text = no.mend and len(found) <= most and mended(text, no.mend)
            if not text:
                return None, [], found
