"""Texts and the places in them, and values as a line of text may show them."""

MOST_SHOWN = 60


class Text:
    """The text of a file, with the name by which the command line has it."""

    def __init__(self, name, text):
        self.name = name
        self.text = text

    def place(self, offset):
        """The line and the column of a character, both counted from 1."""
        begin = self.text.rfind("\n", 0, offset) + 1
        return self.text.count("\n", 0, begin) + 1, offset - begin + 1

    def at(self, offset):
        return "line %d, column %d" % self.place(offset)


def safe(text):
    """The text without characters that a terminal acts on: each of those as an escape."""
    return "".join(each if each.isprintable() else ascii(each)[1:-1] for each in text)


def shown(text, most=MOST_SHOWN):
    """The text on one line, cut off where it is long."""
    cut = text if len(text) <= most else text[:most] + ".."
    return safe(cut)


def quoted(text, most=MOST_SHOWN):
    return "'" + shown(text, most) + "'"


def listed(items, last="or"):
    """The items as `a, b or c`."""
    items = list(items)
    return items[0] if len(items) == 1 else ", ".join(items[:-1]) + " " + last + " " + items[-1]


def counted(count, one, more=None):
    return "%d %s" % (count, one if count == 1 else more or one + "s")
