"""What is wrong with a configuration, a script or the words, and what the program answers to it."""

from .places import shown

# The order in which the program looks for causes.
WORDS, CONFIG_FILE, CONFIG_TEXT, SHAPE, READING, DEVICES, JOBS_FILE, JOBS_TEXT = range(8)

USAGE = "usage: bdevrun run CONFIG JOBS, exercise N or generate N; options --threads N --reactors N --schedule N"


class Mistake:
    """One mistake: the program's line and status where it comes first, and what is wrong, with its place.

    `order` says when the program looks for it. `text` may be several lines; `place` is the file's name with the line and the column.
    """

    def __init__(self, order, fault, status, text, place=None, index=None):
        self.order = order
        self.fault = fault
        self.status = status
        self.text = text
        self.place = place
        self.index = index

    def line(self):
        if self.place is None:
            return self.text
        return "%s:%d:%d: %s" % (shown(self.place[0], 4096), *self.place[1], self.text)


def first_of(mistakes):
    """The mistake that the program names; None where there is none."""
    return min(mistakes, key=lambda each: each.order, default=None)
