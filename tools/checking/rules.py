"""What the program serves: its methods with their parameters, as docs/FORMATS.md has them.

A method that becomes served gets its parameters in SERVED here, and what it makes is made in devices.py.
"""

import difflib
import os

from .places import listed, shown

MOST_BYTES = 8388608
MOST_DEVICES = 256
MOST_LAYERS = 64
MOST_NAME = 255
MOST_MEMORY = 1 << 30
MOST_BLOCKS = 1 << 40
MOST_THREADS = 16
MOST_REACTORS = 8
MOST_WORK = 500
MOST_LINES = 20000
U64 = (1 << 64) - 1

NOT_FOUND, INVALID, NOT_SUPPORTED, EXISTS, NO_DEVICE, CLAIMED, TOO_MUCH = -32601, -32602, -95, -17, -19, -1, -22

# The name under which users have tools/check.
CHECK = os.environ.get("BDEVRUN_CHECK", "tools/check")

KINDS = {"object": "an object", "array": "an array", "text": "a text", "true": "true", "false": "false", "null": "null"}


class Whole:
    """A whole number from the least to the most, or one of a few."""

    def __init__(self, least, most, among=None, more=""):
        self.least = least
        self.most = most
        self.among = among
        self.more = more

    def rule(self):
        if self.among:
            return listed(map(str, self.among)) + self.more
        return "a whole number from %d to %d" % (self.least, self.most) + self.more

    def takes(self, node):
        if node.kind != "whole":
            return False
        return node.value in self.among if self.among else self.least <= node.value <= self.most

    def why(self, node, text):
        if node.kind == "text":
            return "a text, not a number: numbers stand without quotes" if node.value.strip().isdigit() else "a text, not a number"
        if node.kind == "number":
            return "not a whole number written in digits alone, or one past 64 bits"
        if node.kind != "whole":
            return KINDS[node.kind] + ", not a number"
        return None


class Boundary(Whole):
    """0, or a whole number of 8 and more."""

    def __init__(self):
        super().__init__(0, U64)

    def rule(self):
        return "0, or a whole number of blocks from 8 on"

    def takes(self, node):
        return super().takes(node) and (node.value == 0 or node.value >= 8)


class Name:
    """The name of a device."""

    def rule(self):
        return "a text of 1 to 200 printable ASCII characters without a space"

    def takes(self, node):
        return node.kind == "text" and 1 <= len(node.value) <= 200 and all("!" <= each <= "~" for each in node.value)

    def why(self, node, text):
        if node.kind != "text":
            return "not a text"
        if not node.value:
            return "empty"
        for each in node.value:
            if each == " ":
                return "with a space in it"
            if not "!" <= each <= "~":
                return "with a character in it that isn't printable ASCII: " + ascii(each)
        return "%d characters long" % len(node.value)


class FileName:
    """The name of a file."""

    def rule(self):
        return "a text of 1 to 4096 bytes"

    def takes(self, node):
        return node.kind == "text" and 1 <= len(node.value.encode()) <= 4096

    def why(self, node, text):
        if node.kind != "text":
            return "not a text"
        return "%d bytes long" % len(node.value.encode()) if node.value else "empty"


class Choice:
    """One of a few words."""

    def __init__(self, *words):
        self.words = words

    def rule(self):
        return listed(["'%s'" % word for word in self.words])

    def takes(self, node):
        return node.kind == "text" and node.value in self.words

    def why(self, node, text):
        return None if node.kind == "text" else "not a text"


class Type(Choice):
    """The type of request of an injected error; errors that need data are those of reads and writes."""

    ONE = ("read", "write", "write_zeroes", "unmap", "flush")
    ALL = (*ONE, "all")

    @classmethod
    def types(cls, word, kind):
        """The types of which a word tells, for errors of a kind."""
        if word != "all":
            return (word,)
        return cls.ONE[:2] if kind == "corrupt_data" else cls.ONE


NAME, FILE_NAME, BOUNDARY = Name(), FileName(), Boundary()
BLOCK_SIZE = Whole(0, U64, (512, 4096))
DEPTH = Whole(1, 1024)
ANY = Whole(0, U64)
NEEDED = True

# Of each method: its parameters with their rules, and whether each is needed.
MALLOC = {
    "name": (NAME, NEEDED),
    "num_blocks": (Whole(1, 1 << 21), NEEDED),
    "block_size": (BLOCK_SIZE, NEEDED),
    "optimal_io_boundary": (BOUNDARY, False),
    "queue_depth": (DEPTH, False),
}
NULL = {**MALLOC, "num_blocks": (Whole(1, MOST_BLOCKS), NEEDED)}
AIO = {"name": (NAME, NEEDED), "filename": (FILE_NAME, NEEDED), "block_size": (BLOCK_SIZE, False), "queue_depth": (DEPTH, False)}
SERVED = {
    "bdev_malloc_create": MALLOC,
    "bdev_null_create": NULL,
    "bdev_aio_create": AIO,
    "bdev_passthru_create": {"base_bdev_name": (NAME, NEEDED), "name": (NAME, NEEDED)},
    "bdev_split_create": {"base_bdev": (NAME, NEEDED), "split_count": (Whole(1, 64), NEEDED), "split_size_mb": (Whole(0, 1048576), False)},
    "bdev_delay_create": {
        "base_bdev_name": (NAME, NEEDED),
        "name": (NAME, NEEDED),
        **{key: (Whole(0, (1 << 64) - 1), NEEDED) for key in ("avg_read_latency", "p99_read_latency", "avg_write_latency", "p99_write_latency")},
    },
    "bdev_error_create": {"base_name": (NAME, NEEDED)},
    "bdev_error_inject_error": {
        "name": (NAME, NEEDED),
        "io_type": (Type(*Type.ALL), NEEDED),
        "error_type": (Choice("failure", "pending", "corrupt_data"), NEEDED),
        "num": (Whole(0, (1 << 32) - 1), False),
    },
    "bdev_set_qos_limit": {
        "name": (NAME, NEEDED),
        "rw_ios_per_sec": (Whole(0, 10**9), False),
        **{key: (Whole(0, 10**6), False) for key in ("rw_mbytes_per_sec", "r_mbytes_per_sec", "w_mbytes_per_sec")},
    },
}
LIMITS = ("rw_ios_per_sec", "rw_mbytes_per_sec", "r_mbytes_per_sec", "w_mbytes_per_sec")
# Methods whose devices have blocks of their own: those are plain, without metadata or protection, and take writes.
BASES = ("bdev_malloc_create", "bdev_null_create", "bdev_aio_create")
PLAIN = {"md_size": "0", "dif_type": "0", "readonly": "false"}
IGNORED = ("bdev_wait_for_examine", "bdev_examine", "bdev_nvme_set_hotplug")

# What SPDK saves beside those that are looked at, and has no meaning here.
KNOWN = {
    "uuid", "physical_block_size", "dif_is_head_of_md", "dif_pi_format", "md_interleave", "fallocate", "dif_insert_or_strip", "preferred_write_granularity",
    "preferred_write_alignment", "preferred_unmap_granularity", "preferred_unmap_alignment", *PLAIN, *LIMITS,
}


def is_ignored(method):
    return method.endswith("_set_options") or method in IGNORED


def parameters_of(method):
    """The parameters of a method that is read, with their rules; None of any other."""
    return SERVED.get(method)


def meant(word, words, least=0.75):
    """The one of the words that is most like a word; None where none is."""
    close = difflib.get_close_matches(word, list(words), 1, least)
    return close[0] if close else None


def method_meant(method):
    """The method that is meant by a slip. Methods of SPDK that aren't served are as much alike as bdev_raid_create and
    bdev_aio_create."""
    return meant(method, [*SERVED, *IGNORED], 0.92)


def said(node, text, rule):
    """That a value isn't what a rule takes."""
    why = rule.why(node, text)
    return "%s%s; it must be %s" % (shown(text[node.begin : node.end]), ", " + why if why else "", rule.rule())


def served_line():
    """What is said below methods that aren't served."""
    return "served are %s; ignored are %s and those that end in _set_options; %s --served CONFIG prints a copy without the others" % (
        listed(SERVED, "and"),
        ", ".join(IGNORED),
        CHECK,
    )
