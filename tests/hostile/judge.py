"""Says which fault two files give, by docs/FORMATS.md alone.

`fault(config, jobs, threads)` takes the bytes of a configuration and of a script, and gives the line for standard error and
the status; None where both are in form. It knows nothing of the program: the JSON reader below is written from the grammar
of RFC 8259.
"""

import os

MOST_BYTES = 8388608
MOST_DEPTH = 127
MOST_LINES = 20000
MOST_DEVICES = 256
MOST_LAYERS = 64
MOST_NAME = 255
MOST_MEMORY = 1 << 30
U64 = (1 << 64) - 1

NOT_FOUND, INVALID, NOT_SUPPORTED, EXISTS, NO_DEVICE, CLAIMED, TOO_MUCH = -32601, -32602, -95, -17, -19, -1, -22


# ---- JSON


class NoJson(Exception):
    """The text has no value."""


class Whole(int):
    """A number that is written as digits alone."""


class Other(float):
    """Any other number."""


class Reader:
    """Reads one value: dicts, lists, str, Whole, Other, True, False and None."""

    BLANK = " \t\n\r"
    ESCAPES = {'"': '"', "\\": "\\", "/": "/", "b": "\b", "f": "\f", "n": "\n", "r": "\r", "t": "\t"}

    def __init__(self, text):
        self.text = text
        self.at = 0

    def peek(self):
        return self.text[self.at] if self.at < len(self.text) else ""

    def take(self, wanted):
        if not self.text.startswith(wanted, self.at):
            raise NoJson
        self.at += len(wanted)

    def blanks(self):
        while self.peek() and self.peek() in self.BLANK:
            self.at += 1

    def whole_text(self):
        value = self.value(0)
        self.blanks()
        if self.peek():
            raise NoJson
        return value

    def value(self, depth):
        self.blanks()
        first = self.peek()
        if first and first in "[{":
            if depth == MOST_DEPTH:
                raise NoJson
            return self.array(depth + 1) if first == "[" else self.object(depth + 1)
        if first == '"':
            return self.string()
        for word, value in (("true", True), ("false", False), ("null", None)):
            if self.text.startswith(word, self.at):
                self.at += len(word)
                return value
        return self.number()

    def items(self, opened, closed, item):
        self.take(opened)
        self.blanks()
        if self.peek() == closed:
            self.at += 1
            return
        while True:
            item()
            self.blanks()
            if self.peek() != ",":
                break
            self.at += 1
        self.take(closed)

    def array(self, depth):
        found = []
        self.items("[", "]", lambda: found.append(self.value(depth)))
        return found

    def object(self, depth):
        found = {}

        def member():
            self.blanks()
            key = self.string()
            self.blanks()
            self.take(":")
            found[key] = self.value(depth)

        self.items("{", "}", member)
        return found

    def string(self):
        self.take('"')
        found = []
        while self.peek() != '"':
            char = self.peek()
            if char < " ":
                raise NoJson
            self.at += 1
            found.append(self.escape() if char == "\\" else char)
        self.at += 1
        return "".join(found)

    def escape(self):
        kind = self.peek()
        self.at += 1
        if kind != "u":
            if kind not in self.ESCAPES:
                raise NoJson
            return self.ESCAPES[kind]
        unit = self.unit()
        if 0xDC00 <= unit < 0xE000:
            raise NoJson
        if 0xD800 <= unit < 0xDC00:
            self.take("\\u")
            low = self.unit()
            if not 0xDC00 <= low < 0xE000:
                raise NoJson
            unit = 0x10000 + ((unit - 0xD800) << 10) + (low - 0xDC00)
        return chr(unit)

    def unit(self):
        digits = self.text[self.at : self.at + 4]
        if len(digits) < 4 or not all(d in "0123456789abcdefABCDEF" for d in digits):
            raise NoJson
        self.at += 4
        return int(digits, 16)

    def digits(self):
        begin = self.at
        while self.peek() and self.peek() in "0123456789":
            self.at += 1
        if begin == self.at:
            raise NoJson
        return self.text[begin : self.at]

    def number(self):
        begin = self.at
        if self.peek() == "-":
            self.at += 1
        digits = self.digits()
        if len(digits) > 1 and digits[0] == "0":
            raise NoJson
        whole = True
        if self.peek() == ".":
            whole = False
            self.at += 1
            self.digits()
        if self.peek() and self.peek() in "eE":
            whole = False
            self.at += 1
            if self.peek() and self.peek() in "+-":
                self.at += 1
            self.digits()
        token = self.text[begin : self.at]
        if whole and token != "-0" and len(token) <= 20 and -(1 << 63) <= int(token) <= U64:
            return Whole(token)
        if float(token) in (float("inf"), float("-inf")):
            raise NoJson
        return Other(token)


def json_of(config):
    try:
        return Reader(config.decode("utf-8")).whole_text()
    except UnicodeDecodeError:
        raise NoJson


# ---- the configuration


def calls_of(subsystem):
    """The calls of one subsystem; None where it has the wrong shape."""
    if not isinstance(subsystem, dict) or not isinstance(subsystem.get("subsystem"), str):
        return None
    config = subsystem.get("config")
    if config is None:
        config = []
    if not isinstance(config, list):
        return None
    if subsystem["subsystem"] != "bdev":
        return []
    for call in config:
        if not isinstance(call, dict) or not isinstance(call.get("method"), str) or not isinstance(call.get("params", {}), dict):
            return None
    return config


class Wrong(Exception):
    """A parameter is absent, of the wrong form or out of its range."""


ABSENT = object()


class Call:
    """The parameters of one call."""

    def __init__(self, call):
        self.params = call.get("params", {})

    def whole(self, key, least, most, default=ABSENT):
        value = self.params.get(key, default)
        if value is ABSENT or not isinstance(value, int) or isinstance(value, bool) or not least <= value <= most:
            raise Wrong
        return int(value)

    def text(self, key):
        value = self.params.get(key)
        if not isinstance(value, str):
            raise Wrong
        return value

    def name(self, key):
        name = self.text(key)
        if not 1 <= len(name.encode()) <= 200 or not all("!" <= char <= "~" for char in name):
            raise Wrong
        return name

    def filename(self):
        filename = self.text("filename")
        if not 1 <= len(filename.encode()) <= 4096:
            raise Wrong
        return filename

    def size(self, default=ABSENT):
        size = self.whole("block_size", 0, U64, default)
        if size not in (512, 4096):
            raise Wrong
        return size

    def boundary(self):
        boundary = self.whole("optimal_io_boundary", 0, U64, 0)
        if 0 < boundary < 8:
            raise Wrong
        return boundary

    def depth(self):
        self.whole("queue_depth", 1, 1024, 128)

    def is_plain(self):
        for key in ("md_size", "dif_type"):
            value = self.params.get(key, Whole(0))
            if not isinstance(value, Whole) or value != 0:
                return False
        return self.params.get("readonly") is not True


def base_device(kind, most_blocks):
    """What reads a call that makes a base device without a file."""

    def read(call):
        name, blocks, size = call.name("name"), call.whole("num_blocks", 1, most_blocks), call.size()
        call.boundary(), call.depth()
        return (kind, name, blocks, size)

    return read


def aio(call):
    name, filename, size = call.name("name"), call.filename(), call.size(512)
    call.depth()
    return ("aio", name, filename, size)


def passthru(call):
    return ("passthru", call.name("base_bdev_name"), call.name("name"))


def split(call):
    return ("split", call.name("base_bdev"), call.whole("split_count", 1, 64), call.whole("split_size_mb", 0, 1048576, 0))


def delay(call):
    ways = [[call.whole("%s_%s_latency" % (of, way), 0, U64) for of in ("avg", "p99")] for way in ("read", "write")]
    return ("delay", call.name("base_bdev_name"), call.name("name"), all(average <= p99 for average, p99 in ways))


def error(call):
    return ("error", call.name("base_name"))


def inject(call):
    name = call.name("name")
    call.whole("num", 0, (1 << 32) - 1, 1)
    kind, types = call.text("error_type"), call.text("io_type")
    if kind not in ("failure", "pending", "corrupt_data"):
        raise Wrong
    if types not in ("read", "write", "all") + (() if kind == "corrupt_data" else ("write_zeroes", "unmap", "flush")):
        raise Wrong
    return ("inject", name)


def limits(call):
    name = call.name("name")
    given = 0
    for key, most in (("rw_ios_per_sec", 10**9), ("rw_mbytes_per_sec", 10**6), ("r_mbytes_per_sec", 10**6), ("w_mbytes_per_sec", 10**6)):
        if key in call.params:
            given += 1
            call.whole(key, 0, most)
    if not given:
        raise Wrong
    return ("limits", name)


BASES = {"bdev_malloc_create": base_device("malloc", 1 << 21), "bdev_null_create": base_device("null", 1 << 40), "bdev_aio_create": aio}
OTHERS = {
    "bdev_passthru_create": passthru,
    "bdev_split_create": split,
    "bdev_delay_create": delay,
    "bdev_error_create": error,
    "bdev_error_inject_error": inject,
    "bdev_set_qos_limit": limits,
}
PASSED = ("bdev_wait_for_examine", "bdev_examine", "bdev_nvme_set_hotplug")


def read_call(call):
    """What a call asks for: a code where it is refused as it is read."""
    method, given = call["method"], Call(call)
    try:
        if method in BASES:
            asked = BASES[method](given)
            return asked if given.is_plain() else NOT_SUPPORTED
        if method in OTHERS:
            return OTHERS[method](given)
    except Wrong:
        return INVALID
    return ("passed",) if method.endswith("_set_options") or method in PASSED else NOT_FOUND


def config_fault(config):
    if len(config) > MOST_BYTES:
        return "file too long: config"
    try:
        value = json_of(config)
    except NoJson:
        return "configuration is not JSON"
    subsystems = value.get("subsystems") if isinstance(value, dict) else None
    if not isinstance(subsystems, list):
        return "configuration shape: 0"
    calls = []
    for place, subsystem in enumerate(subsystems, 1):
        found = calls_of(subsystem)
        if found is None:
            return "configuration shape: %d" % place
        calls += found
    asked = [read_call(call) for call in calls]
    for index, answer in enumerate(asked):
        if isinstance(answer, int):
            return "configuration command %d refused: %d" % (index, answer)
    return devices_fault(asked)


class Refused(Exception):
    """A command can't be done, with its code."""


class NoDisk(Exception):
    """The file of a disk can't be opened, with the line that says so."""


def disk_blocks(filename, size):
    """How many blocks a file has as a disk, in the folder of the run: there only the two files of the run are."""
    if os.path.normpath(filename) in RUN_FILES and not filename.endswith("/"):
        return RUN_FILES[os.path.normpath(filename)] // size
    if "\0" in filename or any(len(part.encode()) > 255 for part in filename.split("/")) or len(filename.encode()) >= 4096:
        raise NoDisk("read fault: " + filename)
    raise NoDisk("no file: " + filename)


# The lengths of the files of this run.
RUN_FILES = {}
# Commands that set something of a device that is there.
SETS = ("inject", "limits")


class Devices:
    """The devices that commands make, each with its blocks, their size, how many layers it has and whether it is claimed."""

    def __init__(self):
        self.made, self.memory, self.errors = {}, 0, set()

    def base_of(self, command):
        return None if command[0] in ("malloc", "null", "aio", *SETS) else command[1]

    def rows(self, command):
        """What the command asks for: names, with blocks, size and layers."""
        if command[0] in ("malloc", "null"):
            return [(command[1], (command[2], command[3], 1))]
        if command[0] == "aio":
            return [(command[1], (disk_blocks(command[2], command[3]), command[3], 1))]
        blocks, size, layers = self.made[command[1]][:3]
        if command[0] in ("passthru", "delay"):
            return [(command[2], (blocks, size, layers + 1))]
        if command[0] == "error":
            return [("EE_" + command[1], (blocks, size, layers + 1))]
        count, megabytes = command[2], command[3]
        each = (megabytes << 20) // size if megabytes else blocks // count
        # As many parts are made as fit. Their names are looked at where one fits at all.
        count = min(count, blocks // each) if each else 0
        return [("%sp%d" % (command[1], i), (each, size, layers + 1)) for i in range(count)]

    def do(self, command):
        if command[0] in SETS:
            # It makes nothing, and doesn't wait.
            if command[1] not in self.made:
                raise Refused(NO_DEVICE)
            if command[0] == "inject" and command[1] not in self.errors:
                raise Refused(TOO_MUCH)
            return
        rows, base = self.rows(command), self.base_of(command)
        if any(name in self.made for name, _ in rows):
            raise Refused(EXISTS)
        if base is not None and self.made[base][3]:
            raise Refused(CLAIMED)
        memory = self.memory + (command[2] * command[3] if command[0] == "malloc" else 0)
        names_fit = all(len(name) <= MOST_NAME for name, _ in rows)
        if command[0] == "delay" and not command[3]:
            raise Refused(TOO_MUCH)
        if command[0] == "aio" and not 1 <= rows[0][1][0] <= 1 << 40:
            raise Refused(TOO_MUCH)
        if not rows or not names_fit or memory > MOST_MEMORY or len(self.made) + len(rows) > MOST_DEVICES or rows[0][1][2] > MOST_LAYERS:
            raise Refused(TOO_MUCH)
        self.memory = memory
        for name, row in rows:
            self.made[name] = [*row, False]
            if command[0] == "error":
                self.errors.add(name)
        if base is not None:
            self.made[base][3] = True

    def is_ready(self, command):
        return self.base_of(command) is None or self.base_of(command) in self.made


def devices_fault(commands):
    """Does commands in order. One whose base isn't there waits, and is done after the command that brings it."""
    devices, waiting = Devices(), []
    for index, command in enumerate(commands):
        if command[0] == "passed":
            continue
        waiting.append((index, command))
        while True:
            # A command that comes goes before those that wait: its base stands, or it waits itself.
            ready = [each for each in waiting if devices.is_ready(each[1])]
            if not ready:
                break
            number, next_one = ready[-1] if ready[-1][0] == index else ready[0]
            try:
                devices.do(next_one)
            except Refused as refused:
                return "configuration command %d refused: %d" % (number, refused.args[0])
            waiting.remove((number, next_one))
    return None


# ---- the script


def number(word):
    """A number of a script; None where the word is none."""
    if not word or not all(48 <= byte <= 57 for byte in word) or len(word) > 1 and word[0] == 48 or len(word) > 20:
        return None
    value = int(word)
    return value if value <= U64 else None


NAME_BYTES = frozenset(b"ABCDEFGHIJKLMNOPQRSTUVWXYZabcdefghijklmnopqrstuvwxyz0123456789_-")


def is_name(word):
    return 1 <= len(word) <= 32 and NAME_BYTES.issuperset(word)


def is_device(word):
    return 1 <= len(word) <= 255 and all(0x21 <= byte <= 0x7E for byte in word)


def is_number(word):
    return number(word) is not None


def is_claim(words):
    return words in ([b"exclusive"], [b"one"], [b"none"]) or len(words) == 2 and words[0] == b"shared" and is_number(words[1])


SHAPES = {
    b"close": [is_name],
    b"read": [is_name, is_number, is_number],
    b"write": [is_name, is_number, is_number, is_number],
    b"zeroes": [is_name, is_number, is_number],
    b"unmap": [is_name, is_number, is_number],
    b"flush": [is_name, is_number, is_number],
    b"abort": [is_name, is_number],
    b"remove": [is_device],
    b"wait": [],
    b"sleep": [is_number],
    b"post": [is_name],
    b"await": [is_name],
    b"gone": [is_name],
    b"resize": [is_device, is_number],
    b"sized": [is_name, is_number],
}
SUBMITS = (b"read", b"write", b"zeroes", b"unmap", b"flush", b"reset", b"abort")


def is_command(word, rest, thread, submitted):
    if word == b"open":
        return len(rest) == 3 and is_name(rest[0]) and is_device(rest[1]) and rest[2] in (b"r", b"w")
    if word == b"claim":
        return len(rest) >= 1 and is_name(rest[0]) and is_claim(rest[1:])
    if word == b"reset":
        return len(rest) in (1, 2) and is_name(rest[0]) and all(is_number(time) for time in rest[1:])
    if word not in SHAPES or len(rest) != len(SHAPES[word]) or not all(is_(given) for is_, given in zip(SHAPES[word], rest)):
        return False
    return word != b"abort" or (thread, number(rest[1])) in submitted


def lines_of(jobs):
    lines = jobs.split(b"\n")
    last = lines.pop()
    lines = [line[:-1] if line.endswith(b"\r") else line for line in lines]
    return lines + [last] if last else lines


def words_of(line):
    return [word for word in line.replace(b"\t", b" ").split(b" ") if word]


def script_fault(jobs, threads):
    if len(jobs) > MOST_BYTES:
        return "file too long: jobs"
    submitted = set()
    for place, line in enumerate(lines_of(jobs), 1):
        if place > MOST_LINES:
            return "script line %d" % place
        words = words_of(line)
        if line.startswith(b"#") or not words:
            continue
        thread = number(words[0])
        if thread is None or thread >= threads or len(words) < 2:
            return "script line %d" % place
        if not is_command(words[1], words[2:], thread, submitted):
            return "script line %d" % place
        if words[1] in SUBMITS:
            submitted.add((thread, place))
    return None


def fault(config, jobs, threads):
    """The line for standard error, and the status; None where both files are in form."""
    RUN_FILES.update(config=len(config), jobs=len(jobs))
    try:
        line = config_fault(config) or script_fault(jobs, threads)
    except NoDisk as no:
        return (no.args[0], 3)
    return None if line is None else (line, 1)
