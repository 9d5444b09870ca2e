"""Does the commands of a configuration one after the other, as the program does, and makes nothing of it but a list."""

import re

from .files import Disks, Refused, sized
from .mistakes import DEVICES, Mistake
from .places import counted, quoted, shown
from .rules import BASES, CLAIMED, EXISTS, LIMITS, MOST_BLOCKS, MOST_DEVICES, MOST_LAYERS, MOST_MEMORY, MOST_NAME, NO_DEVICE, TOO_MUCH, Type, meant

KINDS = {
    "bdev_malloc_create": "malloc",
    "bdev_null_create": "null",
    "bdev_aio_create": "aio",
    "bdev_passthru_create": "passthru",
    "bdev_split_create": "part",
    "bdev_delay_create": "delay",
    "bdev_error_create": "error",
}
BASE_KEYS = {
    "bdev_passthru_create": "base_bdev_name",
    "bdev_split_create": "base_bdev",
    "bdev_delay_create": "base_bdev_name",
    "bdev_error_create": "base_name",
}
# Devices that have all of their base's blocks.
WHOLE = ("bdev_passthru_create", "bdev_delay_create", "bdev_error_create")
INJECTS = "bdev_error_inject_error"
SETS_LIMITS = "bdev_set_qos_limit"
MEGABYTE = 1 << 20


class Device:
    def __init__(self, call, name, blocks, size, base=None, begin=0):
        self.call = call
        self.name = name
        self.kind = KINDS[call.method]
        self.blocks = blocks
        self.size = size
        self.base = base
        self.begin = begin
        self.layers = base.layers + 1 if base else 1
        self.over = []
        self.errors = {}  # of an error device: the kind and the number of each type's errors
        self.limits = {}


class Devices:
    """The devices that commands make, and what is wrong on the way. A command that is refused makes none, and the next is done."""

    def __init__(self, calls, looks_at_files=True):
        self.made = {}
        self.memory = 0
        self.mistakes = []
        self.notes = []
        self.waiting = []
        self.steps = 0
        self.disks = Disks()
        self.looks_at_files = looks_at_files
        self.refused = {}  # names that a command that is refused would make, with that command
        calls = [call for call in calls if call is not None]
        for call in calls:
            if call.method in KINDS and call.is_good:
                self.begin(call)
            elif call.method in KINDS:
                self.lost(call)
            elif call.method == INJECTS and call.is_good:
                self.inject(call, calls)
            elif call.method == SETS_LIMITS and call.is_good:
                self.limit(call, calls)
        self.waits = [self.wait(call, calls) for call in self.waiting]
        self.notes += self.waits

    def wait(self, call, calls):
        """The note that a command waits."""
        said = "%s: it waits for its base %s, and makes nothing: %s" % (call.subject(), quoted(self.base_of(call), 200), self.why_waiting(call, calls))
        return Mistake(None, None, 0, said, call.place(call.param(BASE_KEYS[call.method])))

    def begin(self, call):
        """Does a command, and then those that waited for it, the first first."""
        self.waiting.append(call)
        if not self.is_ready(call):
            return
        self.waiting.pop()
        self.do(call)
        while True:
            ready = next((each for each in self.waiting if self.is_ready(each)), None)
            if ready is None:
                return
            self.waiting.remove(ready)
            self.do(ready)

    def base_of(self, call):
        return call.value(BASE_KEYS[call.method]) if call.method in BASE_KEYS else None

    def is_ready(self, call):
        return call.method in BASES or self.base_of(call) in self.made

    def name_of(self, call):
        """The name that a command gives its device; None of a split, and where a part of it isn't given."""
        if call.method == "bdev_error_create":
            base = self.base_of(call)
            return "EE_" + base if isinstance(base, str) else None
        return call.value("name")

    def lost(self, call):
        """Remembers a name that would stand if its command weren't refused: for a split, that of its base with p."""
        name = self.name_of(call)
        if call.method == "bdev_split_create" and isinstance(call.value("base_bdev"), str):
            name = call.value("base_bdev") + "p"
        if isinstance(name, str):
            self.refused.setdefault(name, call)

    def inject(self, call, calls):
        """Sets errors of a device, in place of those of the same types."""
        device, kind = self.named(call, calls), call.value("error_type")
        if device is None:
            return
        if device.kind != "error":
            said = "it is of kind %s; errors are injected into an error device, as bdev_error_create makes one over it: EE_%s"
            self.refuse(call, TOO_MUCH, said % (device.kind, shown(device.name, 200)))
        else:
            for each in Type.types(call.value("io_type"), kind):
                device.errors[each] = (kind, call.value("num", 1))

    def limit(self, call, calls):
        """Sets limits of a device; those that are absent stay."""
        device = self.named(call, calls)
        if device is not None:
            device.limits.update({key: call.value(key) for key in LIMITS if call.param(key)})

    def named(self, call, calls):
        """The device whose errors or limits a command sets; None where it doesn't stand by then, which is a mistake."""
        self.steps += 1
        name = call.value("name")
        if name not in self.made:
            after = calls[calls.index(call) :]
            later = next((each for each in after if each.method in KINDS and self.name_of(each) == name), None)
            why = "command %d, which would make it, comes later" % later.index if later else self.why_absent(name, call, calls)
            self.refuse(call, NO_DEVICE, "there is no such device when this is done: " + why)
        return self.made.get(name)

    def refuse(self, call, code, said):
        """Notes what is wrong with the device that a command names."""
        mistake = call.mistake(DEVICES, code, "name is %s: %s" % (quoted(call.value("name"), 200), said), call.param("name"))
        mistake.order = (DEVICES, self.steps)
        self.mistakes.append(mistake)

    def do(self, call):
        self.steps += 1
        try:
            rows = self.rows(call)
        except Refused as no:
            name = call.value("filename")
            said = "filename is %s: %s" % (quoted(name, 200), shown(no.why, 300))
            fault = "%s: %s" % (no.word, name)
            self.mistakes.append(Mistake((DEVICES, self.steps), fault, 3, call.subject() + ": " + said, call.place(call.param("filename")), call.index))
            return self.lost(call)
        causes = list(self.causes(call, rows))
        for code, said, key in causes:
            # Of several the first counts.
            mistake = call.mistake(DEVICES, causes[0][0], said, call.param(key))
            mistake.order = (DEVICES, self.steps)
            self.mistakes.append(mistake)
        if causes:
            return self.lost(call)
        for row in rows:
            self.made[row.name] = row
            if row.base:
                row.base.over.append(row)
        if call.method == "bdev_malloc_create":
            self.memory += rows[0].blocks * rows[0].size

    def rows(self, call):
        """The devices that a command asks for."""
        if call.method in ("bdev_malloc_create", "bdev_null_create"):
            return [Device(call, call.value("name"), call.value("num_blocks"), call.value("block_size"))]
        if call.method == "bdev_aio_create":
            size = call.value("block_size", 512)
            self.bytes = self.disks.length(call.value("filename")) if self.looks_at_files else size
            return [Device(call, call.value("name"), self.bytes // size, size)]
        base = self.made[self.base_of(call)]
        if call.method in WHOLE:
            return [Device(call, self.name_of(call), base.blocks, base.size, base)]
        wanted, each = call.value("split_count"), self.part_blocks(call, base)
        fit = min(wanted, base.blocks // each) if each else 0
        if 0 < fit < wanted:
            said = "%d of the %d parts fit: a part has %s, and %s has %d" % (fit, wanted, counted(each, "block"), base.name, base.blocks)
            self.notes.append(Mistake(None, None, 0, call.subject() + ": " + said, call.place(call.param("split_count"))))
        return [Device(call, "%sp%d" % (base.name, i), each, base.size, base, i * each) for i in range(fit)]

    def part_blocks(self, call, base):
        megabytes = call.value("split_size_mb", 0)
        return megabytes * MEGABYTE // base.size if megabytes else base.blocks // call.value("split_count")

    def causes(self, call, rows):
        """Why the devices aren't made: codes, what is said, and the parameter at fault."""
        own_key = "name" if call.param("name") else BASE_KEYS[call.method]
        for row in rows:
            if row.name in self.made:
                other = self.made[row.name].call
                yield EXISTS, "a device %s stands already, made by command %d, %s" % (quoted(row.name, 256), other.index, other.method), own_key
        base = self.made.get(self.base_of(call))
        if base and base.over:
            other = base.over[0].call
            said = "%s is %s, on which command %d, %s%s, stands already: one base takes one passthru, delay or error device, or the parts of one split"
            yield CLAIMED, said % (BASE_KEYS[call.method], quoted(base.name, 256), other.index, other.method, other.label()), BASE_KEYS[call.method]
        yield from self.bounds(call, rows, base)
        for row in rows:
            if len(row.name) > MOST_NAME:
                yield TOO_MUCH, "its device %s has a name of %d bytes; there are at most %d" % (quoted(row.name), len(row.name), MOST_NAME), own_key
                break
        if len(self.made) + len(rows) > MOST_DEVICES:
            said = "it makes %s, and %d stand already; there are at most %d" % (counted(len(rows), "device"), len(self.made), MOST_DEVICES)
            yield TOO_MUCH, said, own_key
        if rows and rows[0].layers > MOST_LAYERS:
            yield TOO_MUCH, "it would stand in layer %d; a stack has at most %d" % (rows[0].layers, MOST_LAYERS), BASE_KEYS[call.method]

    def bounds(self, call, rows, base):
        if call.method == "bdev_malloc_create":
            more = rows[0].blocks * rows[0].size
            if self.memory + more > MOST_MEMORY:
                said = "num_blocks is %d: with its %s all memory devices would have %s; they have at most %d, and %d are left"
                yield TOO_MUCH, said % (rows[0].blocks, sized(more), sized(self.memory + more), MOST_MEMORY, MOST_MEMORY - self.memory), "num_blocks"
        elif call.method == "bdev_aio_create":
            if not rows[0].blocks:
                said = "filename is %s, a file of %s; it must have one block of %d at least"
                yield TOO_MUCH, said % (quoted(call.value("filename"), 200), sized(self.bytes), rows[0].size), "filename"
            elif rows[0].blocks > MOST_BLOCKS:
                said = "filename is %s, a file of %d blocks of %d bytes; a device has at most %d"
                yield TOO_MUCH, said % (quoted(call.value("filename"), 200), rows[0].blocks, rows[0].size, MOST_BLOCKS), "filename"
        elif call.method == "bdev_delay_create":
            for way in ("read", "write"):
                average, p99 = call.value("avg_%s_latency" % way), call.value("p99_%s_latency" % way)
                if p99 < average:
                    said = "p99_%s_latency is %d, less than the average: it must be avg_%s_latency, which is %d, or more"
                    yield TOO_MUCH, said % (way, p99, way, average), "p99_%s_latency" % way
        elif call.method == "bdev_split_create" and not rows:
            has = "%s has %d blocks of %d bytes" % (quoted(base.name), base.blocks, base.size)
            megabytes = call.value("split_size_mb", 0)
            if megabytes:
                whole = base.blocks * base.size // MEGABYTE
                may = "it must be at most %d" % whole if whole else "it must be 0 or absent, for equal parts"
                said = "split_size_mb is %d, so a part has %d blocks (%d bytes), and not one fits: %s (%d bytes); %s"
                yield TOO_MUCH, said % (megabytes, megabytes * MEGABYTE // base.size, megabytes * MEGABYTE, has, base.blocks * base.size, may), "split_size_mb"
            else:
                said = "split_count is %d, and %s: a part would have no block; it must be at most %d"
                yield TOO_MUCH, said % (call.value("split_count"), has, base.blocks), "split_count"

    def why_waiting(self, call, calls):
        """Why the base isn't there."""
        return self.why_absent(self.base_of(call), call, calls)

    def why_absent(self, base, call, calls):
        """Why a device isn't there that a command names."""
        refused = self.refused.get(base) or next((each for each in self.refused.values() if self.is_part(base, each)), None)
        if refused:
            return "command %d, which would make it, is refused" % refused.index
        for each in self.waiting:
            if each is not call and (self.name_of(each) == base or self.is_part(base, each)):
                return "command %d, which would make it, waits itself" % each.index
        for each in calls:
            # The namespaces of an NVMe controller have its name, n and a number.
            name = each.value("name")
            if not each.is_good and each.method not in (INJECTS, SETS_LIMITS) and isinstance(name, str) and re.fullmatch(re.escape(name) + "(n[0-9]+)?", base):
                return "it would be of command %d, %s, which isn't served" % (each.index, shown(each.method))
        close = meant(base, self.made)
        return "no command makes it" + ("; %s is meant, it seems" % quoted(close) if close else "")

    def is_part(self, name, call):
        """Whether a name is that of a part that a command would make."""
        return call.method == "bdev_split_create" and re.fullmatch(re.escape(call.value("base_bdev") or "") + "p[0-9]+", name)

    # ---- as text

    def tree(self):
        """A line for each device, those that stand on another below it and further right."""
        lines = []

        def add(device, depth):
            lines.append((depth, device))
            for over in device.over:
                add(over, depth + 1)

        for device in self.made.values():
            if device.base is None:
                add(device, 0)
        width = max((2 * depth + len(device.name) for depth, device in lines), default=0)
        width = min(width, 40)
        return ["%s  %s" % (("  " * depth + device.name).ljust(width), self.described(device)) for depth, device in lines]

    def described(self, device):
        call = device.call
        said = "%s, %s of %d bytes (%s)" % (device.kind, counted(device.blocks, "block"), device.size, sized(device.blocks * device.size))
        if device.kind == "part":
            said += ", from block %d of %s" % (device.begin, device.base.name)
        if device.base is None:
            boundary = call.value("optimal_io_boundary", 0)
            said += ", cut at multiples of %d blocks" % boundary if boundary else ""
            said += ", queue depth %d" % call.value("queue_depth", 128)
        if device.kind == "aio":
            said += ", file %s" % quoted(call.value("filename"), 200)
        if device.over:
            said += ", claimed by %s" % (device.over[0].name if len(device.over) == 1 else "its %d parts" % len(device.over))
        given = ["%s %s %d" % (each, *device.errors[each]) for each in Type.ONE if device.errors.get(each, (None, 0))[1]]
        said += ", injected errors %s" % ", ".join(given) if given else ""
        given = ["%s %d" % (key, device.limits[key]) for key in LIMITS if device.limits.get(key)]
        said += ", limits %s" % ", ".join(given) if given else ""
        return said
