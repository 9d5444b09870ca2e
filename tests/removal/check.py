"""Checks a report against its script: what has to hold in whichever order the threads took their turns, and where they
took them truly beside each other.

`faults(text, threads, devices, report)` gives a list of texts, one for each thing that can't be; it is empty where nothing is
wrong. It knows nothing of the program but docs/FORMATS.md. Devices is a list of (name, blocks, size), or of (name, blocks, size,
kind, base, shift, boundary, faults) for one that stands on the device of the name `base`, at its block `shift`; its faults, if it has
any, are what stopping.py says.

How it goes: the lines of the threads are partly ordered, each thread's among themselves and the post of a mark before the
await of it. From the script, the report and this order follows what each thread is certain of at each line: that a removal
began, that a device was destructed, that a handle was told. A line may only come to what fits all that is certain there. Where
something isn't certain, each outcome that some order gives is let pass. For opens, claims, closes and removals one order is
looked for in which all of them come to what the report says. Data may be that of a write that isn't certain to come later,
or to be covered by another one.
"""

import functools
import hashlib
import itertools
import re

from stops import Stops

PERM, BADF, BUSY, EXIST, NODEV, INVAL = 1, 9, 16, 17, 19, 22
MOST_BYTES = 262144
MOST_OPEN = 1024
# In how many ways at most, and over how many bytes, blocks are tried that several orders leave different.
MOST_WAYS = 1 << 14
MOST_HASHED = 1 << 26
# An order of opens, claims and closes is looked for in at most so many steps.
MOST_STEPS = 20000
WRITERS = ("write", "zeroes", "unmap")
RANGED = ("read", "write", "zeroes", "unmap", "flush")
REQUESTS = RANGED + ("reset", "abort")


# ---- what is read

class Line:
    """A line of the script, with what the report says of it and where it stands in the order."""

    def __init__(self, number, thread, words):
        self.number = number
        self.thread = thread
        self.word = words[0]
        self.words = words[1:]
        self.result = None
        self.place = None  # its place among the lines of its thread
        self.hold = None  # the handle to which its name is bound, as the registry has it
        self.clock = None  # for each thread, how many of its lines are certain to come before this one, or are it
        self.ended = None  # of a request, the line of its thread by which it has ended for certain

    def is_(self, *result):
        return self.result == result

    def is_errno(self, number):
        return self.result == ("errno", number)

    def is_done(self):
        return self.result != ("skipped",)

    def is_accepted(self):
        return self.result[0] in ("success", "failed", "aborted")


def script_lines(text):
    lines = []
    for number, line in enumerate(text.split("\n"), 1):
        words = line.replace("\t", " ").split()
        if words and not line.startswith("#"):
            lines.append(Line(number, int(words[0]), words[1:]))
    return lines


def result_of(text):
    for pattern, make in (
        (r"(ok|success|failed|aborted|skipped)", lambda m: (m[1],)),
        (r"success first ([0-9a-f]{16}) sha256 ([0-9a-f]{64})", lambda m: ("success", m[1], m[2])),
        (r"errno (\d+)", lambda m: ("errno", int(m[1]))),
        (r"errno 16 open (\d+)", lambda m: ("busy", int(m[1]))),
    ):
        match = re.fullmatch(pattern, text)
        if match:
            return make(match)
    return None


# ---- the data of blocks: None for zeros, else the first byte of the pattern

def value_of(line, block):
    """What a line that writes puts in a block of the content. The pattern goes by the number on the line's own device."""
    return (int(line.words[3]) + 31 * (block - line.hold.device.under)) % 256 if line.word == "write" else None


class Patterns:
    """The bytes of a block by its value."""

    def __init__(self, size):
        self.size = size
        # A pattern repeats every 256 bytes.
        self.blocks = {first: bytes((first + 7 * i) % 256 for i in range(256)) * (size // 256) for first in range(256)}
        self.blocks[None] = bytes(size)

    def digests(self, choices):
        """The first bytes and the digest of each way to choose a value for each block, or None where there are too many."""
        ways = hashed = 1
        for choice in choices:
            ways *= len(choice)
            hashed += ways * self.size
            if ways > MOST_WAYS or hashed > MOST_HASHED:
                return None
        found = [(None, hashlib.sha256())]
        for one, same in itertools.groupby(choices, lambda choice: len(choice) == 1):
            if one:
                data = b"".join(self.blocks[value] for choice in same for value in choice)
                for place, (first, sha) in enumerate(found):
                    sha.update(data)
                    found[place] = (data[:8] if first is None else first, sha)
                continue
            for choice in same:
                more = []
                for first, sha in found:
                    for value in choice:
                        other = sha.copy()
                        other.update(self.blocks[value])
                        more.append((self.blocks[value][:8] if first is None else first, other))
                found = more
        return {(first.hex(), sha.hexdigest()) for first, sha in found}


@functools.lru_cache(None)
def patterns_of(size):
    return Patterns(size)


# ---- devices, and what is known of them

class Device:
    def __init__(self, name, blocks, size, kind="malloc", base=None, shift=0, boundary=0, faults=None):
        self.name, self.blocks, self.size, self.kind, self.boundary, self.faults = name, blocks, size, kind, boundary, faults or {}
        # From this one down to the one with the content, and where this one begins there; those that stand on this one.
        self.below, self.users = [self] + (base.below if base else []), []
        self.root, self.under, self.shift = self.below[-1], shift + (base.under if base else 0), shift
        if base:
            base.users.append(self)
        self.removal = None  # the line that began its removal, if any was done
        self.holds = []

    def goings(self):
        """The removals by which it goes: its own, or that of a device below."""
        return [device.removal for device in self.below if device.removal]

    def is_cut(self, line):
        """Whether a request on it comes in several pieces."""
        lba, count = int(line.words[1]), int(line.words[2])
        for device in self.below:
            if device.boundary and lba // device.boundary != (lba + count - 1) // device.boundary:
                return True
            lba += device.shift
        return False


class Hold:
    """A handle as the registry has it: the lines of its open, its claim and its close, where they were done."""

    def __init__(self, device, line):
        self.device, self.opened, self.claimed, self.closed, self.kind = device, line, None, None, None

    def claims(self):
        """From which line to which it holds a claim; None for one that holds none."""
        return self.claimed and (self.claimed, self.closed)

    def writes(self):
        if self.opened.words[2] == "w":
            return self.opened, self.closed
        return (self.claimed, self.closed) if self.kind and self.kind[0] != "none" else None

    def writes_beside(self, kind):
        """From where to where it writes without a claim of this kind."""
        writes = self.writes()
        if writes and self.kind == kind:
            return None if writes[0] is self.claimed else (writes[0], self.claimed)
        return writes


# ---- what a thread is certain of

class Handle:
    def __init__(self, line, device):
        self.line = line
        self.device = device
        self.writes = line.words[2] == "w"
        self.is_told = False  # its remove event was taken
        self.is_shut = False  # its thread closed it by itself
        self.refuses = False  # a submission is refused: it was told, or the thread has the removal's mark
        self.open = []  # its requests that may be open yet


class Seat:
    def __init__(self):
        self.names = {}
        # The devices whose removal began, those that were destructed, those over one whose removal began, and those over one that is
        # marked here. A device is over itself.
        self.began, self.destructed, self.going, self.marked = set(), set(), set(), set()

    def learn(self, began=(), destructed=(), going=()):
        self.began.update(began, destructed)
        self.destructed.update(destructed)
        self.going.update(self.began, going)

    def knows(self):
        return set(self.began), set(self.destructed), set(self.going)


def is_over(device, devices):
    return any(lower in devices for lower in device.below)


class Moment:
    """How far the threads are in an order that is looked for, and what the registry has of a device then."""

    def __init__(self, threads, device):
        self.places = [0] * threads
        # The handles that are open, each with whether it writes and its claim. The device stands for the handle of those on it.
        self.holds = {device: (True, ("exclusive",))} if device.users else {}
        self.removed = False
        self.asked = set()  # the devices of which a line began the removal
        self.marks = set()

    def copy(self):
        other = Moment.__new__(Moment)
        other.places, other.holds, other.removed = list(self.places), dict(self.holds), self.removed
        other.asked, other.marks = set(self.asked), set(self.marks)
        return other

    def key(self):
        return tuple(self.places), self.removed, any(isinstance(hold, Device) for hold in self.holds)

    def is_going(self, device):
        return is_over(device, self.asked)

    def may_follow(self, device):
        """Whether it may be removed as what stands on a device that goes."""
        return not self.removed and self.is_going(device)

    def may_release(self, device):
        """Whether those that stand on it may be gone."""
        return device in self.holds and all(user in self.asked for user in device.users)

    def do(self, line, device, devices):
        self.places[line.thread] += 1
        if not line.is_("ok"):
            return
        if line.word == "post":
            self.marks.add(line.words[0])
        if line.word == "remove":
            self.asked.add(devices[line.words[0]])
            self.removed |= line.words[0] == device.name
        if line.hold is not None and line.hold.device is device:
            if line.word == "open":
                self.holds[line.hold] = (line.words[2] == "w", None)
            elif line.word == "claim":
                kind = tuple(line.words[1:])
                self.holds[line.hold] = (self.holds[line.hold][0] or kind[0] != "none", kind)
            elif line.word == "close":
                del self.holds[line.hold]


class Check:
    def __init__(self, text, threads, devices, report):
        self.threads = threads
        self.devices = {}
        for name, blocks, size, *more in devices:
            kind, base, *more = more or ("malloc", None)
            self.devices[name] = Device(name, blocks, size, kind, self.devices.get(base), *more)
        self.faults = []
        self.lines = script_lines(text)
        self.of_thread = [[] for _ in range(threads)]
        for line in self.lines:
            line.place = len(self.of_thread[line.thread])
            self.of_thread[line.thread].append(line)
        self.report = report
        self.opened = []  # the handles of the run, each with its Line

    def fault(self, line, text):
        where = "the report" if line is None else "line %d (%d %s %s): %s" % (
            line.number, line.thread, line.word, " ".join(line.words), " ".join(map(str, line.result)))
        self.faults.append("%s: %s" % (where, text))

    # ---- the report's form

    def read_report(self):
        """Takes the job lines, and keeps the others. False where the form is broken."""
        if not self.report.endswith("\n"):
            self.fault(None, "the last line doesn't end")
            return False
        told = self.report[:-1].split("\n")
        self.gone_lines = []
        self.ends = []
        for line, text in zip(self.lines, told):
            match = re.fullmatch(r"job (\d+) (\d+) (\S+) (.*)", text)
            if not match or (int(match[1]), int(match[2]), match[3]) != (line.number, line.thread, line.word):
                self.fault(None, "%r doesn't stand for line %d" % (text, line.number))
                return False
            line.result = result_of(match[4])
            if line.result is None or (line.word == "read" and line.is_("success")) or (len(line.result) == 3 and line.word != "read"):
                self.fault(None, "%r has no result of its command" % text)
                return False
        if len(told) < len(self.lines):
            self.fault(None, "it has %d lines for %d commands" % (len(told), len(self.lines)))
            return False
        rest = told[len(self.lines):]
        count = next((i for i, text in enumerate(rest) if not text.startswith("gone ")), len(rest))
        self.gone_lines, self.ends = rest[:count], rest[count:]
        return True

    # ---- the order of lines

    def find_order(self):
        """Gives each done line its clock. `self.sorted` has them in an order that fits."""
        posts = {}
        for line in self.lines:
            if line.word == "post" and line.is_("ok"):
                posts.setdefault(line.words[0], []).append(line)
        self.posts = posts
        next_place = [0] * self.threads
        clocks = [[0] * self.threads for _ in range(self.threads)]
        self.sorted = []
        moved = True
        while moved:
            moved = False
            for thread in range(self.threads):
                lines, clock = self.of_thread[thread], clocks[thread]
                while next_place[thread] < len(lines):
                    line = lines[next_place[thread]]
                    if not line.is_done():
                        break
                    if line.word == "await":
                        sources = posts.get(line.words[0], [])
                        if not any(source.clock for source in sources):
                            break
                        # Of a mark that is posted twice, either may be the one.
                        if len(sources) == 1:
                            clock[:] = map(max, clock, sources[0].clock)
                    clock[thread] = next_place[thread] + 1
                    line.clock = tuple(clock)
                    self.sorted.append(line)
                    next_place[thread] += 1
                    moved = True
        for thread in range(self.threads):
            rest = self.of_thread[thread][next_place[thread]:]
            if rest and rest[0].is_done():
                self.fault(rest[0], "no thread can have posted this mark before")
                return False
            for line in rest:
                if line.is_done():
                    self.fault(line, "a line before it was never done")
                    return False
        return True

    def is_before(self, first, second):
        """Whether the first line is certain to come before the second."""
        return first is not second and second.clock[first.thread] > first.place

    # ---- removal

    def find_removals(self):
        """Finds of each device the one `remove` that began its removal, if any was done."""
        for device in self.devices.values():
            tried = [line for line in self.sorted if line.word == "remove" and line.words[0] == device.name]
            began = [line for line in tried if line.is_("ok")]
            if len(began) > 1:
                self.fault(began[1], "a removal began twice; before at line %d" % began[0].number)
            device.removal = began[0] if began else None
        # What stands on a device that goes, goes too, whether a script asks for it or not.
        for line in self.sorted:
            device = self.devices.get(line.words[0]) if line.word == "remove" else None
            if device and not device.goings():
                self.fault(line, "the first removal has to be ok, and none is")

    def may_be_removing(self, line, device):
        """Whether some order has a removal begun before this line by which the device goes."""
        return any(line is not removal and not self.is_before(line, removal) for removal in device.goings())

    # ---- the registry: opens, claims, closes and removals

    def find_holds(self):
        """Gives each line that names a handle what that name is bound to there."""
        for thread in range(self.threads):
            names = {}
            for line in self.of_thread[thread]:
                if not line.is_done():
                    break
                if line.word == "open":
                    device = self.devices.get(line.words[1])
                    if line.is_("ok") and device:
                        names[line.words[0]] = line.hold = Hold(device, line)
                        device.holds.append(line.hold)
                elif line.word in ("close", "claim", "gone") + REQUESTS and line.words[0] in names:
                    line.hold = names[line.words[0]]
                    if line.word == "claim" and line.is_("ok") and not line.hold.claimed:
                        line.hold.claimed, line.hold.kind = line, tuple(line.words[1:])
                    if line.word == "close" and line.is_("ok"):
                        line.hold.closed = line
                        del names[line.words[0]]

    def causes(self, line):
        """What stands in the way of a claim or an open, each as the lines from which to which it does."""
        if line.word == "open":
            holds = self.devices[line.words[1]].holds
            return [hold.claims() for hold in holds if hold.claims()] if line.words[2] == "w" else []
        own, kind, found = line.hold, tuple(line.words[1:]), []
        for hold in own.device.holds:
            if hold is own:
                if own.claimed and own.claimed is not line:
                    found.append(own.claims())
                if kind[0] == "none" and own.opened.words[2] == "w":
                    found.append((own.opened, own.closed))
                continue
            if hold.claims() and (kind[0] in ("exclusive", "one") or hold.kind != kind):
                found.append(hold.claims())
            writes = hold.writes_beside(kind) if kind[0] == "shared" else hold.writes() if kind[0] != "exclusive" else None
            if writes:
                found.append(writes)
        return found

    def is_refused(self, line):
        """Whether a claim or an open is refused with errno 1 by the table of claims; None where that isn't certain."""
        may = False
        device = self.devices[line.words[1]] if line.word == "open" else line.hold.device
        if device.users and (line.word == "claim" or line.words[2] == "w"):
            # It is claimed for those that stand on it, until they are gone.
            if not all(self.may_be_removing(line, user) for user in device.users):
                return True
            may = True
        for begin, end in self.causes(line):
            if self.is_before(begin, line) and (end is None or self.is_before(line, end)):
                return True
            if not self.is_before(line, begin) and (end is None or not self.is_before(end, line)):
                may = True
        return None if may else False

    def fits(self, line, device, now):
        """Whether the registry answers this line so."""
        word, result, holds = line.word, line.result, now.holds
        if word == "await":
            return line.words[0] in now.marks or line.words[0] not in self.posts
        if word == "open" and line.words[1] == device.name and line.hold or word == "claim" and line.hold and line.hold.device is device:
            claims = [(hold, kind) for hold, (_, kind) in holds.items() if kind]
            writers = [(hold, kind) for hold, (writes, kind) in holds.items() if writes]
        if word == "open" and line.words[1] == device.name:
            if result == ("ok",):
                return not now.is_going(device) and (line.words[2] == "r" or not claims)
            if result == ("errno", PERM):
                return not now.is_going(device) and any(kind for _, kind in holds.values())
            return now.is_going(device) or result != ("errno", NODEV)
        if word == "remove" and line.words[0] == device.name:
            return now.removed != (result == ("ok",))
        if word == "remove" and self.devices.get(line.words[0]) in device.below:
            return result == ("ok",) or now.is_going(self.devices[line.words[0]])
        if line.hold is None or line.hold.device is not device:
            return True
        if word == "claim" and result in (("ok",), ("errno", PERM)):
            own, kind = line.hold, tuple(line.words[1:])
            if kind[0] in ("exclusive", "one"):
                refused = bool(claims)
            else:
                refused = holds[own][1] is not None or any(other != kind for _, other in claims)
            if kind[0] == "one":
                refused |= any(hold is not own for hold, _ in writers)
            elif kind[0] == "none":
                refused |= bool(writers)
            elif kind[0] == "shared":
                refused |= any(hold is not own and other != kind for hold, other in writers)
            return not now.removed and refused == (result != ("ok",))
        if word == "claim" and result == ("errno", INVAL):
            return not now.removed
        if word in REQUESTS:
            return now.is_going(device) or result != ("errno", NODEV)
        return now.removed or result != ("errno", NODEV) and word != "gone"

    def changes(self, line, device, holds):
        """Whether a line that fits makes a difference to what others are answered."""
        if line.word == "remove":
            return self.devices.get(line.words[0]) in device.below and line.is_("ok")
        if not line.is_("ok") or line.hold is None or line.hold.device is not device:
            return False
        if line.word == "open":
            return line.words[2] == "w"
        return line.word == "claim" or line.word == "close" and any(holds[line.hold])

    def check_order_at(self, device):
        """Looks for one order in which all opens, claims, closes and removals of a device come to what the report says."""
        tasks = [Moment(self.threads, device)]
        seen, furthest = set(), None
        while tasks:
            now = tasks.pop()
            places, moved = now.places, True
            while moved:
                moved, choices = False, []
                for thread in range(self.threads):
                    lines = self.of_thread[thread]
                    while places[thread] < len(lines):
                        line = lines[places[thread]]
                        if not line.is_done() or not self.fits(line, device, now):
                            break
                        if self.changes(line, device, now.holds):
                            choices.append(line)
                            break
                        now.do(line, device, self.devices)
                        moved = True
            left = [lines[place] for lines, place in zip(self.of_thread, places) if place < len(lines) and lines[place].is_done()]
            if not left:
                return
            if furthest is None or sum(places) > furthest[0]:
                furthest = sum(places), left
            key = now.key()
            if key in seen:
                continue
            seen.add(key)
            if len(seen) > MOST_STEPS:
                return
            # The last one is tried first: opens, then closes and claims, and removals only where nothing else is left. What no line
            # asks for comes before that only where it has to.
            if now.may_follow(device):
                tasks.append(now.copy())
                tasks[-1].removed = True
            if now.may_release(device):
                tasks.append(now.copy())
                del tasks[-1].holds[device]
            choices.sort(key=lambda line: ("remove", "claim", "close", "open").index(line.word))
            for line in choices:
                tasks.append(now.copy())
                tasks[-1].do(line, device, self.devices)
        self.fault(furthest[1][0], "no order of all opens, claims, closes and removals of %s gives this" % device.name)

    # ---- what each line may come to

    def expect(self, line, *results):
        if line.result not in results:
            self.fault(line, "it may be %s" % " or ".join(sorted({" ".join(map(str, result)) for result in results})))
            return False
        return True

    def end_requests(self, seat, handles, line):
        """The requests of these handles have ended by this line."""
        for handle in handles:
            for request in handle.open:
                request.ended = line
                if request.is_("aborted") and not self.stops.causes(request):
                    seat.marked.add(handle.device)
                    seat.learn(going=[handle.device])
            handle.open = []

    def open_line(self, seat, line):
        name = line.words[0]
        handle = seat.names.get(name)
        device = self.devices.get(line.words[1])
        results = []
        if handle is not None and not handle.is_shut:
            if not is_over(handle.device, seat.destructed):
                results.append(("errno", EXIST))
            # The name is free once its handle was closed; what it answers then depends on the device.
            if self.may_be_removing(line, handle.device) and line.result != ("errno", EXIST):
                self.told(seat, handle)
                self.shut(seat, handle, line)
        if handle is None or handle.is_shut:
            if device is None or is_over(device, seat.going):
                results.append(("errno", NODEV))
            else:
                refused = self.is_refused(line)
                if refused is not True:
                    results.append(("ok",))
                if refused is not False:
                    results.append(("errno", PERM))
                if self.may_be_removing(line, device):
                    results.append(("errno", NODEV))
        if not self.expect(line, *results):
            return
        if line.is_("ok"):
            seat.names[name] = Handle(line, device)
            self.opened.append(seat.names[name])
        if line.is_errno(NODEV) and device is not None:
            seat.learn(going=[device])

    def told(self, seat, handle):
        handle.is_told = handle.refuses = True
        seat.learn([handle.device])

    def shut(self, seat, handle, line):
        handle.is_shut = True
        self.end_requests(seat, [handle], line)

    def close_line(self, seat, line):
        name = line.words[0]
        handle = seat.names.get(name)
        if handle is None:
            self.expect(line, ("errno", BADF))
            return
        results = []
        if not (handle.is_shut or handle.is_told or is_over(handle.device, seat.destructed)):
            results.append(("ok",))
        if self.may_be_removing(line, handle.device):
            results.append(("errno", NODEV))
        if line.result[0] == "busy" and not handle.is_shut and not is_over(handle.device, seat.destructed):
            if 1 <= line.result[1] <= min(len(handle.open), MOST_OPEN):
                results.append(line.result)
        if not self.expect(line, *results):
            return
        if line.is_("ok"):
            del seat.names[name]
            handle.closed = True
            self.end_requests(seat, [handle], line)
        if line.is_errno(NODEV):
            self.told(seat, handle)
            self.shut(seat, handle, line)

    def claim_line(self, seat, line):
        handle = seat.names.get(line.words[0])
        if handle is None:
            self.expect(line, ("errno", BADF))
            return
        results = []
        if not (handle.is_shut or handle.device in seat.began):
            if line.words[1:] == ["shared", "0"]:
                results.append(("errno", INVAL))
            else:
                refused = self.is_refused(line)
                if refused is not True:
                    results.append(("ok",))
                if refused is not False:
                    results.append(("errno", PERM))
        if self.may_be_removing(line, handle.device):
            results.append(("errno", NODEV))
        if self.expect(line, *results):
            if line.is_("ok") and line.words[1] != "none":
                handle.writes = True
            if line.is_errno(NODEV):
                seat.learn([handle.device])

    def request_line(self, seat, line):
        handle = seat.names.get(line.words[0])
        if handle is None:
            self.expect(line, ("errno", BADF))
            return
        results = []
        device = handle.device
        if not (handle.refuses or handle.is_shut or is_over(device, seat.marked) or is_over(device, seat.destructed)):
            lba, count = (0, 0) if line.word in ("reset", "abort") else (int(line.words[1]), int(line.words[2]))
            if line.word in ("reset", "abort"):
                results.append(("success",))
            elif line.word != "read" and not handle.writes:
                results.append(("errno", BADF))
            elif count == 0 or count * device.size > MOST_BYTES or lba + count > device.blocks:
                results.append(("errno", INVAL))
            else:
                results.append(line.result if line.result[0] == "success" else ("success",))
                results.append(("aborted",))
                if self.stops.may_fail(line):
                    results.append(("failed",))
        if self.may_be_removing(line, device):
            results.append(("errno", NODEV))
        if not self.expect(line, *results):
            return
        if line.is_accepted() and line.word == "abort":
            line.ended = line
        elif line.is_accepted():
            handle.open.append(line)
        if line.is_errno(NODEV):
            handle.refuses = True
            seat.learn(going=[device])

    def remove_line(self, seat, line):
        device = self.devices.get(line.words[0])
        if device is None:
            self.expect(line, ("errno", NODEV))
            return
        results = []
        if line is device.removal and device not in seat.began:
            results.append(("ok",))
        if self.may_be_removing(line, device):
            if not is_over(device, seat.destructed):
                results.append(("errno", BUSY))
            # A device is destructed once no handle on it is open, and what stands on it is gone.
            holds = [hold for upper in self.devices.values() if device in upper.below for hold in upper.holds]
            if not any(hold.closed and self.is_before(line, hold.closed) for hold in holds):
                results.append(("errno", NODEV))
        if self.expect(line, *results):
            seat.learn([device], [device] if line.is_errno(NODEV) else [])

    def gone_line(self, seat, line):
        handle = seat.names.get(line.words[0])
        if handle is None:
            self.expect(line, ("errno", BADF))
        elif not line.is_("ok") or not self.may_be_removing(line, handle.device):
            self.fault(line, "it may be ok, once a removal began")
        else:
            self.told(seat, handle)

    def line(self, seat, line):
        if line.word == "open":
            self.open_line(seat, line)
        elif line.word == "close":
            self.close_line(seat, line)
        elif line.word == "claim":
            self.claim_line(seat, line)
        elif line.word in REQUESTS:
            self.request_line(seat, line)
        elif line.word == "remove":
            self.remove_line(seat, line)
        elif line.word == "gone":
            self.gone_line(seat, line)
        elif self.expect(line, ("ok",)):
            if line.word == "wait":
                self.end_requests(seat, list(seat.names.values()), line)
            elif line.word == "post":
                line.knows = seat.knows()
            elif line.word == "await":
                sources = self.posts[line.words[0]]
                if len(sources) == 1:
                    seat.learn(*sources[0].knows)

    def play(self):
        self.seats = [Seat() for _ in range(self.threads)]
        for line in self.sorted:
            self.line(self.seats[line.thread], line)
            if len(self.faults) > 20:
                return

    def check_aborts(self):
        for line in self.sorted:
            if line.is_("aborted") and not self.stops.causes(line) and not self.stops.is_kept(line):
                goings = line.hold.device.goings()
                if not goings:
                    self.fault(line, "nothing was removed or asked for that could stop it")
                elif line.ended is not None and all(self.is_before(line.ended, removal) for removal in goings):
                    self.fault(line, "it had ended before the removal began")

    def check_skipped(self):
        """The first line that a thread never did has to wait for what never comes."""
        for thread in range(self.threads):
            line = next((line for line in self.of_thread[thread] if not line.is_done()), None)
            if line is None:
                continue
            waits = line.word == "await" and line.words[0] not in self.posts
            if line.word == "wait":
                waits = any(self.stops.hangs(request) for request in self.of_thread[thread][: line.place])
            if line.word == "gone":
                handle = self.seats[thread].names.get(line.words[0])
                waits = handle is not None and not handle.device.goings()
            if not waits:
                self.fault(line, "it has nothing to wait for")

    # ---- data

    def check_data(self):
        """Checks what each read shows, and gives the digests that each device may have at the end."""
        writes, parts = {}, {}
        for line in self.sorted:
            if line.word in WRITERS and line.is_("success"):
                for block in self.blocks_of(line):
                    of_thread = writes.setdefault((line.hold.device.root, block), {}).setdefault(line.thread, ([], []))
                    ended = len(self.lines) if line.ended is None else line.ended.place
                    of_thread[0].append(line)
                    of_thread[1].append(max(ended, of_thread[1][-1]) if of_thread[1] else ended)
            elif line.word in WRITERS and line.is_("aborted") and (line.hold.device.is_cut(line) or self.stops.is_held(line)):
                # Some of its pieces may have been done, or all, and it was held then.
                for block in self.blocks_of(line):
                    parts.setdefault((line.hold.device.root, block), []).append(line)

        def values(read, root, block):
            if root.kind == "null":
                return {None}
            return self.values_at(read, writes.get((root, block), {}), parts.get((root, block), ()), block)

        for line in self.sorted:
            if line.word == "read" and line.result[0] == "success":
                device = line.hold.device
                choices = [values(line, device.root, block) for block in self.blocks_of(line)]
                self.check_read(patterns_of(device.size), line, choices)
        digests = {}
        for device in self.devices.values():
            if device.kind == "malloc":
                choices = [values(None, device, block) for block in range(device.blocks)]
                digests[device.name] = patterns_of(device.size).digests(choices)
        return digests

    def values_at(self, read, writes, parts, block):
        """What a block may hold for a read, or at the end, where `read` is None."""
        had_ended = lambda line: any(read is None or self.is_before(end, read) for end in self.stops.ends(line))
        is_later = lambda line: read is not None and read.ended is not None and self.is_before(read.ended, line)
        # Of each thread, how many lines had certainly come before a write that had ended before the read.
        covered, is_written = [0] * self.threads, False
        for lines, _ in writes.values():
            last = next((line for line in reversed(lines) if had_ended(line)), None)
            if last is not None:
                is_written = True
                covered = list(map(max, covered, last.clock))
        found = set() if is_written else {None}
        is_covered = lambda line: line.ended is not None and line.ended.place < covered[line.thread]
        for thread, (lines, latest_ends) in writes.items():
            for line, latest in zip(reversed(lines), reversed(latest_ends)):
                if latest < covered[thread]:
                    break
                if not is_covered(line) and not is_later(line):
                    found.add(value_of(line, block))
        found.update(value_of(line, block) for line in parts if not is_covered(line) and not is_later(line))
        return found

    def blocks_of(self, line):
        """The blocks of the content that a request is for."""
        begin = line.hold.device.under + int(line.words[1])
        return range(begin, begin + int(line.words[2]))

    def check_read(self, patterns, line, choices):
        shown = line.result[1:]
        digests = patterns.digests(choices)
        if digests is None:
            firsts = {patterns.blocks[value][:8].hex() for value in choices[0]}
            if shown[0] not in firsts:
                self.fault(line, "no order gives these first bytes")
        elif shown not in digests:
            self.fault(line, "no order gives this data")

    # ---- the lines after the jobs

    def check_gone_lines(self):
        """A handle was told exactly if it was opened and its script didn't close it: the end of a run removes the device where no
        script did."""
        told = [handle for handle in self.opened if not hasattr(handle, "closed")]
        told.sort(key=lambda handle: (handle.line.thread, handle.line.place))
        expected = ["gone %d %s %s" % (handle.line.thread, handle.line.words[0], handle.device.name) for handle in told]
        if self.gone_lines != expected:
            for text in expected:
                if self.gone_lines.count(text) < expected.count(text):
                    self.fault(None, "it lacks the line %r" % text)
            for text in self.gone_lines:
                if text not in expected or self.gone_lines.count(text) > expected.count(text):
                    self.fault(None, "the line %r is too much" % text)
            if sorted(self.gone_lines) == sorted(expected):
                self.fault(None, "its gone lines stand in another order")

    def check_ends(self, digests):
        counts = []
        for thread in range(self.threads):
            lines = [line for line in self.of_thread[thread] if line.word in REQUESTS]
            ended = [sum(line.result[0] == word for line in lines) for word in ("success", "failed", "aborted")]
            counts.append([sum(ended)] + ended + [sum(line.result[0] == "errno" for line in lines)])
        text = ["thread %d accepted %d success %d failed %d aborted %d refused %d" % (thread, *counts[thread])
                for thread in range(self.threads) if self.of_thread[thread]]
        for device in self.devices.values():
            moved = []
            for word in ("read", "write"):
                done = [line for line in self.sorted if line.word == word and line.result[0] == "success" and line.hold.device is device]
                moved.append((len(done), sum(int(line.words[2]) for line in done) * device.size))
            text.append("device %s %s blocks %d size %d reads %d writes %d read_bytes %d write_bytes %d%s" % (
                device.name, device.kind, device.blocks, device.size, moved[0][0], moved[1][0], moved[0][1], moved[1][1],
                " sha256 D" if device.kind == "malloc" else ""))
        text.append("end accepted %d success %d failed %d aborted %d" % tuple(map(sum, zip(*[count[:4] for count in counts]))))
        shown = {}
        ends = list(self.ends)
        for place, line in enumerate(ends):
            match = re.fullmatch(r"(device (\S+) .* sha256 )([0-9a-f]{64})", line)
            if match:
                ends[place], shown[match[2]] = match[1] + "D", match[3]
        if ends != text:
            for pair in itertools.zip_longest(ends, text):
                if pair[0] != pair[1]:
                    self.fault(None, "%r stands for %r" % pair)
            return
        for name in digests:
            if digests[name] is not None and shown[name] not in {digest for _, digest in digests[name]}:
                self.fault(None, "no order leaves the content of %s with the digest of its device line" % name)

    def run(self):
        if not self.read_report() or not self.find_order():
            return self.faults
        self.find_removals()
        self.find_holds()
        self.stops = Stops(self)
        self.play()
        if self.faults:
            return self.faults
        for device in self.devices.values():
            self.check_order_at(device)
        self.check_aborts()
        self.stops.check_injections()
        self.check_skipped()
        digests = self.check_data()
        self.check_gone_lines()
        self.check_ends(digests)
        return self.faults


def faults(text, threads, devices, report):
    return Check(text, threads, devices, report).run()
