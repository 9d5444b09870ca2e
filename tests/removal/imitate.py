"""Plays a script by the rules of docs/MODEL.md in an order by chance, and gives the report.

It serves to try the checker: whatever the order, the checker must find nothing wrong with what comes out. It shares no
code with the program or the checker, and knows malloc and null devices, passthrus and parts of splits. Each thread acts in single
steps; which thread is next, and which of the things that it may do it does, is left to chance.

A device is (name, blocks, size), or with more: (name, blocks, size, kind, base, shift, boundary), where base is the name of the
device that it stands on, at block `shift` of it, and requests are cut at multiples of `boundary`. What a delay device, an error
device or a limit does to requests, and what resets and aborts do, stopping.py adds.
"""

import hashlib
import random
from collections import Counter, deque

WRITERS = ("write", "zeroes", "unmap", "flush")
REQUESTS = ("read",) + WRITERS
# The pattern that begins with 0. Another one begins elsewhere in it: its first byte f stands at 183 * f, as 7 * 183 is 1
# modulo 256.
STEPS = bytes(7 * i % 256 for i in range(256))


class Device:
    def __init__(self, place, name, blocks, size, kind="malloc", base=None, shift=0, boundary=0, faults=None):
        self.place, self.name, self.blocks, self.size, self.kind, self.faults = place, name, blocks, size, kind, faults or {}
        self.base, self.shift, self.boundary = base, shift, boundary
        # From this one down to the one with the content; and those that stand on this one.
        self.below, self.users = [self] + (base.below if base else []), []
        self.root = self.below[-1]
        if base:
            base.users.append(self)
        self.standing = "live"
        self.named = False  # for destruction
        self.queue, self.content = deque(), [] if base else [bytes(size)] * blocks
        self.moved = dict(read=[0, 0], write=[0, 0])
        self.digest = None

    def pieces(self, lba, count):
        """The extents of a request: each as its first block, and how many. One begins where some device below has a boundary."""
        found = []
        for block in range(lba, lba + count):
            number, is_cut = block, block == lba
            for device in self.below:
                is_cut = is_cut or device.boundary > 0 and number % device.boundary == 0
                number += device.shift
            if is_cut:
                found.append([block, 0])
            found[-1][1] += 1
        return found

    def under(self, block):
        """The block of the content under a block of this device."""
        return block + sum(device.shift for device in self.below)


class Handle:
    def __init__(self, thread, name, device, write):
        self.thread, self.name, self.device, self.write, self.claim = thread, name, device, write, None
        self.is_open = self.was_told_open = self.is_gone = False
        self.requests = 0

    def is_base_handle(self):
        return self.name is None


class Request:
    def __init__(self, line, words, handle):
        self.line, self.words, self.handle, self.status = line, words, handle, "success"
        self.data = {}  # by piece
        self.out = 0  # pieces that were sent and aren't back


class Thread:
    def __init__(self):
        self.lines, self.next, self.names, self.marks = [], 0, {}, set()
        self.marked = set()  # devices
        self.unsent, self.ended = [], []  # pieces that aren't sent, each with its request; requests of which all came back
        self.open = 0
        self.due = []  # messages to be put: (receiver, message)
        self.owed = []  # what is to be done once: "drop", "destruct", "report", "follow" or "release", with the device
        self.gone = []  # handles that it has to close
        self.references, self.channels = Counter(), set()  # of devices
        self.counts = dict(accepted=0, success=0, failed=0, aborted=0, refused=0)


class Imitation:
    def __init__(self, text, threads, devices, seed):
        self.random = random.Random(seed)
        self.devices = {}
        for place, (name, blocks, size, *more) in enumerate(devices):
            kind, base, *more = more or ("malloc", None)
            self.devices[name] = Device(place, name, blocks, size, kind, self.devices.get(base), *more)
        for device in self.devices.values():
            device.home = device.root.place % threads
        self.threads = [Thread() for _ in range(threads)]
        self.results, self.jobs = {}, []
        for number, line in enumerate(text.split("\n"), 1):
            words = line.replace("\t", " ").split()
            if words and not line.startswith("#"):
                self.threads[int(words[0])].lines.append((number, words[1:]))
                self.jobs.append((number, words[0], words[1]))
        self.rings = [[deque() for _ in range(threads)] for _ in range(threads)]
        self.waiting = [0] * threads
        # A device that others stand on is open for them, and claimed.
        self.handles = []
        for device in self.devices.values():
            if device.users:
                handle = Handle(device.home, None, device, True)
                handle.is_open, handle.claim = True, ["exclusive"]
                self.handles.append(handle)
        self.shut = False
        # How willing a thread is to do each kind of thing differs from run to run.
        kinds = ("take", "put", "line", "send", "abort", "complete", "close", "owe", "serve")
        self.weights = {kind: self.random.choice([0.02, 0.3, 1, 1, 5]) for kind in kinds}
        self.weights["send"] *= self.random.choice([0.01, 1])

    # ---- what a thread may do now, each kind with the call that does it

    def choices(self, t):
        thread = self.threads[t]
        if self.waiting[t]:
            yield "take", self.take
        if thread.due:
            yield "put", self.put
        if not self.shut and thread.next < len(thread.lines) and self.outcome(t, try_only=True):
            yield "line", self.outcome
        if thread.unsent:
            yield "send", self.send
            if any(self.is_marked(thread, request.handle.device) for request, _ in thread.unsent):
                yield "abort", self.abort
        if thread.ended:
            yield "complete", self.complete
        if any(handle.requests == 0 for handle in thread.gone):
            yield "close", self.close_gone
        if thread.owed:
            yield "owe", self.pay
        if any(device.queue for device in self.devices.values() if device.home == t):
            yield "serve", self.serve

    def is_marked(self, thread, device):
        return any(lower in thread.marked for lower in device.below)

    def play(self):
        while True:
            some = list(range(len(self.threads)))
            self.random.shuffle(some)
            moved = False
            for t in some:
                choices = list(self.choices(t))
                if choices:
                    moved = True
                    weights = [self.weights[kind] for kind, _ in choices]
                    # Now and then a thread rests, so that some are much slower than others.
                    if self.random.random() < 0.9:
                        for _ in range(self.random.choice([1, 1, 2, 6])):
                            kind, call = self.random.choices(choices, weights)[0]
                            call(t)
                            choices = list(self.choices(t))
                            weights = [self.weights[kind] for kind, _ in choices]
                            if not choices:
                                break
            if not moved and not self.pass_time():
                if self.shut:
                    return self.report()
                self.shut = True
                for device in reversed(self.devices.values()):
                    if device.standing == "live":
                        self.begin_removal(0, device)

    def pass_time(self):
        """Whether something goes on that had to wait for time alone."""
        return False

    # ---- messages

    def send_to(self, sender, receiver, message):
        self.rings[sender][receiver].append(message)
        self.waiting[receiver] += 1

    def take(self, t):
        source = self.random.choice([s for s in range(len(self.threads)) if self.rings[s][t]])
        message = self.rings[source][t].popleft()
        self.waiting[t] -= 1
        self.came(t, *message)

    def came(self, t, kind, what):
        thread = self.threads[t]
        if kind == "piece":
            what[1].handle.device.root.queue.append(what)
        elif kind == "back":
            self.back(thread, what)
        elif kind == "mark":
            thread.marks.add(what)
        elif kind == "gone":
            what.is_gone = True
            if what.is_base_handle():
                # What stands on a device that goes, goes too.
                thread.owed += [("follow", user) for user in what.device.users]
            elif what.is_open:
                what.was_told_open = True
                thread.gone.append(what)
        elif kind == "walk":
            device, begun_by, left = what
            if left and left[0] == t:
                thread.marked.add(device)
                left = left[1:]
            if left or t != begun_by:
                thread.due.append((left[0] if left else begun_by, ("walk", (device, begun_by, left))))
        else:
            thread.owed.append((kind, what))

    def put(self, t):
        due = self.threads[t].due
        receiver, message = due.pop(self.random.randrange(len(due)))
        self.send_to(t, receiver, message)

    # ---- requests

    def send(self, t):
        unsent = self.threads[t].unsent
        request, piece = unsent.pop(self.random.choice([0, 0, self.random.randrange(len(unsent))]))
        request.out += 1
        self.send_to(t, request.handle.device.home, ("piece", (t, request, piece)))

    def back(self, thread, request):
        request.out -= 1
        if request.out == 0 and not any(other is request for other, _ in thread.unsent):
            thread.ended.append(request)

    def abort(self, t):
        thread = self.threads[t]
        request = self.random.choice([request for request, _ in thread.unsent if self.is_marked(thread, request.handle.device)])
        thread.unsent = [(other, piece) for other, piece in thread.unsent if other is not request]
        request.status = "aborted"
        if request.out == 0:
            thread.ended.append(request)

    def queue_of(self, t):
        """A queue of this home in which a piece waits."""
        return self.random.choice([device.queue for device in self.devices.values() if device.home == t and device.queue])

    def serve(self, home):
        self.serve_one(home, *self.queue_of(home).popleft())

    def serve_one(self, home, t, request, piece):
        word, device = request.words[0], request.handle.device
        lba, count = piece
        content = device.root.content
        # A null device takes what is written and keeps none of it.
        kept = range(lba, lba + count) if device.root.kind == "malloc" else ()
        for block in kept:
            if word == "write":
                first = self.first_byte(request, block)
                content[device.under(block)] = (STEPS * 2)[first * 183 % 256:][:256] * (device.size // 256)
            elif word in ("zeroes", "unmap"):
                content[device.under(block)] = bytes(device.size)
        if word == "read":
            request.data[lba] = b"".join(content[device.under(lba):device.under(lba) + count])
        self.threads[home].due.append((t, ("back", request)))

    def first_byte(self, request, block):
        """What a write puts first in a block of its device."""
        return int(request.words[4]) + 31 * block

    def complete(self, t):
        thread = self.threads[t]
        request = thread.ended.pop(self.random.randrange(len(thread.ended)))
        thread.open -= 1
        request.handle.requests -= 1
        thread.counts[request.status] += 1
        result = request.status
        device = request.handle.device
        if result == "success" and request.words[0] in device.moved:
            moved = device.moved[request.words[0]]
            moved[0] += 1
            moved[1] += int(request.words[3]) * device.size
            if request.words[0] == "read":
                data = b"".join(request.data[lba] for lba in sorted(request.data))
                result += " first %s sha256 %s" % (data[:8].hex(), hashlib.sha256(data).hexdigest())
        self.results[request.line] = result

    # ---- handles, channels and the device

    def free(self, t, device):
        """Names the device for destruction once it is being removed and nothing keeps it."""
        kept = any(handle.is_open for handle in self.handles if handle.device is device)
        kept = kept or any(device in thread.channels for thread in self.threads)
        if device.standing == "removing" and not kept and not device.named:
            device.named = True
            self.threads[t].due.append((device.home, ("destruct", device)))

    def get_channel(self, thread, device):
        thread.references[device] += 1
        if device not in thread.channels:
            thread.channels.add(device)
            if device.base:
                self.get_channel(thread, device.base)

    def put_channel(self, t, device):
        thread = self.threads[t]
        thread.references[device] -= 1
        if thread.references[device] == 0:
            thread.due.append((t, ("drop", device)))

    def close(self, t, handle):
        if not handle.is_base_handle():
            self.put_channel(t, handle.device)
        handle.is_open, handle.claim = False, None
        self.free(t, handle.device)

    def close_gone(self, t):
        thread = self.threads[t]
        handle = self.random.choice([handle for handle in thread.gone if handle.requests == 0])
        thread.gone.remove(handle)
        self.close(t, handle)

    def pay(self, t):
        thread = self.threads[t]
        what, device = thread.owed.pop(self.random.randrange(len(thread.owed)))
        if what == "drop":
            if thread.references[device] == 0 and device in thread.channels:
                thread.channels.remove(device)
                if device.base:
                    self.put_channel(t, device.base)
                self.free(t, device)
        elif what == "destruct":
            if device.kind == "malloc":
                device.digest = hashlib.sha256(b"".join(device.content)).hexdigest()
            thread.owed.append(("report", device))
        elif what == "follow":
            if device.standing == "live":
                self.begin_removal(t, device)
        elif what == "release":
            self.close(t, next(handle for handle in self.open_on(device) if handle.is_base_handle()))
        else:
            device.standing = "destructed"
            if device.base and all(user.standing == "destructed" for user in device.base.users):
                thread.owed.append(("release", device.base))

    def begin_removal(self, t, device):
        thread = self.threads[t]
        device.standing = "removing"
        for handle in self.handles:
            if handle.is_open and handle.device is device:
                thread.due.append((handle.thread, ("gone", handle)))
        left = [u for u, other in enumerate(self.threads) if device in other.channels]
        if left:
            thread.due.append((left[0], ("walk", (device, t, left))))
        self.free(t, device)

    # ---- the script

    def outcome(self, t, try_only=False):
        """Whether the next line goes on; and does it, unless it is only tried."""
        thread = self.threads[t]
        number, words = thread.lines[thread.next]
        word = words[0]
        handle = thread.names.get(words[1]) if len(words) > 1 else None
        if word == "wait" and thread.open > 0:
            return False
        if word == "await" and words[1] not in thread.marks:
            return False
        if word == "gone" and handle is not None and not handle.is_gone:
            return False
        if word in REQUESTS and thread.open >= 1024:
            return False
        if word == "close" and handle is not None and handle.is_open and handle.is_gone and handle.requests == 0:
            return False
        if not try_only:
            result = getattr(self, "do_" + (word if word not in REQUESTS else "request"))(t, thread, words, handle)
            thread.next += 1
            if isinstance(result, Request):
                result.line = number
            else:
                self.results[number] = "ok" if result is None else "errno %s" % result
        return True

    def do_wait(self, *_):
        return None

    do_await = do_wait

    def do_gone(self, t, thread, words, handle):
        return 9 if handle is None else None

    def do_post(self, t, thread, words, handle):
        for u in range(len(self.threads)):
            thread.due.append((u, ("mark", words[1])))

    def do_open(self, t, thread, words, handle):
        if handle is not None and handle.is_open:
            return 17
        device = self.devices.get(words[2])
        if device is None or any(lower.standing != "live" for lower in device.below):
            return 19
        if words[3] == "w" and any(other.claim for other in self.open_on(device)):
            return 1
        handle = Handle(t, words[1], device, words[3] == "w")
        handle.is_open = True
        self.handles.append(handle)
        thread.names[words[1]] = handle
        self.get_channel(thread, device)
        return None

    def open_on(self, device):
        return [handle for handle in self.handles if handle.is_open and handle.device is device]

    def do_close(self, t, thread, words, handle):
        if handle is None:
            return 9
        if not handle.is_open:
            return 19
        if handle.requests > 0:
            return "16 open %d" % handle.requests
        self.close(t, handle)
        del thread.names[words[1]]
        return None

    def do_claim(self, t, thread, words, handle):
        if handle is None:
            return 9
        if not handle.is_open or handle.device.standing != "live":
            return 19
        kind = words[2:]
        if kind == ["shared", "0"]:
            return 22
        everyone = self.open_on(handle.device)
        claims = [other.claim for other in everyone if other.claim]
        writing = [other for other in everyone if other.write and other is not handle]
        if handle.claim or [claim for claim in claims if claim != kind or kind[0] in ("exclusive", "one")]:
            return 1
        if kind[0] == "one" and writing or kind[0] == "none" and (writing or handle.write):
            return 1
        if kind[0] == "shared" and [other for other in writing if other.claim != kind]:
            return 1
        handle.claim = kind
        handle.write |= kind[0] != "none"
        return None

    def do_remove(self, t, thread, words, handle):
        device = self.devices.get(words[1])
        if device is None or device.standing == "destructed":
            return 19
        if device.standing == "removing":
            return 16
        self.begin_removal(t, device)
        return None

    def do_request(self, t, thread, words, handle):
        errno = self.refusal(thread, words, handle)
        if errno is not None:
            thread.counts["refused"] += 1
            return errno
        request = Request(None, words, handle)
        thread.counts["accepted"] += 1
        thread.open += 1
        handle.requests += 1
        thread.unsent += [(request, piece) for piece in handle.device.pieces(int(words[2]), int(words[3]))]
        return request

    def refusal(self, thread, words, handle):
        if handle is None:
            return 9
        if handle.is_gone or (handle.is_open and self.is_marked(thread, handle.device)):
            return 19
        if words[0] in WRITERS and not handle.write:
            return 9
        lba, count = int(words[2]), int(words[3])
        if count == 0 or count * handle.device.size > 262144 or lba + count > handle.device.blocks:
            return 22
        return None

    # ---- the report

    def report(self):
        out = ["job %s %s %s %s" % (number, t, word, self.results.get(number, "skipped")) for number, t, word in self.jobs]
        for t in range(len(self.threads)):
            out += ["gone %d %s %s" % (t, handle.name, handle.device.name) for handle in self.handles if handle.thread == t and handle.was_told_open]
        words = ("accepted", "success", "failed", "aborted")
        for t, thread in enumerate(self.threads):
            if thread.lines:
                out.append(" ".join(["thread %d" % t] + ["%s %d" % (word, thread.counts[word]) for word in words + ("refused",)]))
        for device in self.devices.values():
            (reads, read_bytes), (writes, write_bytes) = device.moved["read"], device.moved["write"]
            digest = " sha256 %s" % device.digest if device.digest else ""
            out.append("device %s %s blocks %d size %d reads %d writes %d read_bytes %d write_bytes %d%s" % (
                device.name, device.kind, device.blocks, device.size, reads, writes, read_bytes, write_bytes, digest))
        out.append("end " + " ".join("%s %d" % (word, sum(thread.counts[word] for thread in self.threads)) for word in words))
        return "\n".join(out) + "\n"


def report(text, threads, devices, seed):
    return Imitation(text, threads, devices, seed).play()
