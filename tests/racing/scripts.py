"""Scripts whose threads race: over 1 to 6 devices, about one in five of which is a null device, on 1 to 16 threads.

`script(number)` makes one of them; one number always gives the same script. The numbers go through the plans below in turn.
The plans of EXACT give scripts whose report is the same in every order of turns: no two requests that are open at once touch
a block that one of them writes, no two threads ask for what only one can get, and nothing is asked whose answer hangs on how
far a removal is. In the others the threads race.
"""

import random
from collections import namedtuple

# `devices` is a list of Device. `exact`: whether no order of turns changes the report.
Made = namedtuple("Made", "text threads devices plan exact")
Device = namedtuple("Device", "name blocks size kind base", defaults=("malloc", None))

MOST_BYTES = 262144
# The bytes that all requests of a script together move at most, but for one block each.
BYTES_IN_ALL = 1 << 20
# How many pieces the queue of a device takes. What a report may say doesn't depend on it.
DEPTHS = (1, 128, 2, 3, 1, 8, 1024)
KINDS = ("exclusive", "one", "none", "shared 7", "shared 8")


class Thread:
    """The lines of one thread as they are made."""

    def __init__(self, maker, number):
        self.maker, self.random, self.number = maker, maker.random, number
        self.lines = []
        self.handles = []  # (name, device)
        self.touched = {}  # of blocks of devices since the last wait: whether an open request writes it
        self.opened = 0

    def say(self, *words):
        self.lines.append(" ".join(str(word) for word in (self.number,) + words))

    def chance(self, part):
        return self.random.random() < part

    def open(self, device, mode="w"):
        name = "h%d" % self.opened
        self.opened += 1
        self.handles.append((name, device))
        self.say("open", name, device[0], mode)
        return self.handles[-1]

    def close(self, handle):
        self.handles.remove(handle)
        self.say("close", handle[0])

    def wait(self):
        self.say("wait")
        self.touched.clear()

    def request(self, handle, first, room, words=("read", "write", "zeroes", "unmap", "flush"), most=8, apart=False):
        """A request in the range of blocks. Where `apart` is asked, a wait comes before one that would race with an open one."""
        maker, (name, device) = self.maker, handle
        word = self.random.choices(words, [{"read": 6, "write": 9}.get(word, 2) for word in words])[0]
        count = min(self.random.choice([1, 1, 1, 2, 3, most]), room, MOST_BYTES // device[2])
        if maker.bytes < count * device[2]:
            count = 1
        maker.bytes -= count * device[2]
        lba = first + self.random.randrange(room - count + 1)
        blocks = [(device[0], block) for block in range(lba, lba + count)]
        writes = word in ("write", "zeroes", "unmap")
        if apart and word != "flush":
            if any(block in self.touched and (writes or self.touched[block]) for block in blocks):
                self.wait()
            for block in blocks:
                self.touched[block] = self.touched.get(block, False) or writes
        end = (self.random.choice([self.random.randrange(256), self.random.randrange(1 << 64)]),) if word == "write" else ()
        self.say(word, name, lba, count, *end)

    def bad_line(self):
        """A line that is refused, always in the same way."""
        made = [("open", "none", "Absent", self.random.choice("rw")), ("remove", "Absent"), ("close", "unbound"),
                ("claim", "unbound", "one"), ("gone", "unbound"), ("read", "unbound", 0, 1), ("write", "unbound", 0, 1, 1)]
        if self.handles:
            name, device = self.random.choice(self.handles)
            made += [("read", name, 0, 0), ("read", name, device.blocks, 1), ("read", name, device.blocks - 1, 2), ("open", name, device.name, "w"),
                     ("read", name, 0, MOST_BYTES // device.size + 1), ("read", name, (1 << 64) - 1, 2)]
        self.say(*self.random.choice(made))

    def work(self, count, ranges, apart=False, waits=0.15, words=("read", "write", "zeroes", "unmap", "flush")):
        """So many requests, each through one of `ranges`: (handle, first block, number of blocks)."""
        for _ in range(count):
            handle, first, room = self.random.choice(ranges)
            self.request(handle, first, room, words, apart=apart)
            if self.chance(waits):
                self.wait()
            if self.chance(0.03):
                self.bad_line()

    def read_back(self, handle, first, room):
        """A read of all these blocks, piece by piece, once nothing is open."""
        self.wait()
        step = min(room, MOST_BYTES // handle[1][2], 64)
        for lba in range(first, first + room, step):
            self.say("read", handle[0], lba, min(step, first + room - lba))
        self.wait()

    def after(self, handle):
        """What is said of a device that may be going; most of it has to be refused, once the thread knows."""
        name, device = handle
        if self.chance(0.6):
            self.say("gone", name)
        for _ in range(self.random.randrange(3)):
            self.request(handle, 0, device[1])
        if self.chance(0.3):
            self.say("claim", name, self.random.choice(KINDS))
        if self.chance(0.5):
            self.wait()
        if self.chance(0.7):
            self.say("close", name)
            if self.chance(0.4):
                other = self.random.choice(self.maker.devices)
                self.say(*self.random.choice([("open", name, other[0], "r"), ("close", name), ("gone", name), ("read", name, 0, 1)]))
        if self.chance(0.2):
            self.say("remove", device[0])


class Maker:
    def __init__(self, number):
        self.random = random.Random("racing %d" % number)
        self.number = number
        self.bytes = BYTES_IN_ALL
        exact = [self.alone, self.own_devices, self.own_blocks, self.in_a_row]
        racing = [self.own_writer, self.few_blocks, self.handed_over, self.removals, self.claims, self.open_and_close, self.burst,
                  self.left, self.remove_and_claim]
        # Four of ten are exact.
        turn, place = divmod(number, 10)
        self.exact = place < len(exact)
        self.plan = exact[place] if self.exact else racing[(turn * 6 + place - len(exact)) % len(racing)]
        self.threads = (1 + (number * 7 + turn) % 16) if self.exact else 2 + (number * 7 + turn) % 15
        self.devices = [
            Device("Disk%d" % i, *self.random.choice([(32, 512), (64, 512), (128, 512), (32, 4096)]), "null" if (turn + i) % 5 == 4 else "malloc")
            for i in range(1 + (number * 5 + turn) % 6)
        ]

    def make(self):
        if self.plan == self.alone:
            self.threads = 1
        self.all = [Thread(self, number) for number in range(self.threads)]
        self.plan()
        return Made(self.text(), self.threads, self.devices, self.plan.__name__, self.exact)

    def text(self):
        """The lines of all threads, each thread's in their order, mixed in groups."""
        out = ["# Script %d (%s): %d threads, %d devices" % (self.number, self.plan.__name__, self.threads, len(self.devices))]
        left = [list(reversed(thread.lines)) for thread in self.all]
        while any(left):
            lines = self.random.choice([lines for lines in left if lines])
            for _ in range(min(len(lines), self.random.choice([1, 2, 5, 50]))):
                out.append(lines.pop())
        return "\n".join(out) + "\n"

    def part(self, device, thread):
        """The blocks of a device that this thread alone writes, as the first and how many."""
        share = max(1, (device[1] - 2) // self.threads)
        return share * thread.number, share

    # ---- scripts whose report no order changes

    def removed_alone(self, thread, handles):
        """The thread's devices go, and it asks only for what has one answer."""
        thread.wait()
        for device in {device: None for _, device in handles}:
            thread.say("remove", device[0])
            thread.say("open", "late", device[0], "r")
        for name, _ in handles:
            thread.say("gone", name)
            thread.say("read", name, 0, 1)
            thread.say("claim", name, "one")
            thread.say("close", name)
            thread.say("close", name)

    def of_its_own(self, thread, devices):
        """Work on devices that nobody else uses."""
        if not devices:
            thread.bad_line()
            thread.wait()
            return
        handles = [thread.open(self.random.choice(devices)) for _ in range(self.random.randrange(1, 5))]
        if thread.chance(0.5):
            claimed = self.random.choice(handles)
            thread.say("claim", claimed[0], self.random.choice(["exclusive", "one", "none", "shared 7", "shared 0"]))
            thread.say("claim", claimed[0], "shared 7")
        for _ in range(self.random.randrange(1, 4)):
            ranges = [(handle, 0, handle[1][1]) for handle in handles]
            thread.work(self.random.choice([5, 20, 60]), ranges, apart=True)
            if len(handles) > 1 and thread.chance(0.5):
                thread.wait()
                handle = self.random.choice(handles)
                handles.remove(handle)
                thread.close(handle)
                handles.append(thread.open(self.random.choice(devices), "r"))
        for handle in handles:
            thread.read_back(handle, 0, handle[1][1])
        if thread.chance(0.4):
            self.removed_alone(thread, handles)
        elif thread.chance(0.5):
            for handle in handles:
                thread.close(handle)

    def alone(self):
        self.of_its_own(self.all[0], self.devices)

    def own_devices(self):
        """Each device has a thread; threads beyond those have lines that touch none."""
        for thread in self.all:
            self.of_its_own(thread, [device for place, device in enumerate(self.devices) if place % self.threads == thread.number])

    def own_blocks(self):
        """The threads share the devices, but no blocks. Nothing is claimed or removed."""
        for thread in self.all:
            handles = [thread.open(self.random.choice(self.devices)) for _ in range(self.random.randrange(1, 4))]
            ranges = [(handle, *self.part(handle[1], thread)) for handle in handles]
            thread.work(self.random.choice([10, 30, 60]), ranges, apart=True)
            for each in ranges:
                thread.read_back(*each)
            if thread.chance(0.7):
                for handle in handles:
                    thread.close(handle)

    def in_a_row(self):
        """A thread works only once the one before it told it to, on blocks and handles that all share."""
        for thread in self.all:
            if thread.number > 0:
                thread.say("await", "turn-%d" % thread.number)
            handles = [thread.open(self.random.choice(self.devices)) for _ in range(self.random.randrange(1, 3))]
            if thread.chance(0.4):
                thread.say("claim", self.random.choice(handles)[0], self.random.choice(KINDS))
            ranges = [(handle, 0, handle[1][1]) for handle in handles]
            # Of a handle whose open was refused each request is refused, whatever the order.
            thread.work(self.random.choice([4, 12]), ranges, apart=True)
            thread.read_back(handles[0], 0, handles[0][1][1])
            if thread.chance(0.8):
                for handle in handles:
                    thread.close(handle)
            thread.say("post", "turn-%d" % (thread.number + 1))

    # ---- scripts whose threads race

    def own_writer(self):
        """Each device has one thread that writes; all others read what it writes."""
        for thread in self.all:
            ranges = []
            for place, device in enumerate(self.devices):
                writes = place % self.threads == thread.number
                if writes or thread.chance(0.6):
                    ranges.append((thread.open(device, "w" if writes else "r"), 0, device[1]))
            for _ in range(self.random.choice([8, 20, 40])):
                if not ranges:
                    break
                each = self.random.choice(ranges)
                writes = self.devices.index(each[0][1]) % self.threads == thread.number
                thread.request(*each, ("read", "write", "zeroes", "unmap") if writes else ("read",), most=4, apart=True)
                if thread.chance(0.2):
                    thread.wait()
            thread.wait()
            for each in ranges:
                thread.close(each[0])

    def few_blocks(self):
        """All threads write the last two blocks of a device, and blocks of their own; the report may be that of any order."""
        for thread in self.all:
            handles = [thread.open(device) for device in self.random.sample(self.devices, min(2, len(self.devices)))]
            for _ in range(self.random.choice([5, 12])):
                name, device = handle = self.random.choice(handles)
                if thread.chance(0.4):
                    thread.request(handle, device[1] - 2, 2, ("read", "write", "write", "zeroes", "unmap"), most=2)
                else:
                    thread.request(handle, *self.part(device, thread), apart=True)
                if thread.chance(0.2):
                    thread.wait()
            thread.wait()
            for handle in handles:
                thread.close(handle)

    def handed_over(self):
        """Blocks go from thread to thread by marks: who takes them has to see what the one before it wrote."""
        lanes = max(1, min(3, self.threads // 2))
        for thread in self.all:
            lane = thread.number % lanes
            device = self.devices[lane % len(self.devices)]
            share = device[1] // lanes
            handle = thread.open(device)
            if thread.number >= lanes:
                thread.say("await", "lane-%d-%d" % (lane, thread.number // lanes))
            for _ in range(self.random.randrange(1, 4)):
                thread.request(handle, share * lane, share, ("write", "write", "zeroes", "unmap"), apart=True)
            thread.read_back(handle, share * lane, share)
            thread.say("post", "lane-%d-%d" % (lane, thread.number // lanes + 1))
            # From here on it only reads, beside the next ones.
            for _ in range(self.random.randrange(4)):
                thread.request(handle, share * lane, min(4, share), ("read",))
            if thread.chance(0.5):
                thread.wait()
                thread.close(handle)

    def removals(self):
        """Some devices go while all threads work on them."""
        going = self.random.sample(self.devices, self.random.randrange(1, len(self.devices) + 1))
        removers = {device[0]: self.random.choice(self.all) for device in going}
        for thread in self.all:
            handles = [thread.open(self.random.choice(self.devices)) for _ in range(self.random.randrange(1, 4))]
            ranges = [(handle, *self.part(handle[1], thread)) for handle in handles]
            thread.work(self.random.choice([3, 10, 30]), ranges, apart=thread.chance(0.8), waits=0.08)
            for device in going:
                if removers[device[0]] is thread:
                    thread.say("remove", device[0])
                    thread.work(3, ranges, waits=0)
            thread.work(self.random.choice([0, 4]), ranges, waits=0.08)
            for handle in handles:
                if handle[1] in going:
                    thread.after(handle)

    def claims(self):
        """All threads claim the same few devices. In most scripts nobody closes a handle before all threads have claimed, so what
        they hold stands at the same time for certain."""
        devices = self.devices[:2]
        held = self.random.random() < 0.7
        for thread in self.all:
            handles = []
            for _ in range(self.random.randrange(1, 4)):
                handle = thread.open(self.random.choice(devices), self.random.choice("rrrw"))
                handles.append(handle)
                for _ in range(self.random.randrange(1, 3)):
                    thread.say("claim", handle[0], self.random.choice(KINDS))
                if thread.chance(0.5):
                    thread.request(handle, *self.part(handle[1], thread), apart=True)
                if not held and thread.chance(0.7):
                    thread.wait()
                    thread.close(handles.pop())
            if held:
                thread.say("post", "claimed-%d" % thread.number)
                for other in self.all:
                    thread.say("await", "claimed-%d" % other.number)
                thread.wait()
                for handle in handles:
                    thread.close(handle)
                handle = thread.open(self.random.choice(devices), "r")
                thread.say("claim", handle[0], self.random.choice(KINDS))

    def open_and_close(self):
        """Handles and channels come and go on all threads; at the end one thread may remove a device."""
        for thread in self.all:
            for _ in range(self.random.choice([6, 12])):
                handle = thread.open(self.random.choice(self.devices), self.random.choice("rw"))
                if thread.chance(0.4):
                    thread.request(handle, *self.part(handle[1], thread))
                if thread.chance(0.7):
                    thread.wait()
                if thread.chance(0.9):
                    thread.close(handle)
            if thread.number == 0 and thread.chance(0.5):
                thread.say("remove", self.devices[0][0])

    def burst(self):
        """Each thread has many requests open at once, over several handles."""
        self.devices = [device._replace(blocks=1024, size=512) for device in self.devices]
        for thread in self.all:
            handles = [thread.open(device) for device in self.devices]
            ranges = [(handle, *self.part(handle[1], thread)) for handle in handles]
            thread.work(640 // self.threads, ranges, apart=thread.chance(0.8), waits=0.01)
            if thread.chance(0.5):
                thread.read_back(*ranges[0])

    def left(self):
        """Scripts that stop: at a mark that nobody posts, at a remove event that never comes, with handles that nobody closes."""
        for thread in self.all:
            handles = [thread.open(self.random.choice(self.devices)) for _ in range(self.random.randrange(1, 4))]
            thread.work(self.random.choice([1, 10, 20]), [(handle, *self.part(handle[1], thread)) for handle in handles], apart=True)
            handle = self.random.choice(handles)
            thread.say(*self.random.choice([("await", "never"), ("gone", handle[0]), ("close", handle[0]), ("post", "always")]))
            thread.request(handle, *self.part(handle[1], thread))

    def remove_and_claim(self):
        """Claims and opens while the device goes, and several threads that remove it."""
        device = self.devices[0]
        for thread in self.all:
            for _ in range(self.random.randrange(1, 4)):
                handle = thread.open(device, self.random.choice("rw"))
                if thread.chance(0.6):
                    thread.say("claim", handle[0], self.random.choice(KINDS))
                thread.request(handle, *self.part(device, thread))
                if thread.chance(0.4):
                    thread.wait()
                    thread.close(handle)
            if thread.number == 0 or thread.chance(0.3):
                thread.say("remove", device[0])
            for handle in thread.handles:
                # Only where a removal is certain to begin does a thread wait for its event: thread 0 begins one.
                thread.after(handle)


def script(number):
    return Maker(number).make()


def depth_of(made, place):
    """How many pieces the queue of a device takes."""
    return DEPTHS[(len(made.text) + place) % len(DEPTHS)]


def config(made):
    """The configuration that goes with a script."""
    calls = ", ".join(
        '{ "method": "bdev_%s_create", "params": { "name": "%s", "num_blocks": %d, "block_size": %d, "queue_depth": %d } }' % (kind, name, blocks, size, depth_of(made, place))
        for place, (name, blocks, size, kind, _) in enumerate(made.devices)
    )
    return '{ "subsystems": [ { "subsystem": "bdev", "config": [ %s ] } ] }\n' % calls
