"""Scripts in which a device goes while requests are in flight.

`script(number)` makes one of them: the text of the script, the number of its threads and its devices. One number always gives
the same script. The numbers go through the plans below in turn, so that each plan comes with 1 to 16 threads. The scripts below
number STACKED have one device, the others stacks of up to 8 layers of passthrus and splits. Of each fifty scripts the last ten have
a null device in place of the malloc device.
"""

import json
import random
from collections import namedtuple

Made = namedtuple("Made", "text threads devices plan")
# A device stands on the one of the name `base`, at its block `shift`. Requests are cut at multiples of `boundary`. Its faults, if it has
# any, are what stopping.py says.
Row = namedtuple("Row", "name blocks size kind base shift boundary faults", defaults=("malloc", None, 0, 0, None))

DEVICE = "Disk0"
ABSENT = "Disk1"
STACKED = 200
MOST_LAYERS = 8
MOST_OPEN = 1024
MOST_BYTES = 262144
MOST_LINES = 20000
# The bytes that all requests of a script together move at most, but for one block each.
BYTES_IN_ALL = 4 << 20
# How many pieces the queue of a base device takes; where it isn't said, 128. What a report may say doesn't depend on it.
DEPTHS = (1, None, 2, 3, 1, 8, 1024)


class Thread:
    """The lines of one thread as they are made, and what the next ones go by."""

    def __init__(self, maker, number):
        self.maker = maker
        self.random = maker.random
        self.number = number
        self.lines = []
        self.handles = []
        share = maker.blocks // (maker.threads + 1)
        # The blocks that this thread alone writes. The last share belongs to all.
        self.first = share * number
        self.count = max(1, share)
        self.next_block = 0

    def say(self, *words):
        self.lines.append(" ".join(str(word) for word in (self.number,) + words))

    def some_device(self):
        return DEVICE

    def going(self):
        """The device that a line removes."""
        return DEVICE

    def open(self, write=None):
        handle = "h%d" % len(self.handles)
        mode = ("w" if self.random.random() < 0.75 else "r") if write is None else ("w" if write else "r")
        self.handles.append(handle)
        self.say("open", handle, DEVICE, mode)
        return handle

    def opens(self, count):
        for _ in range(count):
            self.open()

    def some_handle(self):
        return self.random.choice(self.handles)

    def claim(self):
        kind = self.random.choice(["exclusive", "one", "none", "shared 7", "shared 7", "shared 8", "shared 0"])
        self.say("claim", self.some_handle(), kind)

    def range(self, shared):
        """A range of blocks: of the thread's own, mostly beside those of the requests before, or of the shared ones."""
        maker = self.maker
        most = MOST_BYTES // maker.size
        count = self.random.choice([1, 1, 1, 1, 2, 3, 8, 64, most])
        first, room = self.first, self.count
        if shared:
            first, room = maker.shared, min(4, maker.blocks - maker.shared)
        count = min(count, room)
        if maker.bytes < count * maker.size:
            count = 1
        maker.bytes -= count * maker.size
        if not shared and self.random.random() < 0.8:
            if self.next_block + count > room:
                self.next_block = 0
            begin = self.next_block
            self.next_block += count
        else:
            begin = self.random.randrange(room - count + 1)
        return first + begin, count

    def request(self, shared=0.03):
        word = self.random.choices(["read", "write", "zeroes", "unmap", "flush"], [30, 45, 9, 8, 8])[0]
        lba, count = self.range(self.random.random() < shared)
        words = [word, self.some_handle(), lba, count]
        if word == "write":
            words.append(self.random.choice([self.random.randrange(256), self.random.randrange(1 << 64)]))
        self.say(*words)

    def bad_request(self):
        """A submission that is refused, or a line for a name or a device that there isn't."""
        blocks = self.maker.blocks
        handle = self.some_handle()
        above = MOST_BYTES // self.maker.size + 1
        self.say(*self.random.choice([
            ("read", handle, 0, 0),
            ("read", handle, blocks, 1),
            ("write", handle, blocks - 1, 2, 5),
            ("flush", handle, 0, above),
            ("read", handle, (1 << 64) - 1, 2),
            ("read", "unbound", 0, 1),
            ("write", "unbound", 0, 1, 1),
            ("close", "unbound"),
            ("claim", "unbound", "one"),
            ("gone", "unbound"),
            ("open", handle, DEVICE, "r"),
            ("open", "other", ABSENT, "w"),
            ("remove", ABSENT),
        ]))

    def burst(self, count, waits=0.0):
        for _ in range(count):
            self.request()
            if self.random.random() < waits:
                self.say("wait")
            if self.random.random() < 0.02:
                self.bad_request()

    def work(self, count):
        """Bursts with waits between them, so many requests in all; the last ones stay in flight."""
        while count > 0:
            some = min(count, self.random.choice([1, 4, 8, 16, 40]))
            self.burst(some)
            count -= some
            if count > 0 and self.random.random() < 0.7:
                self.say("wait")

    def read_back(self):
        """Reads of blocks that it may have written, each with a wait."""
        for _ in range(self.random.randrange(1, 4)):
            self.say("wait")
            lba, count = self.range(False)
            self.say("read", self.some_handle(), lba, count)
        self.say("wait")

    def after(self):
        """What is said of a device that goes: most of it has to be refused, once the thread knows."""
        say, handles = self.say, self.handles
        for handle in self.random.sample(handles, len(handles)):
            if self.random.random() < 0.7:
                say("gone", handle)
            for _ in range(self.random.randrange(3)):
                self.request()
            if self.random.random() < 0.3:
                say("claim", handle, self.random.choice(["one", "shared 7", "shared 0", "none"]))
            if self.random.random() < 0.3:
                say("open", handle, self.some_device(), self.random.choice("rw"))
            if self.random.random() < 0.3:
                say("wait")
            if self.random.random() < 0.7:
                say("close", handle)
                if self.random.random() < 0.5:
                    say(*self.random.choice([
                        ("open", handle, self.some_device(), "r"), ("close", handle), ("gone", handle), ("read", handle, 0, 1),
                        ("claim", handle, "one"), ("write", handle, self.first, 1, 3),
                    ]))
        if self.random.random() < 0.6:
            say("open", "again", self.some_device(), self.random.choice("rw"))
            say("read", "again", 0, 1)
        for _ in range(self.random.randrange(3)):
            say("remove", self.random.choice([self.going(), self.going(), self.going(), ABSENT]))
            if self.random.random() < 0.5:
                say("wait")


class StackThread(Thread):
    """A thread whose handles are on the devices of a stack."""

    def __init__(self, maker, number):
        super().__init__(maker, number)
        self.rows = {}  # of its handles

    def some_device(self):
        return self.random.choice(self.maker.rows).name

    def going(self):
        return self.maker.going if self.random.random() < 0.7 else self.some_device()

    def open(self, write=None):
        handle = "h%d" % len(self.handles)
        rows = self.maker.rows
        row = rows[-1] if self.random.random() < 0.5 else self.random.choice(rows)
        if write is None:
            # What others stand on is claimed.
            write = self.random.random() < (0.1 if any(other.base == row.name for other in rows) else 0.85)
        self.handles.append(handle)
        self.rows[handle] = row
        self.say("open", handle, row.name, "w" if write else "r")
        return handle

    def request(self, shared=0.03):
        maker = self.maker
        word = self.random.choices(["read", "write", "zeroes", "unmap", "flush"], [30, 45, 9, 8, 8])[0]
        handle = self.some_handle()
        row = self.rows[handle]
        # Of the thread's own blocks those that lie under the device, by its own numbers.
        under = maker.under(row)
        first = max(self.first - under, 0)
        room = min(self.first + self.count - under, row.blocks) - first
        count = self.random.choice([1, 1, 1, 2, 3, 8, 12, 20, 64, MOST_BYTES // row.size])
        if room < 1 or self.random.random() < shared:
            first, room, count = 0, row.blocks, min(count, 3)
        count = min(count, room)
        if maker.bytes < count * row.size:
            count = 1
        maker.bytes -= count * row.size
        words = [word, handle, first + self.random.randrange(room - count + 1), count]
        if word == "write":
            words.append(self.random.choice([self.random.randrange(256), self.random.randrange(1 << 64)]))
        self.say(*words)

    def range(self, shared):
        """Blocks of the last handle's device."""
        row = self.rows[self.handles[-1]]
        count = self.random.choice([1, 2, min(row.blocks, 16)])
        count = min(count, row.blocks)
        return self.random.randrange(row.blocks - count + 1), count

    def read_back(self):
        for _ in range(self.random.randrange(1, 4)):
            self.say("wait")
            lba, count = self.range(False)
            self.say("read", self.handles[-1], lba, count)
        self.say("wait")

    def bad_request(self):
        handle = self.some_handle()
        row = self.rows[handle]
        above = MOST_BYTES // row.size + 1
        self.say(*self.random.choice([
            ("read", handle, 0, 0),
            ("read", handle, row.blocks, 1),
            ("write", handle, row.blocks - 1, 2, 5),
            ("flush", handle, 0, above),
            ("read", handle, (1 << 64) - 1, 2),
            ("write", "unbound", 0, 1, 1),
            ("open", handle, row.name, "r"),
            ("open", "other", ABSENT, "w"),
            ("open", "claimed", row.base or row.name, "w"),
            ("remove", ABSENT),
        ]))


class Maker:
    def __init__(self, number):
        self.random = random.Random("removal %d" % number)
        self.number = number
        self.bytes = BYTES_IN_ALL
        plans = [
            self.alone, self.no_order, self.while_open, self.settled, self.many_removers, self.in_a_row, self.open_and_close,
            self.full_threads, self.left, self.claims,
        ]
        if number >= STACKED:
            plans.append(self.full_of_pieces)
        self.plan = plans[number % len(plans)]
        self.threads = 1 + (number * 7 + number // len(plans)) % 16
        self.blocks, self.size = self.random.choice([(64, 512), (256, 512), (1024, 512), (2048, 512), (64, 4096), (256, 4096)])
        self.kind = "null" if number // 10 % 5 == 4 else "malloc"
        self.rows = [Row(DEVICE, self.blocks, self.size, self.kind)]
        self.thread = Thread
        if number >= STACKED:
            self.stack()

    # ---- stacks

    def stack(self):
        """Devices of which each of up to 8 layers stands on the one below it."""
        self.thread = StackThread
        boundary = self.random.choice([0, 0, 8, 8, 13, 16, 64])
        if self.plan == self.full_of_pieces:
            self.threads = max(4, self.threads)
            self.blocks, self.size, boundary = 2048, 512, 8
        # Devices before it move its home to another thread.
        self.others = [Row("Other%d" % i, 8, self.size) for i in range(self.random.randrange(4))]
        self.rows = [Row(DEVICE, self.blocks, self.size, self.kind, boundary=boundary)]
        for layer in range(self.random.randrange(1, MOST_LAYERS)):
            base = self.rows[-1]
            if self.random.random() < 0.6 or base.blocks < 8:
                self.rows.append(Row("P%d" % layer, base.blocks, base.size, "passthru", base.name))
                continue
            count = self.random.choice([1, 2, 2, 3])
            blocks = base.blocks // count
            parts = [Row("%sp%d" % (base.name, i), blocks, base.size, "part", base.name, i * blocks) for i in range(count)]
            self.rows += parts
            if count > 1 and self.random.random() < 0.3:
                self.rows.append(Row("Q%d" % layer, blocks, base.size, "passthru", parts[0].name))
                self.rows.append(parts[1]._replace(name="P%d" % layer, kind="passthru", base=parts[1].name, shift=0))
        self.going = self.random.choice(self.rows).name

    def under(self, row):
        """Where a device begins on the one with the content."""
        begin = 0
        while row.base:
            begin += row.shift
            row = next(other for other in self.rows if other.name == row.base)
        return begin

    def devices(self):
        return self.others + self.rows if self.number >= STACKED else self.rows

    def make(self):
        if self.plan == self.alone:
            self.threads = 1
        self.shared = self.blocks // (self.threads + 1) * self.threads
        self.all = [self.thread(self, number) for number in range(self.threads)]
        self.plan()
        return Made(self.text(), self.threads, self.devices(), self.plan.__name__)

    def text(self):
        """The lines of all threads, each thread's in their order, mixed in groups, with some comments and empty lines."""
        out = ["# Script %d (%s): %d threads, %d blocks of %d bytes" % (self.number, self.plan.__name__, self.threads, self.blocks, self.size)]
        left = [list(reversed(thread.lines)) for thread in self.all]
        while any(left):
            lines = self.random.choice([lines for lines in left if lines])
            for _ in range(min(len(lines), self.random.choice([1, 2, 5, 50, 1000]))):
                out.append(lines.pop())
            if self.random.random() < 0.02:
                out.append(self.random.choice(["", "# Between two lines", "\t"]))
        if len(out) > MOST_LINES:
            raise ValueError("script %d has %d lines" % (self.number, len(out)))
        return "\n".join(out) + self.random.choice(["\n", ""])

    def requests(self, most=200):
        return self.random.choice([1, 3, 8, 20, 60, most])

    def remover(self):
        return self.random.choice(self.all)

    # ---- the plans

    def alone(self):
        """One thread, whose device goes under its own requests."""
        thread = self.all[0]
        thread.opens(self.random.randrange(1, 5))
        for _ in range(self.random.randrange(3)):
            thread.claim()
        thread.work(self.requests(1000))
        if self.random.random() < 0.3:
            thread.read_back()
        thread.burst(self.random.choice([0, 1, 5, 12]))
        thread.say("remove", thread.going())
        if self.random.random() < 0.5:
            thread.say("remove", thread.going())
        thread.burst(self.random.choice([0, 1, 5, 12]))
        thread.after()

    def no_order(self):
        """No marks at all: one thread removes, and nobody knows when."""
        remover = self.remover()
        for thread in self.all:
            thread.opens(self.random.randrange(1, 4))
            if self.random.random() < 0.3:
                thread.claim()
            thread.work(self.requests())
            if thread is remover:
                thread.say("remove", thread.going())
            thread.work(self.requests(60))
            thread.after()

    def while_open(self):
        """Each thread tells that its requests are in flight; then the device goes."""
        remover = self.remover()
        for thread in self.all:
            thread.opens(self.random.randrange(1, 4))
            thread.work(self.requests(400))
            thread.say("post", "ready-%d" % thread.number)
            if thread is remover:
                for other in self.all:
                    thread.say("await", "ready-%d" % other.number)
                thread.say("remove", thread.going())
                thread.say("post", "removing")
            elif self.random.random() < 0.5:
                thread.say("await", "removing")
            thread.after()

    def settled(self):
        """Every request has ended before the device goes, so each has to be a success."""
        remover = self.remover()
        for thread in self.all:
            thread.opens(self.random.randrange(1, 5))
            thread.work(self.requests())
            thread.read_back()
            if self.random.random() < 0.5:
                thread.say("close", thread.some_handle())
            thread.say("post", "done-%d" % thread.number)
            if thread is remover:
                for other in self.all:
                    thread.say("await", "done-%d" % other.number)
                thread.say("remove", thread.going())
                thread.say("post", "removing")
            else:
                thread.say("await", "removing")
            thread.after()

    def many_removers(self):
        """Several threads remove, some of them more than once."""
        for thread in self.all:
            thread.opens(self.random.randrange(1, 3))
            thread.work(self.requests(60))
            if self.random.random() < 0.6 or thread.number == 0:
                for _ in range(self.random.choice([1, 2, 6])):
                    thread.say("remove", thread.going())
                    if self.random.random() < 0.3:
                        thread.request()
            thread.after()

    def in_a_row(self):
        """Each thread works only once the one before told it to; one in the middle removes."""
        remover = self.remover()
        for thread in self.all:
            thread.opens(self.random.randrange(1, 3))
            if thread.number > 0:
                thread.say("await", "turn-%d" % thread.number)
            thread.work(self.requests(60))
            if self.random.random() < 0.5:
                thread.read_back()
            if thread is remover:
                thread.say("remove", thread.going())
            thread.say("post", "turn-%d" % (thread.number + 1))
            thread.after()

    def open_and_close(self):
        """Handles that come and go while the device goes."""
        remover = self.remover()
        for thread in self.all:
            for turn in range(self.random.randrange(4, 24)):
                if thread is remover and turn == 3:
                    thread.say("remove", thread.going())
                handle = thread.open()
                if self.random.random() < 0.3:
                    thread.claim()
                for _ in range(self.random.randrange(3)):
                    thread.request()
                if self.random.random() < 0.6:
                    thread.say("wait")
                if self.random.random() < 0.9:
                    thread.say("close", handle)
            thread.after()

    def full_threads(self):
        """Threads with as many open requests as a thread may have, and more lines than that."""
        # Two of these scripts fill 16 threads; the others fill up to 4 of them.
        if self.number % 100 == 17:
            self.threads = 16
            self.shared = self.blocks // 17 * 16
            self.all = [self.thread(self, number) for number in range(16)]
        most = 15 if self.number % 100 == 17 else 4
        others = self.all[1:] if self.threads > 2 else self.all
        remover = self.random.choice(others)
        full = self.random.sample([thread for thread in self.all if thread is not remover] or self.all, min(most, max(1, self.threads - 1)))
        # The walk comes to threads whose requests aren't all sent only where it needn't go behind them: where the device's
        # home has no handle itself, and the remover no requests.
        is_quick = self.threads > 2 and self.random.random() < 0.8
        for thread in self.all:
            if is_quick and thread is remover:
                thread.opens(self.random.randrange(3))
                # Lines that take it some turns, while the others fill the queue of the home.
                for _ in range(self.random.choice([600, 750, 900])):
                    thread.say("close", "unbound")
            elif not (is_quick and thread.number == 0):
                thread.opens(self.random.randrange(1, 4))
                if thread in full:
                    thread.burst(self.random.choice([800, MOST_OPEN - 1, MOST_OPEN, MOST_OPEN + 40]))
                else:
                    thread.burst(self.random.randrange(10))
            if thread is remover:
                thread.say("remove", thread.going())
            if thread.handles:
                thread.burst(self.random.choice([0, 20]))
                thread.after()

    def full_of_pieces(self):
        """Requests of many pieces, more than the queue of the home takes. Neither the home nor the remover has any."""
        home = len(self.others) % self.threads
        workers = [thread for thread in self.all if thread.number != home]
        remover = workers.pop(self.random.randrange(len(workers)))
        for thread in self.random.sample(workers, min(4, len(workers))):
            thread.opens(self.random.randrange(1, 3))
            for _ in range(self.random.choice([120, 200, 300])):
                handle = thread.some_handle()
                row = thread.rows[handle]
                word = self.random.choice(["write", "zeroes", "unmap", "flush", "flush"])
                count = min(row.blocks, self.random.choice([33, 64, 100]))
                lba = self.random.randrange(row.blocks - count + 1)
                thread.say(word, handle, lba, count, *((self.random.randrange(256),) if word == "write" else ()))
            thread.after()
        for _ in range(self.random.choice([160, 240, 400])):
            remover.say("close", "unbound")
        remover.say("remove", remover.going())

    def left(self):
        """Scripts that stop: a mark that nobody posts, a remove event that may not come, handles that nobody closes."""
        removed = self.random.random() < 0.5
        for thread in self.all:
            thread.opens(self.random.randrange(1, 4))
            thread.work(self.requests(60))
            if removed and thread.number == 0:
                thread.say("remove", thread.going())
            choice = self.random.random()
            if choice < 0.4:
                thread.say("await", "never")
            elif choice < 0.7:
                thread.say("gone", thread.some_handle())
            elif choice < 0.85:
                thread.say("close", thread.some_handle())
            thread.burst(3)
            if removed and self.random.random() < 0.5:
                thread.after()

    def claims(self):
        """Claims of several threads while the device goes."""
        remover = self.remover()
        ordered = self.random.random() < 0.5
        for thread in self.all:
            if ordered and thread.number > 0:
                thread.say("await", "turn-%d" % thread.number)
            for _ in range(self.random.randrange(1, 5)):
                handle = thread.open(write=self.random.random() < 0.3)
                for _ in range(self.random.randrange(3)):
                    thread.claim()
                thread.burst(self.random.randrange(4))
                if self.random.random() < 0.5:
                    thread.say("wait")
                    thread.say("close", handle)
            if ordered:
                thread.say("post", "turn-%d" % (thread.number + 1))
            if thread is remover:
                if ordered:
                    thread.say("await", "turn-%d" % self.threads)
                thread.say("remove", thread.going())
            thread.after()


def script(number):
    return Maker(number).make()


def depth_of(made, place):
    """How many pieces the queue of a device takes, where the configuration says it."""
    return DEPTHS[(len(made.text) + place) % len(DEPTHS)]


def config(made):
    """The configuration that goes with a script."""
    calls, split = [], set()
    for place, row in enumerate(made.devices):
        if row.kind in ("malloc", "null"):
            params = {"name": row.name, "num_blocks": row.blocks, "block_size": row.size}
            depth = depth_of(made, place)
            if depth:
                params["queue_depth"] = depth
            if row.boundary:
                params["optimal_io_boundary"] = row.boundary
            calls.append({"method": "bdev_%s_create" % row.kind, "params": params})
        elif row.kind == "passthru":
            calls.append({"method": "bdev_passthru_create", "params": {"base_bdev_name": row.base, "name": row.name}})
        elif row.base not in split:
            split.add(row.base)
            count = sum(other.kind == "part" and other.base == row.base for other in made.devices)
            calls.append({"method": "bdev_split_create", "params": {"base_bdev": row.base, "split_count": count}})
    return json.dumps({"subsystems": [{"subsystem": "bdev", "config": calls}]}) + "\n"
