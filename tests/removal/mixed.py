"""Scripts with resets and aborts over stacks of devices that hold, fail and limit requests.

`script(number)` makes one of them, as scripts.py does: over up to 5 layers of passthrus, parts, delay and error devices, some of which
have limits. In half of them a device goes, by the plans of scripts.py; in the others none does, and threads reset beside each other. An
error device lets some requests hang; before most of the waits of a thread stands a reset by which what hangs of it is freed.
"""

import json
import re

import scripts
from scripts import DEVICE, Row, StackThread

# So many layers stand on the base, and so many requests hang or fail at most.
MOST_LAYERS = 5
MOST_ERRORS = 5
BYTES_IN_ALL = 1 << 20
LATENCIES = (0, 0, 0, 200, 1500, 20000)
RATES = ({"rw_ios_per_sec": 20000}, {"rw_ios_per_sec": 100000, "w_mbytes_per_sec": 64}, {"r_mbytes_per_sec": 16}, {"rw_mbytes_per_sec": 32})


class MixedThread(StackThread):
    """A thread that resets and aborts between its requests. In `LINE @n` the n-th line of the thread is meant."""

    def __init__(self, maker, number):
        super().__init__(maker, number)
        self.submitted = []  # of its last submissions the place and the handle

    def say(self, *words):
        if words[0] == "wait" and self.handles and self.random.random() < self.maker.freeing:
            self.say("reset", self.lowest())
        if words[0] in ("read", "write", "zeroes", "unmap", "flush", "reset", "abort"):
            self.submitted = self.submitted[-11:] + [(len(self.lines), words[1])]
        if words[0] == "write" and words[1] in self.rows:
            self.maker.written.append((self.rows[words[1]], words[2]))
        super().say(*words)

    def chance(self, part):
        return self.random.random() < part

    def lowest(self):
        """A handle on the lowest device, whose reset is one of most of what the thread has open."""
        place = {row.name: place for place, row in enumerate(self.maker.rows)}
        return min(self.handles, key=lambda handle: place[self.rows[handle].name])

    def some_handle(self):
        return self.random.choice(self.handles[-4:])

    def request(self, shared=0.03):
        super().request(shared)
        chance = self.random.random()
        if chance < self.maker.resetting:
            self.say("reset", self.some_handle())
        elif chance < self.maker.resetting + self.maker.aborting:
            for _ in range(self.random.choice([1, 1, 2, 4])):
                place, handle = self.random.choice(self.submitted)
                if self.random.random() < 0.1:
                    handle = self.some_handle()
                self.say("abort", handle, "@%d" % place)


class Maker(scripts.Maker):
    def __init__(self, number):
        super().__init__(scripts.STACKED + number)
        self.number = number
        self.bytes = BYTES_IN_ALL
        with_removal = [
            self.alone, self.no_order, self.while_open, self.settled, self.many_removers, self.in_a_row, self.open_and_close, self.left, self.claims]
        without = [self.beside, self.told, self.named, self.resets_alone, self.told, self.with_homes]
        turn, place = divmod(number, 2)
        self.plan = with_removal[turn % len(with_removal)] if place else without[turn % len(without)]
        self.threads = 1 + (number * 5 + turn) % 16
        if self.plan == self.told:
            self.threads = max(4, self.threads)
        self.resetting = self.random.choice([0.01, 0.05, 0.3])
        self.aborting = self.random.choice([0, 0.05, 0.3])
        self.freeing = self.random.choice([0.5, 0.9, 1])
        self.thread = MixedThread
        self.written = []  # each the device of a write and its first block there
        self.stack_of_kinds()

    def stack_of_kinds(self):
        self.blocks, self.size = self.random.choice([(64, 512), (256, 512), (1024, 512), (64, 4096)])
        boundary = self.random.choice([0, 0, 8, 16])
        self.others = [Row("Other%d" % i, 8, 512) for i in range(self.random.randrange(3))]
        self.rows = [Row(DEVICE, self.blocks, self.size, self.kind, boundary=boundary, faults={"depth": self.random.choice([1, 2, 8, 128, 128])})]
        error_layer = self.random.randrange(MOST_LAYERS)
        for layer in range(self.random.randrange(1, MOST_LAYERS + 1)):
            base = self.rows[-1]
            kind = "error" if layer == error_layer else self.random.choice(["passthru", "delay", "part"])
            self.rows += getattr(self, kind + "_over")(base, layer)
        for row in self.random.sample(self.rows, self.random.choice([0, 1, 1, min(2, len(self.rows))])):
            row.faults["limits"] = dict(self.random.choice(RATES))
        self.going = self.random.choice(self.rows).name

    def row_over(self, base, name, kind, **faults):
        return Row(name, base.blocks, base.size, kind, base.name, 0, 0, faults)

    def passthru_over(self, base, layer):
        return [self.row_over(base, "P%d" % layer, "passthru")]

    def delay_over(self, base, layer):
        return [self.row_over(base, "D%d" % layer, "delay", delay={word: self.random.choice(LATENCIES) for word in ("read", "write")})]

    def error_over(self, base, layer):
        inject = []
        for word in self.random.sample(["read", "write", "flush", "unmap", "write_zeroes"], self.random.choice([1, 2, 5])):
            inject.append((word, self.random.choice(["failure", "pending", "pending"]), self.random.randrange(MOST_ERRORS + 1)))
        return [self.row_over(base, "EE_" + base.name, "error", inject=inject)]

    def part_over(self, base, layer):
        count = self.random.choice([1, 2])
        blocks = base.blocks // count
        if blocks < 8:
            return self.passthru_over(base, layer)
        return [Row("%sp%d" % (base.name, i), blocks, base.size, "part", base.name, i * blocks, 0, {}) for i in range(count)]

    def devices(self):
        return self.others + self.rows

    def text(self):
        """The text, where each abort names the number of its line."""
        lines = super().text().split("\n")
        numbers = {}
        for number, line in enumerate(lines, 1):
            if line[:1].isdigit():
                numbers.setdefault(int(line.split()[0]), []).append(number)
        named = lambda match: str(numbers[int(match[1])][int(match[3])]).join(("%s abort %s " % (match[1], match[2]), ""))
        return "\n".join(re.sub(r"^(\d+) abort (\S+) @(\d+)$", named, line) for line in lines)

    # ---- plans without a removal

    def beside(self):
        """All work on the devices of the stack, and reset and abort as they like."""
        for thread in self.all:
            thread.opens(self.random.randrange(1, 4))
            thread.work(self.requests())
            thread.say("wait")

    def resets_alone(self):
        """Some threads do nothing but reset, open and close, beside those that work."""
        for thread in self.all:
            if thread.number % 3 == 2:
                for _ in range(self.random.choice([3, 10, 30])):
                    handle = thread.open(write=False)
                    thread.say("reset", handle)
                    thread.say("wait")
                    thread.say("close", handle)
                continue
            thread.opens(self.random.randrange(1, 3))
            thread.work(self.requests(60))
            thread.read_back()

    def told(self):
        """Each thread tells that its requests are open, and one resets a device; then all go on. The base takes one piece at a time."""
        self.rows[0].faults["depth"] = 1
        for thread in self.all:
            thread.opens(self.random.randrange(1, 3))
            thread.burst(self.random.choice([8, 30]))
            thread.say("post", "open-%d" % thread.number)
            if thread.number == 0:
                handle = thread.open(write=False)
                for other in self.all:
                    thread.say("await", "open-%d" % other.number)
                thread.say("reset", handle)
                thread.say("wait")
                thread.say("post", "reset")
            thread.say("await", "reset")
        for thread in self.all:
            # What was written before the reset stands there, on whichever thread.
            for _ in range(self.random.choice([4, 12])):
                self.read_of_others(thread)
            StackThread.say(thread, "wait")
            thread.burst(self.random.choice([1, 8, 20]))
            thread.read_back()

    def read_of_others(self, thread):
        """A read of a block that some thread wrote, through a handle that has it."""
        row, lba = self.random.choice(self.written or [(self.rows[0], 0)])
        handle = thread.some_handle()
        block = lba + self.under(row) - self.under(thread.rows[handle])
        if 0 <= block < thread.rows[handle].blocks:
            StackThread.say(thread, "read", handle, block, 1)

    def named(self):
        """Nobody resets: what hangs or is held long is aborted by name, and some aborts name the request of another handle."""
        self.resetting, self.freeing, self.aborting = 0, 0, 0
        for thread in self.all:
            thread.opens(self.random.randrange(2, 4))
            for _ in range(self.random.choice([4, 10])):
                first = len(thread.lines)
                thread.burst(self.random.choice([1, 3, 6]))
                submitted = [each for each in thread.submitted if each[0] >= first]
                if thread.chance(0.5):
                    thread.say("post", "sent-%d" % thread.number)
                    thread.say("await", "sent-%d" % thread.number)
                for place, handle in submitted:
                    if thread.chance(0.8):
                        StackThread.say(thread, "abort", handle if thread.chance(0.8) else thread.some_handle(), "@%d" % place)
                if thread.chance(0.7):
                    thread.say("wait")

    def with_homes(self):
        """Handles come and go on all threads, so that channels are made while a reset runs."""
        for thread in self.all:
            for _ in range(self.random.choice([6, 16])):
                handle = thread.open()
                for _ in range(self.random.randrange(5)):
                    thread.request()
                if self.random.random() < 0.5:
                    thread.say("reset", handle)
                if self.random.random() < 0.6:
                    thread.say("wait")
                thread.say("close", handle)


def script(number):
    return Maker(number).make()


def config(made):
    """The configuration that goes with a script."""
    calls, split, late = [], set(), []
    for row in made.devices:
        faults = row.faults or {}
        if row.kind in ("malloc", "null"):
            calls.append(("bdev_%s_create" % row.kind, dict(
                name=row.name, num_blocks=row.blocks, block_size=row.size, queue_depth=faults.get("depth", 128), optimal_io_boundary=row.boundary)))
        elif row.kind == "passthru":
            calls.append(("bdev_passthru_create", {"base_bdev_name": row.base, "name": row.name}))
        elif row.kind == "delay":
            latencies = {"%s_%s_latency" % (which, word): latency for word, latency in faults["delay"].items() for which in ("avg", "p99")}
            calls.append(("bdev_delay_create", {"base_bdev_name": row.base, "name": row.name, **latencies}))
        elif row.kind == "error":
            calls.append(("bdev_error_create", {"base_name": row.base}))
        elif row.base not in split:
            split.add(row.base)
            calls.append(("bdev_split_create", {"base_bdev": row.base, "split_count": sum(other.kind == "part" and other.base == row.base for other in made.devices)}))
        late += [("bdev_error_inject_error", {"name": row.name, "io_type": word, "error_type": error, "num": number}) for word, error, number in faults.get("inject", ())]
        if faults.get("limits"):
            late.append(("bdev_set_qos_limit", {"name": row.name, **faults["limits"]}))
    calls = [{"method": method, "params": params} for method, params in calls + late]
    return json.dumps({"subsystems": [{"subsystem": "bdev", "config": calls}]}) + "\n"
