#!/usr/bin/env python3
"""Plays a script with resets and aborts over devices that hold, fail and limit requests, by the rules of docs/MODEL.md, and gives the
report. It goes on from imitate.py, and shares no code with the program or the checker.

    tests/removal/stopping.py CONFIG JOBS [--threads N] [--orders N] [--loose]

prints the report, where each of so many orders by chance (100) gives the same, or else how often each line came to what.

A device has its faults as the last of what imitate.py is given: a map with `delay` (the latencies of reads and writes), `inject` (what is
injected, in its order), `limits` and `depth` (how many pieces its queue takes), as far as it has them. How long something waits for a
delay or a limit is left to chance, and how long a drain time lasts, but for what would be held LONG: that waits until it is stopped, and
so long a drain time never ends.

By `strict` a thread keeps to what docs/ARCHITECTURE.md says of the order in a turn: up to eight lines are done with nothing between them
but what the registry is asked, once all that came was served, and what it sends goes before its marks. Time passes only where nothing
else goes on.
"""

import argparse
import collections
import json
import sys
from collections import Counter, deque

from imitate import Imitation, Request

LONG = 10**7
LINES = 8
# What goes before the marks of its thread.
TOKENS = ("back", "refused", "let", "walk", "stage")


class Stopping(Imitation):
    def __init__(self, text, threads, devices, seed, strict=False):
        super().__init__(text, threads, devices, seed)
        self.strict = strict
        for kind in ("go", "ask", "let", "release", "due", "call", "visit"):
            self.weights[kind] = self.random.choice([0.02, 0.3, 1, 1, 5])
        for thread in self.threads:
            thread.requests, thread.by_line = [], {}
            thread.leaving, thread.asking, thread.held = [], [], []  # on the way to a limit; for the registry; by delays
            thread.frozen, thread.calls, thread.walks = set(), [], []
            thread.soft = {}  # of soft marks their drain times
        for device in self.devices.values():
            device.line, device.reset, device.resets = deque(), "idle", deque()
            device.injected = injections(device)
            if device.faults.get("limits"):
                self.get_channel(self.threads[device.home], device)

    # ---- what a thread may do

    def choices(self, t):
        thread = self.threads[t]
        for kind, call in super().choices(t):
            if kind in ("abort", "complete"):
                continue
            if self.strict and kind == "line" and (thread.asking or any(device.queue for device in self.devices.values() if device.home == t)):
                continue
            if self.strict and kind == "put" and (thread.asking or thread.unsent or thread.leaving):
                continue
            yield kind, call
        if any(self.is_marked(thread, request.handle.device) and self.may_stop(request) for request in thread.requests):
            yield "abort", self.abort
        if thread.leaving:
            yield "go", self.go
        if thread.asking:
            yield "ask", self.ask
        if not self.strict:
            yield from self.choices_in_time(t)
        if thread.calls and not (self.strict and thread.asking):
            yield "call", self.call
        if any(self.is_drained(thread, request) for _, request, _ in thread.walks):
            yield "visit", self.visit_held

    def choices_in_time(self, t):
        """What only has to wait for time."""
        if any(request.latency < LONG for request in self.threads[t].held):
            yield "release", self.release
        if any(device.line for device in self.devices.values() if device.home == t):
            yield "let", self.let
        if any(time < LONG for time in self.threads[t].soft.values()):
            yield "due", self.harden

    def pass_time(self):
        found = [(t, call) for t in range(len(self.threads)) for _, call in self.choices_in_time(t)]
        if self.strict and found:
            t, call = self.random.choice(found)
            call(t)
            return True
        return False

    def outcome(self, t, try_only=False):
        thread = self.threads[t]
        words = thread.lines[thread.next][1]
        if words[0] in ("reset", "abort") and thread.open >= 1024:
            return False
        if self.strict and words[0] == "open" and thread.calls:
            return False
        done = super().outcome(t, try_only)
        if done and self.strict and not try_only:
            for _ in range(LINES - 1):
                while (thread.asking or thread.calls) and self.random.random() < 0.5:
                    (self.ask if thread.asking else self.call)(t)
                if thread.next == len(thread.lines) or not self.outcome(t, try_only=True):
                    break
                self.outcome_of_one(t)
        return done

    def outcome_of_one(self, t):
        strict, self.strict = self.strict, False
        self.outcome(t)
        self.strict = strict

    def put(self, t):
        due = self.threads[t].due
        if not self.strict:
            super().put(t)
            return
        place = next((place for place, (_, message) in enumerate(due) if message[0] in TOKENS), 0)
        receiver, message = due.pop(place)
        self.send_to(t, receiver, message)

    def send(self, t):
        unsent = self.threads[t].unsent
        if self.strict:
            request, piece = unsent.pop(0)
            request.out += 1
            self.send_to(t, request.handle.device.home, ("piece", (t, request, piece)))
        else:
            super().send(t)

    def came(self, t, kind, what):
        thread = self.threads[t]
        if kind == "piece" and len(what[1].handle.device.root.queue) >= what[1].handle.device.root.faults.get("depth", 1 << 30):
            thread.due.append((what[0], ("refused", what[1:])))
        elif kind == "refused":
            self.refused(t, *what)
        elif kind == "limit":
            self.stand_in_line(t, what)
        elif kind == "let":
            self.is_back(t, what)
        elif kind == "go":
            self.begin_walk(t, "freeze", what)
        elif kind == "stage":
            self.walk_came(t, *what)
        else:
            super().came(t, kind, what)
            if kind == "walk" and what[0].faults.get("limits") and what[0].home == t and t in what[2]:
                self.put_channel(t, what[0])

    # ---- a request's way

    def do_request(self, t, thread, words, handle):
        errno = self.refusal(thread, words, handle)
        if errno is not None:
            thread.counts["refused"] += 1
            return errno
        request = self.accept(t, words, handle)
        below = handle.device.below
        request.limits = [device for device in below if counts(device, words[0])]
        request.is_asked = not any(device.kind == "error" for device in below)
        self.carry_on(t, request)
        return request

    def accept(self, t, words, handle):
        thread = self.threads[t]
        request = Request(thread.lines[thread.next][0], words, handle)
        request.thread, request.is_cut, request.is_away, request.latency, request.limits = t, False, False, 0, []
        request.late = {device for device in handle.device.below if device in thread.frozen or device in thread.soft}
        thread.counts["accepted"] += 1
        thread.open += 1
        handle.requests += 1
        thread.requests.append(request)
        thread.by_line[request.line] = request
        return request

    def is_over_mark(self, thread, request):
        return any(lower in thread.marked or self.is_frozen_for(thread, request, lower) for lower in request.handle.device.below)

    def is_frozen_for(self, thread, request, device):
        """Whether the device's freeze mark stops the request: a soft one stops what is late."""
        return device in thread.frozen or device in thread.soft and device in request.late

    def carry_on(self, t, request):
        thread = self.threads[t]
        if self.is_over_mark(thread, request):
            self.stop(t, request)
        elif request.limits:
            thread.leaving.append(request)
        elif not request.is_asked:
            thread.asking.append(request)
        else:
            request.is_cut = True
            thread.unsent += [(request, piece) for piece in request.handle.device.pieces(int(request.words[2]), int(request.words[3]))]

    def ask(self, t):
        """The request that was accepted first takes what is injected for its type."""
        thread = self.threads[t]
        request = min(thread.asking, key=lambda request: request.line)
        thread.asking.remove(request)
        request.is_asked = True
        for device in request.handle.device.below:
            kind = self.decision(device, request)
            if kind == "failure":
                request.status = "failed"
                self.end(t, request)
                return
            if kind == "pending":
                return
        self.carry_on(t, request)

    def decision(self, device, request):
        found = device.injected.get(request.words[0])
        if not found or found[1] == 0:
            return None
        found[1] -= 1
        return found[0]

    def go(self, t):
        request = self.threads[t].leaving.pop(0)
        request.is_away = True
        self.send_to(t, request.limits[0].home, ("limit", request))

    def stand_in_line(self, t, request):
        if self.is_over_mark(self.threads[t], request):
            self.send_back_aborted(t, request)
        else:
            request.limits[0].line.append(request)

    def send_back_aborted(self, t, request):
        request.status = "aborted"
        self.threads[t].due.append((request.thread, ("let", request)))

    def let(self, t):
        device = self.random.choice([device for device in self.devices.values() if device.home == t and device.line])
        request = device.line.popleft()
        if self.is_over_mark(self.threads[t], request):
            self.send_back_aborted(t, request)
        else:
            self.threads[t].due.append((request.thread, ("let", request)))

    def is_back(self, t, request):
        request.is_away = False
        request.limits.pop(0)
        if request.status == "aborted":
            self.end(t, request)
        else:
            self.carry_on(t, request)

    def refused(self, t, request, piece):
        thread = self.threads[t]
        request.out -= 1
        if request.status != "aborted":
            thread.unsent.append((request, piece))
        elif request.out == 0:
            self.end(t, request)

    def back(self, thread, request):
        request.out -= 1
        if request.out > 0 or any(other is request for other, _ in thread.unsent):
            return
        word, delays = request.words[0], [device.faults["delay"] for device in request.handle.device.below if device.kind == "delay"]
        request.latency = sum(latencies.get(word, 0) for latencies in delays)
        # One that is held for no time may be stopped in that turn.
        if request.status == "success" and delays and word in ("read", "write") and (request.latency > 0 or not self.strict):
            thread.held.append(request)
        else:
            self.end(request.thread, request)

    def release(self, t):
        request = self.random.choice([request for request in self.threads[t].held if request.latency < LONG])
        self.threads[t].held.remove(request)
        self.end(t, request)

    def end(self, t, request):
        thread = self.threads[t]
        thread.requests.remove(request)
        thread.ended.append(request)
        self.complete(t)

    # ---- what stops a request

    def may_stop(self, request):
        """Whether something of it waits on its own thread."""
        thread = self.threads[request.thread]
        if request.words[0] == "reset" or request.status != "success" or request.is_away or request not in thread.requests:
            return False
        return not request.is_cut or request in thread.held or any(other is request for other, _ in thread.unsent)

    def stop(self, t, request):
        if not self.may_stop(request):
            return
        thread = self.threads[t]
        for waiting in (thread.leaving, thread.asking, thread.held):
            if request in waiting:
                waiting.remove(request)
        thread.unsent = [(other, piece) for other, piece in thread.unsent if other is not request]
        request.status = "aborted"
        if request.out == 0:
            self.end(t, request)

    def abort(self, t):
        """A removal's mark stops one of those of which something waits."""
        thread = self.threads[t]
        self.stop(t, self.random.choice([
            request for request in thread.requests if self.is_marked(thread, request.handle.device) and self.may_stop(request)]))

    def refusal_without_range(self, thread, handle):
        if handle is None:
            return 9
        return 19 if handle.is_gone or handle.is_open and self.is_marked(thread, handle.device) else None

    def do_abort(self, t, thread, words, handle):
        errno = self.refusal_without_range(thread, handle)
        if errno is not None:
            thread.counts["refused"] += 1
            return errno
        request = self.accept(t, words, handle)
        named = self.named(thread, words, handle)
        if named is not None:
            self.stop(t, named)
        self.end(t, request)
        return request

    def named(self, thread, words, handle):
        """The request that an abort names, where it is one of its own handle."""
        named = thread.by_line.get(int(words[2]))
        return named if named is not None and named.handle is handle else None

    # ---- resets

    def do_reset(self, t, thread, words, handle):
        errno = self.refusal_without_range(thread, handle)
        if errno is not None:
            thread.counts["refused"] += 1
            return errno
        request = self.accept(t, words, handle)
        request.time = int(words[2]) if len(words) > 2 else 0
        thread.calls.append(("begin", request))
        return request

    def with_channel(self, device):
        return [t for t, thread in enumerate(self.threads) if device in thread.channels]

    def call(self, t):
        """Asks the registry what a reset has to ask next."""
        what, request = self.threads[t].calls.pop(0)
        device = request.handle.device
        if what == "begin" and device.reset != "idle":
            device.resets.append(request)
        elif what == "begin":
            device.reset, request.threads = "running", self.with_channel(device)
            self.begin_walk(t, "freeze", request)
        elif what == "end":
            device.reset, request.thawed = "thawing", self.with_channel(device)
            self.begin_walk(t, "thaw", request)
        else:
            self.finish(t, request)

    def finish(self, t, request):
        device = request.handle.device
        device.reset = "idle"
        if device.resets:
            following = device.resets.popleft()
            device.reset, following.threads = "running", self.with_channel(device)
            self.threads[t].due.append((following.thread, ("go", following)))
        self.end(t, request)

    def begin_walk(self, t, kind, request):
        left = request.thawed if kind == "thaw" else request.threads
        if left:
            self.threads[t].due.append((left[0], ("stage", (kind, request, left))))
        else:
            self.walk_ended(t, kind, request)

    def walk_came(self, t, kind, request, left):
        if not left or left[0] != t:
            self.walk_ended(t, kind, request)
        elif kind == "drain" and not self.is_drained(self.threads[t], request):
            self.threads[t].walks.append((kind, request, left))
        else:
            self.visit(t, kind, request, left)

    def visit_held(self, t):
        thread = self.threads[t]
        walk = next(walk for walk in thread.walks if self.is_drained(thread, walk[1]))
        thread.walks.remove(walk)
        self.visit(t, *walk)

    def is_drained(self, thread, reset):
        device = reset.handle.device
        return not any(device in request.handle.device.below and request.words[0] != "reset" for request in thread.requests)

    def visit(self, t, kind, request, left):
        thread, device = self.threads[t], request.handle.device
        if kind == "freeze" and device in thread.channels:
            thread.frozen.discard(device)
            if request.time:
                thread.soft[device] = request.time
            else:
                thread.frozen.add(device)
            self.stop_all(t, device)
        elif kind == "thaw":
            thread.frozen.discard(device)
            thread.soft.pop(device, None)
        if len(left) > 1 or t != request.thread:
            thread.due.append((left[1] if len(left) > 1 else request.thread, ("stage", (kind, request, left[1:]))))
        else:
            self.walk_ended(t, kind, request)

    def stop_all(self, t, device):
        """What waits here over a device that is frozen, as far as that stops it."""
        thread = self.threads[t]
        stops = lambda request: device in request.handle.device.below and self.is_frozen_for(thread, request, device)
        for request in list(thread.requests):
            if stops(request):
                self.stop(t, request)
        for home in self.devices.values():
            for request in [request for request in home.line if home.home == t and stops(request)]:
                home.line.remove(request)
                self.send_back_aborted(t, request)

    def harden(self, t):
        """A drain time has passed."""
        thread = self.threads[t]
        device = self.random.choice([device for device, time in thread.soft.items() if time < LONG])
        del thread.soft[device]
        thread.frozen.add(device)
        self.stop_all(t, device)

    def walk_ended(self, t, kind, request):
        if kind == "freeze":
            self.begin_walk(t, "drain", request)
        else:
            self.threads[t].calls.append(("end" if kind == "drain" else "finish", request))

    # ---- channels

    def get_channel(self, thread, device):
        is_fresh = device not in thread.channels
        super().get_channel(thread, device)
        if is_fresh and device.reset == "running":
            thread.frozen.add(device)

    def pay(self, t):
        super().pay(t)
        thread = self.threads[t]
        thread.frozen &= thread.channels
        thread.soft = {device: time for device, time in thread.soft.items() if device in thread.channels}


def injections(device):
    """What is injected for each type: the error and how many are left."""
    found = {}
    for word, error, number in device.faults.get("inject", ()):
        every = ("read", "write") if error == "corrupt_data" else ("read", "write", "zeroes", "unmap", "flush")
        for each in every if word == "all" else (word.replace("write_zeroes", "zeroes"),):
            found[each] = [error, number]
    return found


def counts(device, word):
    """Whether a limit of the device counts requests of this type."""
    limits = {name for name, rate in device.faults.get("limits", {}).items() if rate > 0}
    return bool(limits & {"read": {"rw_ios_per_sec", "rw_mbytes_per_sec", "r_mbytes_per_sec"},
                          "write": {"rw_ios_per_sec", "rw_mbytes_per_sec", "w_mbytes_per_sec"}}.get(word, set()))


# ---- the configuration, as the program reads it

def rows_of(calls):
    """The devices of these calls, each as the imitation takes it: a list of (method, parameters). Bases come before what stands on them."""
    rows = {}

    def add(name, blocks, size, kind, base=None, shift=0, boundary=0, **faults):
        rows[name] = (name, blocks, size, kind, base, shift, boundary, faults)

    for method, params in calls:
        kind = method[len("bdev_"):-len("_create")]
        name = params.get("name")
        base = rows.get(params.get("base_bdev_name", params.get("base_name", params.get("base_bdev"))))
        if kind in ("malloc", "null"):
            add(name, params["num_blocks"], params["block_size"], kind, boundary=params.get("optimal_io_boundary", 0), depth=params.get("queue_depth", 128))
        elif kind in ("passthru", "error"):
            add(name or "EE_" + base[0], base[1], base[2], kind, base[0])
        elif kind == "delay":
            add(name, base[1], base[2], kind, base[0], delay={word: params["avg_%s_latency" % word] for word in ("read", "write")})
        elif kind == "split":
            blocks = base[1] // params["split_count"]
            for part in range(params["split_count"]):
                add("%sp%d" % (base[0], part), blocks, base[2], "part", base[0], part * blocks)
        elif method == "bdev_error_inject_error":
            rows[name][-1].setdefault("inject", []).append((params["io_type"], params["error_type"], params.get("num", 1)))
        elif method == "bdev_set_qos_limit":
            rows[name][-1].setdefault("limits", {}).update((key, rate) for key, rate in params.items() if key != "name")
    return list(rows.values())


def main():
    parser = argparse.ArgumentParser(prog="tests/removal/stopping.py")
    parser.add_argument("config")
    parser.add_argument("jobs")
    parser.add_argument("--threads", type=int, default=1)
    parser.add_argument("--orders", type=int, default=100, help="how many orders (100)")
    parser.add_argument("--loose", action="store_true", help="a thread may do what it has to do in any order")
    given = parser.parse_args()
    with open(given.config) as file:
        parts = [part.get("config") for part in json.load(file)["subsystems"] if part["subsystem"] == "bdev"]
    rows = rows_of([(call["method"], call.get("params", {})) for part in parts for call in part or []])
    with open(given.jobs) as file:
        text = file.read()
    found = Counter(Stopping(text, given.threads, rows, "order %d" % seed, not given.loose).play() for seed in range(given.orders))
    if len(found) == 1:
        print(next(iter(found)), end="")
        return 0
    lines = collections.defaultdict(Counter)
    for report, count in found.items():
        for place, line in enumerate(report.split("\n")):
            lines[place][line] += count
    for each in lines.values():
        print("\n".join("%s%s" % ("" if len(each) == 1 else "%6d  " % count, line) for line, count in each.items()))
    return 1


if __name__ == "__main__":
    sys.exit(main())
