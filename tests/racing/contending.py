"""What tests/racing/errors and tests/racing/limits share: scripts of contending threads, what their reports say, and the runs.

A *plan* takes the number of threads, and gives the calls of a configuration, the script's lines, and a function that says what is
wrong with a report, or nothing.
"""

import argparse
import collections
import hashlib
import json
import os
import re
import subprocess
import sys
import tempfile
import time

sys.dont_write_bytecode = True
sys.path.insert(0, os.path.dirname(os.path.dirname(os.path.abspath(__file__))))

from executable import executable

SECONDS = 240
NUMBERS = (1, 2, 4, 8)
SIZE = 512
REQUESTS = ("read", "write", "zeroes", "unmap", "flush")


def malloc(name, blocks):
    return "bdev_malloc_create", {"name": name, "num_blocks": blocks, "block_size": SIZE}


def pattern(seed, block):
    return bytes((seed + 31 * block + 7 * i) % 256 for i in range(SIZE))


def shown(data):
    return "success first %s sha256 %s" % (data[:8].hex(), hashlib.sha256(data).hexdigest())


ZEROS = shown(bytes(SIZE))


class Report:
    """A report's jobs, by their lines: each with its thread, its words and what it came to; and what follows them."""

    def __init__(self, script, text):
        lines = text.split("\n")
        jobs = [line.split(" ", 4) for line in lines if line.startswith("job ")]
        self.jobs = [(int(thread), script[int(number) - 1].split()[1:], result) for _, number, thread, _, result in jobs]
        self.rest = [line for line in lines if line and not line.startswith("job ")]
        self.form = "" if len(jobs) == len(script) and lines[-1] == "" else "%d jobs for %d lines" % (len(jobs), len(script))

    def results(self, *words):
        """What the lines with one of these words came to."""
        return collections.Counter(result for _, said, result in self.jobs if said[0] in words)

    def not_ok(self, *words):
        """Which line with one of these words didn't come to ok."""
        return next(("'%d %s' came to %r" % (thread, " ".join(said), result) for thread, said, result in self.jobs if said[0] in words and result != "ok"), "")

    def wrong_counts(self):
        """Whether the counts of threads and of all are those of the jobs."""
        ends = collections.defaultdict(collections.Counter)
        for thread, words, result in self.jobs:
            if words[0] in REQUESTS and result != "skipped":
                ends[thread][result.split()[0]] += 1
        wanted, every = [], [0] * 4
        for thread in sorted({thread for thread, _, _ in self.jobs}):
            ended = [ends[thread][word] for word in ("success", "failed", "aborted")]
            counts = [sum(ended), *ended]
            every = list(map(sum, zip(every, counts)))
            wanted.append("thread %d accepted %d success %d failed %d aborted %d refused %d" % (thread, *counts, ends[thread]["errno"]))
        wanted.append("end accepted %d success %d failed %d aborted %d" % tuple(every))
        found = [line for line in self.rest if line.startswith(("thread ", "end "))]
        return "" if found == wanted else "%r stand for %r" % (found, wanted)

    def digest(self, name):
        return next(re.search("sha256 (.*)", line)[1] for line in self.rest if line.startswith("device %s " % name))


def by_threads(threads, lines_of):
    """The lines of each thread, in the order of threads."""
    return ["%d %s" % (thread, line) for thread in range(threads) for line in lines_of(thread)]


def in_eights(lines):
    """These lines with a wait after each eighth."""
    return [each for place, line in enumerate(lines, 1) for each in ([line, "wait"] if place % 8 == 0 else [line])]


def fault(words, script, wrong):
    """What is wrong with one run; '' where nothing is. The report's `lasted` is how long it took, in seconds, or a little more."""
    began = time.monotonic()
    try:
        ended = subprocess.run(words, stdin=subprocess.DEVNULL, capture_output=True, timeout=SECONDS)
    except subprocess.TimeoutExpired:
        return "it didn't end within %d seconds" % SECONDS
    if ended.returncode != 0 or ended.stderr:
        return "status %d; standard error: %s" % (ended.returncode, ended.stderr.decode(errors="replace").strip()[:200])
    report = Report(script, ended.stdout.decode(errors="replace"))
    report.lasted = time.monotonic() - began
    return report.form or report.wrong_counts() or wrong(report)


def arguments(name):
    parser = argparse.ArgumentParser(prog=name)
    parser.add_argument("program", nargs="?", help="the executable")
    parser.add_argument("--runs", type=int, default=3, help="how many runs of each script on each number of reactors (3)")
    words, option = sys.argv[1:], "--reactors"
    if "--option" in words[:-1]:
        place = words.index("--option")
        option = words[place + 1]
        del words[place : place + 2]
    return parser.parse_args(words), option


def run_all(name, plans, schedules=()):
    """Runs each plan on 8 and 16 threads, so often on each number of reactors and once by each schedule, and says how many runs
    went wrong."""
    given, option = arguments(name)
    ways = [(option, number) for number in NUMBERS for _ in range(given.runs)]
    ways += [("--schedule", number) for number in schedules if option == "--reactors"]
    program = os.path.abspath(given.program or executable())
    runs = failed = 0
    with tempfile.TemporaryDirectory() as room:
        config, jobs = os.path.join(room, "config"), os.path.join(room, "jobs")
        for plan in plans:
            for threads in (8, 16):
                calls, script, wrong = plan(threads)
                with open(config, "w") as file:
                    json.dump({"subsystems": [{"subsystem": "bdev", "config": [{"method": method, "params": params} for method, params in calls]}]}, file)
                with open(jobs, "w") as file:
                    file.write("\n".join(script) + "\n")
                for way, number in ways:
                    runs += 1
                    found = fault([program, "run", config, jobs, "--threads", str(threads), way, str(number)], script, wrong)
                    if found:
                        failed += 1
                        print("%s: %s on %d threads, %s %d: %s" % (name, plan.__name__, threads, way, number, found[:600]))
    print("%s: %d passed, %d failed" % (name, runs - failed, failed))
    return failed > 0
