"""made: a history that no program played, of a size that is asked for, and what a page of it has to show.

usage: made.py THREADS REQUESTS

It prints a report's device lines and a history of THREADS threads, each with REQUESTS requests that write and read
blocks of one device, whose home is thread 0. Each request is accepted, cut into no pieces, sent, done, sent back and
completed; up to eight of a thread are open at a time. The order is chosen by a generator of numbers with a fixed
beginning, so a history of a size is always the same.
"""

import random
import sys


def made(threads, requests):
    """Returns the text, and the spans by request: thread, stamp of the accept, stamp of the completion."""
    chance = random.Random(5)
    entries, spans = [], {}
    sent = {}
    waiting = [[] for _ in range(threads)]
    left = [requests] * threads
    number = [0] * threads
    stamp = 0

    def add(thread, text):
        nonlocal stamp
        stamp += 1
        entries.append(f"{stamp} {thread} {text}")
        return stamp

    def put(thread, to, what):
        at = sent.get((thread, to), 0)
        sent[thread, to] = at + 1
        add(thread, f"put to {to} number {at} message {what}")
        return at

    for thread in range(threads):
        add(thread, f"registry event open name Disk mode w answer opened handle {thread} device 0 blocks 64")
        add(thread, f"script line {thread + 1} outcome ok")
    while any(left) or any(waiting):
        thread = chance.randrange(threads)
        if left[thread] and len(waiting[thread]) < 8 and (not waiting[thread] or chance.random() < .55):
            name = f"{thread}.{number[thread]}"
            kind = "write seed 5 flip no" if number[thread] % 2 == 0 else "read"
            begin = add(thread, f"accept request {name} handle {thread} device 0 type {kind} lba {number[thread] % 64} count 1")
            spans[name] = [thread, begin, None]
            waiting[thread].append([name, 0, kind])
            number[thread] += 1
            left[thread] -= 1
        elif waiting[thread]:
            item = waiting[thread][chance.randrange(len(waiting[thread]))]
            name, state, kind = item[:3]
            piece = f"piece request {name} piece 0"
            if state == 0:
                item.append(put(thread, 0, piece))
            elif state == 1:
                add(0, f"took from {thread} number {item[3]} message {piece}")
                add(0, f"apply request {name} piece 0 device 0 end done")
                item.append(put(0, thread, piece))
            else:
                add(thread, f"took from 0 number {item[4]} message {piece}")
                shown = f" first {'0' * 16} sha256 {'0' * 64}" if kind == "read" else ""
                spans[name][2] = add(thread, f"complete request {name} status success{shown}")
                waiting[thread].remove(item)
            item[1] += 1
    add(0, "shutdown")
    add(0, f"destruct device 0 sha256 {'0' * 64}")
    head = f"device Disk malloc blocks 64 size 512\nhistory {len(entries)}\n"
    return head + "".join(entry + "\n" for entry in entries), spans


if __name__ == "__main__":
    sys.stdout.write(made(int(sys.argv[1]), int(sys.argv[2]))[0])
