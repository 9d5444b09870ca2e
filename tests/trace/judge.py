"""judge: says what is wrong with a history beside its report and the script that it played.

It works from the text alone, as tests/trace/reader.py reads it, from the script's lines and the configuration's
commands, and shares no code with the program. wrong_with() returns a list of what is wrong, which is empty where
nothing is.
"""

import re
from collections import Counter, defaultdict

LIMITS = ("rw_ios_per_sec", "rw_mbytes_per_sec", "r_mbytes_per_sec", "w_mbytes_per_sec")
# Types that have no blocks.
WITHOUT_RANGE = ("reset", "abort")
# The number by which an abort names no request.
NOBODY = 2**64 - 1
# Which limits count a request of a type.
COUNTS = {"read": LIMITS[:3], "write": (*LIMITS[:2], LIMITS[3])}


class Devices:
    """The devices of a report, by their numbers: those below each, itself first, their homes, and how much each limit lets
    through in a slice. Without a configuration each device stands alone, and has no limit."""

    def __init__(self, report, config, threads):
        rows = [line.split(" ") for line in report if line.startswith("device ")]
        names, bases, rates = [row[1] for row in rows], {}, defaultdict(dict)
        for call in config:
            params = call.get("params", {})
            if call["method"] == "bdev_split_create":
                bases.update((name, params["base_bdev"]) for name in names if re.fullmatch(re.escape(params["base_bdev"]) + "p[0-9]+", name))
            elif call["method"] == "bdev_error_create":
                bases["EE_" + params["base_name"]] = params["base_name"]
            elif call["method"] in ("bdev_passthru_create", "bdev_delay_create"):
                bases[params["name"]] = params["base_bdev_name"]
            elif call["method"] == "bdev_set_qos_limit":
                rates[params["name"]].update((key, params[key]) for key in LIMITS if key in params)
        self.names, self.kinds = names, [row[2] for row in rows]
        self.size = [int(row[row.index("size") + 1]) for row in rows]
        self.below, self.home, self.quotas = [], [], []
        for name in names:
            stack = [name]
            while stack[-1] in bases:
                stack.append(bases[stack[-1]])
            self.below.append([names.index(each) for each in stack])
            self.home.append(self.below[-1][-1] % threads)
            of = rates[name]
            self.quotas.append({key: (of[key] + 999) // 1000 if key == LIMITS[0] else of[key] * 1048576 // 1000 for key in of if of[key]})

    def following(self, device):
        """A device and those over it that have its blocks: through passthru, delay and error devices alone."""
        return [each for each, stack in enumerate(self.below)
                if device in stack and all(self.kinds[of] in ("passthru", "delay", "error") for of in stack[: stack.index(device)])]

    def counted(self, device, kind):
        """The limits of a device that count a request of a type."""
        return [key for key in COUNTS.get(kind, ()) if key in self.quotas[device]]

    def kept(self):
        """The channels that homes have from the start."""
        return Counter((self.home[device], str(device)) for device, quotas in enumerate(self.quotas) if quotas)


def order(entries):
    """Entries stand by stamp and thread, and a thread's stamps rise from 1 on."""
    last = {}
    for before, entry in zip([None] + entries, entries):
        if before and (before.stamp, before.thread) >= (entry.stamp, entry.thread):
            yield f"entry {entry.line()!r} doesn't stand after {before.line()!r}"
        if entry.stamp <= last.get(entry.thread, 0):
            yield f"stamps of thread {entry.thread} don't rise at {entry.stamp}"
        last[entry.thread] = entry.stamp


def requests(entries):
    """Each accepted request is cut where it has more pieces, done piece by piece, and completed once, on its thread."""
    accepted, completed = {}, Counter()
    pieces, applied = defaultdict(lambda: 1), defaultdict(Counter)
    status = {}
    for entry in entries:
        name = entry.get("request")
        if entry.act == "accept":
            if name in accepted:
                yield f"request {name} is accepted twice"
            if int(name.split(".")[0]) != entry.thread:
                yield f"request {name} is accepted on thread {entry.thread}"
            accepted[name] = entry
        elif entry.act == "cut":
            pieces[name] = int(entry.get("pieces"))
        elif entry.act == "apply":
            if entry.get("end") == "done":
                applied[name][int(entry.get("piece"))] += 1
        elif entry.act == "complete":
            completed[name] += 1
            status[name] = entry.get("status")
            if name not in accepted or accepted[name].thread != entry.thread:
                yield f"request {name} is completed on thread {entry.thread} without an accept there"
            reads = accepted.get(name) and accepted[name].get("type") == "read" and status[name] == "success"
            if bool(reads) != (entry.get("sha256") is not None):
                yield f"request {name} shows data, or none, against its type and status"
    for name in accepted:
        if completed[name] != 1:
            yield f"request {name} is completed {completed[name]} times"
        wanted = Counter() if accepted[name].get("type") in WITHOUT_RANGE else Counter(range(pieces[name]))
        if status.get(name) == "success" and applied[name] != wanted:
            yield f"request {name} succeeded with the pieces {dict(applied[name])} of {pieces[name]}"


def cuts(entries):
    """A request is cut once, before its first piece goes; one that is aborted may not be, and one that an injected error fails isn't. Resets
    and aborts aren't cut."""
    cut, sent, status, injected = Counter(), set(), {}, set()
    for entry in entries:
        name = entry.get("request")
        if entry.act == "inject" and entry.get("decision") == "fail" or entry.act == "accept" and entry.get("type") in WITHOUT_RANGE:
            injected.add(name)
        if entry.act == "cut":
            cut[name] += 1
            if name in sent:
                yield f"request {name} is cut once its pieces go"
        elif entry.act == "put" and entry.get("message") == "piece":
            sent.add(name)
        elif entry.act == "complete":
            status[name] = entry.get("status")
    for name, end in status.items():
        if cut[name] != (name not in injected) and (end != "aborted" or cut[name]):
            yield f"request {name}, which ends with {end}, is cut {cut[name]} times"


def decisions(entries):
    """A decision is the one that the registry answered in the thread's entry before; a request has one of each device at most, none
    after one that fails or keeps it, and none once it is cut; it is kept once, where its last decision says so."""
    before, asked, last, cut, kept = {}, set(), {}, set(), set()
    for entry in entries:
        name, of_thread = entry.get("request"), before.get(entry.thread)
        if entry.act == "inject":
            wanted = [("event", "take-injection"), *entry.fields[1:2], ("request", name), ("answer", "injected"), ("decision", entry.get("decision"))]
            if of_thread is None or [field for field in of_thread.fields if field in wanted] != wanted:
                yield f"{entry.line()!r} stands after {of_thread and of_thread.line()!r}"
            if (name, entry.get("device")) in asked or last.get(name, "pass") in ("fail", "pend") or name in cut:
                yield f"{entry.line()!r} is a decision too many"
            asked.add((name, entry.get("device")))
            last[name] = entry.get("decision")
        elif of_thread is not None and of_thread.get("answer") == "injected":
            yield f"{entry.line()!r} stands after {of_thread.line()!r}"
        elif entry.act == "pend":
            if last.get(name) != "pend" or name in kept:
                yield f"{entry.line()!r} has no decision for it"
            kept.add(name)
        elif entry.act == "cut":
            cut.add(name)
        before[entry.thread] = entry
    for entry in entries:
        if entry.act == "complete":
            name = entry.get("request")
            wanted = {"fail": "failed", "pend": "aborted"}.get(last.get(name))
            if wanted and entry.get("status") != wanted:
                yield f"{entry.line()!r} ends a request with the decision {last[name]}"


def limits(entries, devices):
    """A request that limits count goes to the home of each device with one, from the top down, and passes there in the order of
    arrival, while something is left of each limit that counts it; then it comes back, and so does one that is aborted there. A
    tick is made where a request waits, of the slices that passed since some start. A request is cut, and ends, where it belongs."""
    place, kinds, left_to_pass = {}, {}, {}
    lines, slices, starts = defaultdict(list), Counter(), {}
    left = [dict(quotas) for quotas in devices.quotas]
    first, last = {}, {}
    for entry in entries:
        name, line = entry.get("request"), entry.line()
        if entry.act == "accept":
            kinds[name] = entry.get("type"), int(entry.get("count")) * devices.size[int(entry.get("device"))]
            left_to_pass[name] = [device for device in devices.below[int(entry.get("device"))] if devices.counted(device, kinds[name][0])]
            place[name] = "own"
        elif entry.act == "took" and entry.get("message") == "request":
            if place.get(name) == "back":
                place[name] = "own"
                if entry.thread != int(name.split(".")[0]):
                    yield f"{line!r} isn't on the request's thread"
            elif place.get(name) != "own" or not left_to_pass[name]:
                yield f"{line!r} is on no way to a limited device"
            else:
                place[name] = device = left_to_pass[name][0]
                lines[device].append(name)
                if entry.thread != devices.home[device]:
                    yield f"{line!r} isn't at the home of device {device}"
        elif entry.act == "abort":
            if isinstance(place.get(name), int):
                lines[place[name]].remove(name)
                place[name] = "back"
            left_to_pass[name] = []
        elif entry.act in ("cut", "complete") and name in place:
            if place[name] != "own" or (entry.act == "cut" or entry.get("status") == "success") and left_to_pass[name]:
                yield f"{line!r}, and it has {left_to_pass[name]} to pass, and is at {place[name]}"
        elif entry.act in ("let", "tick"):
            device = int(entry.get("device"))
            if entry.thread != devices.home[device]:
                yield f"{line!r} isn't at the home"
        if entry.get("now") is not None:
            now = int(entry.get("now"))
            if now < last.get(entry.thread, 0):
                yield f"{line!r} names a moment before {last[entry.thread]}"
            first.setdefault(entry.thread, now)
            last[entry.thread] = now
        if entry.act == "let":
            if lines[device][:1] != [name]:
                yield f"{line!r}, and in line are {lines[device]}"
                continue
            kind, count = kinds[name]
            for key in devices.counted(device, kind):
                if left[device][key] <= 0:
                    yield f"{line!r}, and of {key} are left {left[device][key]}"
                left[device][key] -= 1 if key == LIMITS[0] else count
            lines[device].pop(0)
            left_to_pass[name].pop(0)
            place[name] = "back"
        elif entry.act == "tick":
            more = int(entry.get("slices"))
            slices[device] += more
            early, late = starts.get(device, (0, first[entry.thread]))
            starts[device] = max(early, now - 1000 * slices[device] - 999), min(late, now - 1000 * slices[device])
            if not lines[device] or more < 1 or starts[device][0] > starts[device][1]:
                yield f"{line!r}: in line are {lines[device]}, and the start is from {starts[device]}"
            left[device] = {key: min(value, 0) + more * devices.quotas[device][key] for key, value in left[device].items()}
    away = [name for name, at in place.items() if at != "own"]
    if away:
        yield f"requests don't come back: {away}"


def sizes(report, entries, devices):
    """A handle has as many blocks as its device: those that the report says, until a resize ends. A request stays within the blocks
    that its thread was told of, at the open and by size events."""
    rows = [line.split(" ") for line in report if line.startswith("device ")]
    blocks, known = [int(row[row.index("blocks") + 1]) for row in rows], {}
    for entry in entries:
        if entry.get("answer") == "opened":
            known[entry.get("handle")] = int(entry.get("blocks"))
            if blocks[int(entry.get("device")):][:1] != [int(entry.get("blocks"))]:
                yield f"{entry.line()!r}: the devices have {blocks}"
        elif entry.get("answer") == "resized":
            for device in devices.following(int(entry.get("device"))):
                blocks[device] = int(entry.get("blocks"))
        elif entry.act == "took" and entry.get("message") == "sized":
            known[entry.get("handle")] = int(entry.get("blocks"))
        elif entry.act == "accept" and int(entry.get("lba")) + int(entry.get("count")) > known.get(entry.get("handle"), 0):
            yield f"{entry.line()!r}: the handle is known to have {known.get(entry.get('handle'), 0)} blocks"


def resizes(entries, devices):
    """A resize begins where none of its device is under way, and to more blocks; then its home is told, and lets the content grow just
    before it ends it; then each handle that is open on the device, or on one that follows it, is told on its thread."""
    growing, due, grown, handles, last = {}, Counter(), {}, {}, {}
    for entry in entries:
        line, of_thread = entry.line(), last.get(entry.thread)
        last[entry.thread] = entry
        if of_thread is not None and of_thread.act == "grow" and (entry.get("event"), entry.get("device")) != ("end-resize", of_thread.get("device")):
            yield f"{line!r} stands after {of_thread.line()!r}"
        if entry.get("answer") == "opened":
            handles[entry.get("handle")] = int(entry.get("device")), str(entry.thread)
        elif entry.get("answer") == "closed":
            handles.pop(entry.get("handle"), None)
        elif entry.get("answer") == "resizing":
            device, blocks = int(entry.get("device")), entry.get("blocks")
            if device in growing or int(blocks) <= grown.get(device, 0) or int(entry.get("home")) != devices.home[device] or devices.names[device] != entry.get("name"):
                yield f"{line!r} begins where {growing} grow, and {grown} have"
            growing[device] = blocks
            due["grow", entry.get("device"), blocks, entry.get("home")] += 1
        elif entry.act == "put" and entry.get("message") in ("grow", "sized"):
            what = (*(value for _, value in entry.fields[2:]), entry.get("to"))
            due[what] -= 1
            if due[what] < 0:
                yield f"{line!r} isn't due"
        elif entry.act == "grow":
            device = int(entry.get("device"))
            if growing.get(device) != entry.get("blocks") or entry.thread != devices.home[device] or device in grown and grown[device] >= int(entry.get("blocks")):
                yield f"{line!r}, and {growing} grow"
            grown[device] = int(entry.get("blocks"))
        elif entry.get("event") == "end-resize":
            device = int(entry.get("device"))
            follow = devices.following(device)
            told = sorted((handle, owner) for handle, (of, owner) in handles.items() if of in follow)
            if of_thread is None or of_thread.act != "grow" or growing.pop(device, None) != entry.get("blocks"):
                yield f"{line!r} ends no growth"
            if sorted(zip(entry.all("handle"), entry.all("owner"))) != told or entry.all("handle") != sorted(entry.all("handle"), key=int):
                yield f"{line!r}: open are {told}"
            due.update(("sized", handle, entry.get("blocks"), owner) for handle, owner in told)
    if growing or any(due.values()):
        yield f"resizes don't end: {growing}, and to be told is {+due}"


def registry(entries, kept):
    """Handles are numbered in turn and closed once; channels are given back as often as they are got, and dropped
    where a message says so; a removal visits the threads with a channel; what ends is told. A channel that a home keeps
    is given back once, by no close."""
    opened, closed, got, back, put = [], Counter(), Counter(), Counter(), Counter()
    visits, wanted, drops, told, ended = Counter(), Counter(), Counter(), Counter(), Counter()
    for entry in entries:
        event, answer, device = entry.get("event"), entry.get("answer"), entry.get("device")
        if entry.act == "visit":
            visits[device, str(entry.thread)] += entry.get("kind") == "removal"
        elif entry.act == "destruct":
            ended[device] += 1
        elif entry.act == "took" and entry.get("message") == "channel":
            drops[entry.thread, device] += 1
        elif entry.act != "registry":
            continue
        if answer == "opened":
            opened.append(int(entry.get("handle")))
        elif answer == "closed":
            closed[int(entry.get("handle"))] += 1
        elif answer == "got":
            got[entry.thread, device] += 1
        elif answer == "put-down":
            back[entry.thread, device] += 1
            if entry.get("closing") == "no":
                put[entry.thread, device] += 1
        elif answer == "removing":
            wanted.update((device, thread) for thread in entry.all("thread"))
        elif event == "drop-channel":
            drops[entry.thread, device] -= 1
        elif event == "destructed":
            told[device] += 1
    if opened and opened != list(range(opened[0], opened[0] + len(opened))):
        yield f"handles are numbered {opened}"
    if any(closed[handle] != 1 for handle in range(opened[-1] + 1 if opened else 0)):
        yield f"handles are closed {dict(closed)} times"
    for what, one, other in [("channels got and given back", got + kept, back), ("channels kept", put, kept), ("visits", +visits, wanted), ("devices that end", ended, told)]:
        if one != other:
            yield f"{what}: {dict(one)} and {dict(other)}"
    if any(drops.values()):
        yield f"channels to be dropped: {dict(drops)}"


class Reset:
    """A reset that was accepted: what it covers of what is open then, and the threads that each of its walks has to visit."""

    def __init__(self, entry, older):
        self.name, self.thread, self.device, self.older = entry.get("request"), entry.thread, int(entry.get("device")), older
        self.stage, self.left, self.threads = "accepted", [], []

    def begin(self, threads):
        self.stage, self.left, self.threads = "freeze", list(threads), list(threads)
        self.go_on()

    def go_on(self):
        """A walk that visited all is followed by the next one."""
        if not self.left and self.stage == "freeze":
            self.stage, self.left = "drain", list(self.threads)
        if not self.left and self.stage in ("drain", "thaw"):
            self.stage = {"drain": "drained", "thaw": "thawed"}[self.stage]


def resets(entries, devices):
    """One reset of a device runs at a time, and those that wait for it follow in the order in which they asked. Each freezes and then
    drains the threads that had a channel as it began, and thaws those that have one then, in rising number; at a drain and at its end
    nothing of what it covers is open, there or anywhere. A request is aborted by an abort of its thread that is open and names it."""
    still_open, running, waiting, handles = {}, {}, defaultdict(list), {}
    for entry in entries:
        name, line = entry.get("request"), entry.line()
        is_over = lambda begin, device: begin.get("type") != "reset" and device in devices.below[int(begin.get("device"))]
        covered = lambda device, thread=None: [other for other, begin in still_open.items() if is_over(begin, device) and thread in (None, begin.thread)]
        if entry.act == "accept":
            handles[name] = entry.get("handle")
            still_open[name] = entry
            if entry.get("type") == "reset":
                entry.reset = Reset(entry, covered(int(entry.get("device"))))
        elif entry.act == "registry" and entry.get("event") in ("begin-reset", "end-reset", "finish-reset") and entry.get("answer") != "refused":
            device, answer = int(entry.get("device")), entry.get("answer")
            reset = still_open[name].reset if answer in ("reset-started", "reset-queued") else running.get(device)
            wanted = {"reset-started": "accepted", "reset-queued": "accepted", "reset-ended": "drained", "reset-finished": "thawed"}[answer]
            is_out_of_turn = wanted == "accepted" and (answer == "reset-started") == (device in running)
            if reset is None or reset.stage != wanted or reset.thread != entry.thread or is_out_of_turn:
                yield f"{line!r} comes while the reset is {reset and reset.stage}, and {running.get(device) and running[device].name} runs"
                continue
            if answer == "reset-started":
                reset.begin(entry.all("thread"))
                running[device] = reset
            elif answer == "reset-queued":
                waiting[device].append(reset)
            elif answer == "reset-ended":
                reset.stage, reset.left = "thaw", list(entry.all("thread"))
                reset.go_on()
            else:
                reset.stage = "finished"
                del running[device]
                following = [field[1] for field in entry.fields if field[0] == "next"]
                if following != [each.name for each in waiting[device][:1]]:
                    yield f"{line!r}, and next is {[each.name for each in waiting[device]]}"
                elif following:
                    running[device] = waiting[device].pop(0)
                    running[device].begin(entry.all("thread"))
        elif entry.act == "visit" and entry.get("kind") != "removal":
            device = int(entry.get("device"))
            reset = running.get(device)
            if reset is None or reset.stage != entry.get("kind") or reset.left[:1] != [str(entry.thread)]:
                yield f"{line!r}, and the reset is {reset and (reset.name, reset.stage, reset.left)}"
                continue
            if reset.stage == "drain" and covered(device, entry.thread):
                yield f"{line!r}, and open are {covered(device, entry.thread)}"
            reset.left.pop(0)
            reset.go_on()
        elif entry.act == "abort" and entry.get("cause") == "named":
            by = entry.get("by")
            begin = still_open.get(by)
            if begin is None or begin.thread != entry.thread or handles[by] != handles[name] or f"{entry.thread}.{begin.get('names')}" != name:
                yield f"{line!r}, and {by} is {begin and begin.line()!r}"
        elif entry.act == "complete" and name in still_open:
            begin = still_open.pop(name)
            if begin.get("type") == "reset":
                left = [other for other in begin.reset.older if other in still_open]
                if begin.reset.stage != "finished" or left:
                    yield f"{line!r}: it is {begin.reset.stage}, and open are {left}"
    if running:
        yield f"resets run at the end: {[reset.name for reset in running.values()]}"


def aborts(entries, devices):
    """A request is aborted by a mark that is set on the thread, of a device below its own: a removal's stays, and a reset's is set by the
    visit of its freeze or with the channel that is made meanwhile, and taken away by its thaw or with the channel. A soft one, which a Grace
    follows, stops what was accepted under a mark of a reset alone, until its Due, which names no moment before that of its Grace."""
    marks, below, late, visited, soft = set(), {}, {}, {}, {}
    for entry in entries:
        device, thread = entry.get("device"), entry.thread
        if entry.act == "accept":
            below[entry.get("request")] = devices.below[int(device)]
            late[entry.get("request")] = {lower for lower in devices.below[int(device)] if ("frozen", thread, str(lower)) in marks}
        elif entry.act == "visit" and entry.get("kind") in ("freeze", "removal"):
            marks.add(("frozen" if entry.get("kind") == "freeze" else "removed", thread, device))
            visited[thread] = entry.get("walk"), device
            soft.pop((thread, device), None)
        elif entry.act == "grace":
            walk, device = visited.get(thread, (None, None))
            soft[thread, device] = walk, int(entry.get("until"))
            if walk != entry.get("walk"):
                yield f"{entry.line()!r}, and no visit of it stands before"
        elif entry.act == "due":
            found = [(at, until) for at, (walk, until) in soft.items() if at[0] == thread and walk == entry.get("walk")]
            if not found or found[0][1] > int(entry.get("now")):
                yield f"{entry.line()!r}, and no mark is due"
            for at, _ in found:
                del soft[at]
        elif entry.act == "visit" and entry.get("kind") == "thaw" or entry.get("answer") == "dropped" and entry.get("channel") != "kept":
            marks.discard(("frozen", thread, device))
            soft.pop((thread, device), None)
        elif entry.get("answer") == "got":
            marks.update(("frozen", thread, frozen) for frozen in entry.all("frozen"))
        elif entry.act == "abort" and entry.get("cause") != "named":
            if (entry.get("cause"), thread, device) not in marks or int(device) not in below[entry.get("request")]:
                yield f"{entry.line()!r}, and there is no such mark"
            elif entry.get("cause") == "frozen" and (thread, device) in soft and int(device) not in late[entry.get("request")]:
                yield f"{entry.line()!r}, and the mark is soft yet"


def asked(entries, script):
    """Before a line that opens, claims, removes or resizes stands what was asked of the registry for it, with its answer."""
    events = {"open": ("open", "opened"), "claim": ("claim", "claimed"), "remove": ("begin-remove", "removing"), "resize": ("begin-resize", "resizing")}
    since = defaultdict(list)
    for entry in entries if script else []:
        if entry.act == "registry":
            since[entry.thread].append((entry.get("event"), entry.get("answer")))
        elif entry.act == "script":
            words = script[int(entry.get("line")) - 1].split()
            if words[1] in events and entry.get("outcome") == "ok" and events[words[1]] not in since[entry.thread]:
                yield f"line {entry.get('line')} is done without its event"
            since[entry.thread] = []


def messages(entries):
    """Messages from one thread to another are numbered from 0; each that is put is taken once, later, and as it was."""
    puts, numbers, taken = {}, Counter(), Counter()
    for entry in entries:
        if entry.act not in ("put", "took"):
            continue
        other, number, what = int(entry.fields[0][1]), int(entry.get("number")), entry.fields[2:]
        if entry.act == "put":
            way = entry.thread, other
            if number != numbers[way]:
                yield f"the message {number} of {way} should be {numbers[way]}"
            numbers[way] += 1
            puts[way, number] = what
        else:
            way = other, entry.thread
            if puts.get((way, number)) != what:
                yield f"the message {number} of {way} is taken, and wasn't put so before"
            if number != taken[way]:
                yield f"the message {number} of {way} is taken out of turn"
            taken[way] += 1
    if numbers != taken:
        yield f"messages put {dict(numbers)} and taken {dict(taken)}"


def ends(report, entries):
    """Each device of the report is destructed once, with the digest that the report shows; the end comes once."""
    shown = [line.split(" ") for line in report if line.startswith("device ")]
    told = defaultdict(list)
    for entry in entries:
        if entry.act == "destruct":
            told[int(entry.get("device"))].append(entry.get("sha256"))
    for number, words in enumerate(shown):
        digest = words[words.index("sha256") + 1] if "sha256" in words else None
        if told[number] != [digest]:
            yield f"device {number} tells {told[number]} for {digest}"
    if len(told) != len(shown):
        yield f"{len(told)} devices end, and the report has {len(shown)}"
    if sum(entry.act == "shutdown" for entry in entries) != 1:
        yield "there isn't one shutdown"


def counts(report, entries):
    """The report's counts of threads, of devices and of all are those of the entries."""
    by_thread, size = defaultdict(Counter), []
    accepted, moved = {}, defaultdict(Counter)
    for entry in entries:
        if entry.act in ("accept", "refuse"):
            by_thread[entry.thread]["accepted" if entry.act == "accept" else "refused"] += 1
        if entry.act == "accept":
            accepted[entry.get("request")] = entry
        if entry.act == "complete":
            by_thread[entry.thread][entry.get("status")] += 1
            begin = accepted.get(entry.get("request"))
            if begin and entry.get("status") == "success" and begin.get("type") in ("read", "write"):
                moved[int(begin.get("device"))][begin.get("type")] += 1
                moved[int(begin.get("device"))][begin.get("type") + "_blocks"] += int(begin.get("count"))
    every = Counter()
    for line in report:
        words = line.split(" ")
        if words[0] in ("thread", "end"):
            at = 2 if words[0] == "thread" else 1
            said = {key: int(value) for key, value in zip(words[at::2], words[at + 1::2])}
            found = by_thread[int(words[1])] if at == 2 else every
            every.update({key: found[key] for key in said} if at == 2 else {})
            for key, value in said.items():
                if found[key] != value:
                    yield f"{line!r}, and the entries say {key} {found[key]}"
        if words[0] == "device":
            number, block = len(size), int(words[words.index("size") + 1])
            size.append(block)
            said = {key: int(value) for key, value in zip(words[7:15:2], words[8:16:2])}
            found = moved[number]
            wanted = {"reads": found["read"], "writes": found["write"], "read_bytes": found["read_blocks"] * block,
                      "write_bytes": found["write_blocks"] * block}
            if said != wanted:
                yield f"{line!r}, and the entries say {wanted}"


def job_result(entry, completions):
    """What a report says of a script's line by its entry."""
    outcome = entry.get("outcome")
    if outcome == "ok":
        return "ok"
    if outcome == "refused":
        return f"errno {entry.get('errno')}"
    if outcome == "busy":
        return f"errno 16 open {entry.get('open')}"
    end = completions.get(entry.get("request"))
    if end is None:
        return "skipped"
    data = f" first {end.get('first')} sha256 {end.get('sha256')}" if end.get("sha256") else ""
    return end.get("status") + data


def is_asked(words, request, of_lines):
    """Whether a request is what a line asks for. An abort names the request of its line, if that was one of the same handle."""
    if words[1] not in WITHOUT_RANGE:
        return [words[1], *words[3:5]] == [request.get("type"), request.get("lba"), request.get("count")]
    named = of_lines.get((request.thread, words[3])) if words[1] == "abort" else None
    number = named.get("request").split(".")[1] if named and named.get("handle") == request.get("handle") else str(NOBODY)
    return [words[1], number if words[1] == "abort" else None] == [request.get("type"), request.get("names")]


def lines(report, entries, script):
    """Each job line is what its entry says; the request that a line is accepted as is what the script has there."""
    done, completions, accepted = {}, {}, {}
    for entry in entries:
        if entry.act == "script":
            key = entry.thread, int(entry.get("line"))
            if key in done:
                yield f"line {key} is done twice"
            done[key] = entry
        elif entry.act == "complete":
            completions[entry.get("request")] = entry
        elif entry.act == "accept":
            accepted[entry.get("request")] = entry
    for line in report:
        words = line.split(" ", 4)
        if words[0] == "job":
            entry = done.pop((int(words[2]), int(words[1])), None)
            said = " ".join(words[4:])
            found = "skipped" if entry is None else job_result(entry, completions)
            if said != found:
                yield f"{line!r}, and the entries say {found!r}"
    if any(line.startswith("job ") for line in report) and done:
        yield f"the report has no line for {sorted(done)}"
    of_lines = {}
    for (thread, number), entry in ((key, it) for key, it in done_again(entries) if script):
        words = script[number - 1].split()
        if words[0] != str(thread):
            yield f"line {number} is done by thread {thread}"
        request = accepted.get(entry.get("request")) if entry.get("outcome") == "accepted" else None
        if entry.get("outcome") == "accepted" and (request is None or not is_asked(words, request, of_lines)):
            yield f"line {number} {words} is accepted as {request and request.line()!r}"
        of_lines[thread, str(number)] = request


def done_again(entries):
    """The entries of scripts' lines by thread and line."""
    return [((entry.thread, int(entry.get("line"))), entry) for entry in entries if entry.act == "script"]


def wrong_with(report, entries, script, config=(), threads=1):
    """Returns what is wrong with these, at most ten of each kind. The configuration is its commands; they and the number of threads
    need not be there where no device has a limit."""
    found, devices = [], Devices(report, config, threads)
    for part in (order(entries), requests(entries), cuts(entries), decisions(entries), limits(entries, devices), registry(entries, devices.kept()), resets(entries, devices), aborts(entries, devices),
                 asked(entries, script),
                 messages(entries), sizes(report, entries, devices), resizes(entries, devices), ends(report, entries), counts(report, entries), lines(report, entries, script)):
        found += list(part)[:10]
    return found
