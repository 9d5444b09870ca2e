"""Ways to play a script with one rule broken, to try the checker with."""

import hashlib

from imitate import Imitation


class AcceptsAfterGone(Imitation):
    """Requests are accepted on handles that were told."""

    def refusal(self, thread, words, handle):
        if handle is not None and handle.is_gone and handle.is_open:
            return None
        return super().refusal(thread, words, handle)


class OpensWhileRemoving(Imitation):
    """A device that is being removed is opened."""

    def do_open(self, t, thread, words, handle):
        device = self.devices.get(words[2])
        is_going = device is not None and device.standing == "removing"
        if is_going:
            device.standing = "live"
        result = super().do_open(t, thread, words, handle)
        if is_going:
            device.standing = "removing"
        return result


class RemovesTwice(Imitation):
    """A second removal is granted."""

    def do_remove(self, t, thread, words, handle):
        device = self.devices.get(words[1])
        return None if device is not None and device.standing == "removing" else super().do_remove(t, thread, words, handle)


class RefusesFirstRemoval(Imitation):
    """The first removal answers that it runs already."""

    def do_remove(self, t, thread, words, handle):
        return super().do_remove(t, thread, words, handle) or (16 if words[1] in self.devices else None)


class DestructsEarly(Imitation):
    """The device is destructed while handles are open."""

    def begin_removal(self, t, device):
        super().begin_removal(t, device)
        device.standing = "destructed"


class TellsNobody(Imitation):
    """The last handle that is open gets no remove event."""

    def begin_removal(self, t, device):
        last = next(iter(reversed(self.open_on(device))), None)
        if last is not None:
            last.is_open = False
        super().begin_removal(t, device)
        if last is not None:
            last.is_open = True


class TellsClosedHandles(Imitation):
    """Handles that their scripts closed before have a line too."""

    def close(self, t, handle):
        handle.was_told_open = True
        super().close(t, handle)


class TellsInAnotherOrder(Imitation):
    """The lines of handles that were told stand in another order."""

    def report(self):
        self.handles.reverse()
        return super().report()


class ClosesAfterGone(Imitation):
    """A close of a handle that its thread closed by itself is ok."""

    def do_close(self, t, thread, words, handle):
        result = super().do_close(t, thread, words, handle)
        return None if result == 19 else result


class ForgetsName(Imitation):
    """The name of a handle that its thread closed by itself is free for all uses."""

    def close_gone(self, t):
        super().close_gone(t)
        thread = self.threads[t]
        thread.names = {name: handle for name, handle in thread.names.items() if handle.is_open}


class AbortsAtAnyTime(Imitation):
    """Requests are aborted though nothing is removed."""

    def choices(self, t):
        marked, self.threads[t].marked = self.threads[t].marked, set(self.devices.values()) if self.threads[t].next % 2 else set()
        found = list(super().choices(t))
        self.threads[t].marked = marked
        yield from found

    def abort(self, t):
        marked, self.threads[t].marked = self.threads[t].marked, set(self.devices.values())
        super().abort(t)
        self.threads[t].marked = marked


class AbortsWhatWasServed(Imitation):
    """A write that was served is called aborted."""

    def complete(self, t):
        thread = self.threads[t]
        for request in thread.ended:
            if self.is_marked(thread, request.handle.device) and request.words[0] == "write":
                request.status = "aborted"
        super().complete(t)


class LosesWrites(Imitation):
    """A write that is called a success changes nothing."""

    def serve_one(self, home, t, request, piece):
        is_lost = request.words[0] == "write" and request.handle.device.standing != "live"
        super().serve_one(home, t, request, (piece[0], 0) if is_lost else piece)


class CompletesTwice(Imitation):
    """A request is counted twice."""

    def complete(self, t):
        super().complete(t)
        if any(device.standing != "live" for device in self.devices.values()):
            self.threads[t].counts["success"] += 1


class FailsWhatIsInFlight(Imitation):
    """Requests in flight fail when the device goes."""

    def complete(self, t):
        for request in self.threads[t].ended:
            if request.handle.device.standing != "live":
                request.status = "failed"
        super().complete(t)


class ClaimsBesideWriter(Imitation):
    """A claim is granted beside another one."""

    def do_claim(self, t, thread, words, handle):
        result = super().do_claim(t, thread, words, handle)
        if result == 1 and not handle.claim:
            handle.claim, handle.write, result = words[2:], True, None
        return result


class ClaimsWhileRemoving(Imitation):
    """A device that is being removed is claimed."""

    def do_claim(self, t, thread, words, handle):
        if handle is None:
            return super().do_claim(t, thread, words, handle)
        standing, handle.device.standing = handle.device.standing, "live"
        result = super().do_claim(t, thread, words, handle)
        handle.device.standing = standing
        return result


class WaitsForNothing(Imitation):
    """A wait goes on while requests are open."""

    def outcome(self, t, try_only=False):
        thread = self.threads[t]
        opened, thread.open = thread.open, 0
        result = super().outcome(t, try_only)
        thread.open += opened
        return result


class StopsAtGone(Imitation):
    """A line that waits for a remove event never goes on."""

    def outcome(self, t, try_only=False):
        thread = self.threads[t]
        words = thread.lines[thread.next][1]
        if words[0] == "gone" and words[1] in thread.names:
            return False
        return super().outcome(t, try_only)


class KeepsOnNull(Imitation):
    """A null device keeps what was written."""

    def serve_one(self, home, t, request, piece):
        root = request.handle.device.root
        kind, root.kind = root.kind, "malloc"
        super().serve_one(home, t, request, piece)
        root.kind = kind


class ShowsDigestOfNull(Imitation):
    """The device line of a null device has a digest."""

    def report(self):
        for device in self.devices.values():
            if device.kind == "null":
                device.digest = hashlib.sha256(b"".join(device.content)).hexdigest()
        return super().report()


class ReadsNullShort(Imitation):
    """A read of a null device shows too few zeros."""

    def serve_one(self, home, t, request, piece):
        super().serve_one(home, t, request, piece)
        device = request.handle.device
        if request.words[0] == "read" and device.root.kind == "null":
            request.data[piece[0]] = bytes((piece[1] - 1) * device.size)


class FailsOnNull(Imitation):
    """A write to a null device fails."""

    def complete(self, t):
        for request in self.threads[t].ended:
            if request.words[0] == "write" and request.handle.device.root.kind == "null" and request.status == "success":
                request.status = "failed"
        super().complete(t)


class ReadsOldData(Imitation):
    """A read gives zeros once the device goes."""

    def serve_one(self, home, t, request, piece):
        super().serve_one(home, t, request, piece)
        if request.words[0] == "read" and request.handle.device.standing != "live":
            request.data[piece[0]] = bytes(len(request.data[piece[0]]))


class LosesShift(Imitation):
    """A part begins where its base does."""

    def serve_one(self, home, t, request, piece):
        device = request.handle.device
        shifts = [(lower, lower.shift) for lower in device.below]
        for lower, _ in shifts:
            lower.shift = 0
        super().serve_one(home, t, request, piece)
        for lower, shift in shifts:
            lower.shift = shift


class DropsLastPiece(Imitation):
    """The last piece of a request that is cut is dropped."""

    def do_request(self, t, thread, words, handle):
        result = super().do_request(t, thread, words, handle)
        if sum(request is result for request, _ in thread.unsent) > 1:
            thread.unsent.pop()
        return result


class CompletesAtFirstPiece(Imitation):
    """A request completes once its first piece is back."""

    def back(self, thread, request):
        if request.out < 0:
            return
        request.out = -1 << 30
        thread.unsent = [(other, piece) for other, piece in thread.unsent if other is not request]
        thread.ended.append(request)


class NumbersByBase(Imitation):
    """The pattern of a write goes by the numbers of the blocks on the base."""

    def first_byte(self, request, block):
        return super().first_byte(request, request.handle.device.under(block))


class LeavesBaseUnclaimed(Imitation):
    """A device that others stand on is opened for writing."""

    def do_open(self, t, thread, words, handle):
        device = self.devices.get(words[2])
        ours = [other for other in self.handles if other.is_base_handle() and other.device is device]
        for other in ours:
            other.is_open = False
        result = super().do_open(t, thread, words, handle)
        for other in ours:
            other.is_open = True
        return result


class LeavesWhatStandsOnIt(Imitation):
    """What stands on a device that goes stays."""

    def take(self, t):
        super().take(t)
        self.threads[t].owed = [(what, device) for what, device in self.threads[t].owed if what != "follow" or self.shut]


class TakesBaseAlong(Imitation):
    """With a device the one that it stands on goes."""

    def begin_removal(self, t, device):
        super().begin_removal(t, device)
        if device.base and device.base.standing == "live":
            self.begin_removal(t, device.base)


class OpensOverRemoved(Imitation):
    """A device over one that is being removed is opened."""

    def do_open(self, t, thread, words, handle):
        device = self.devices.get(words[2])
        below = [(lower, lower.standing) for lower in device.below[1:]] if device else []
        for lower, _ in below:
            lower.standing = "live"
        result = super().do_open(t, thread, words, handle)
        for lower, standing in below:
            lower.standing = standing
        return result


class CountsAtBase(Imitation):
    """Reads and writes are counted at the device with the content."""

    def complete(self, t):
        moved = {device: device.moved for device in self.devices.values()}
        for device in self.devices.values():
            device.moved = moved[device.root]
        super().complete(t)
        for device in self.devices.values():
            device.moved = moved[device]


FLAWS = [
    AcceptsAfterGone, OpensWhileRemoving, RemovesTwice, RefusesFirstRemoval, DestructsEarly, TellsNobody, TellsClosedHandles,
    TellsInAnotherOrder, ClosesAfterGone, ForgetsName, AbortsAtAnyTime, AbortsWhatWasServed, LosesWrites, CompletesTwice,
    FailsWhatIsInFlight, ClaimsBesideWriter, ClaimsWhileRemoving, WaitsForNothing, StopsAtGone, ReadsOldData, KeepsOnNull,
    ShowsDigestOfNull, ReadsNullShort, FailsOnNull,
]
# These are tried on the scripts with stacks.
STACKED = [
    LosesShift, DropsLastPiece, CompletesAtFirstPiece, NumbersByBase, LeavesBaseUnclaimed, LeavesWhatStandsOnIt, TakesBaseAlong,
    OpensOverRemoved, CountsAtBase,
]
