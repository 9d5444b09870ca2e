"""Ways to play a script with resets and aborts with one rule broken, to try the checker with."""

from stopping import Stopping


class RefusesResetOfReader(Stopping):
    """A reset asks for a handle that writes."""

    def do_reset(self, t, thread, words, handle):
        if handle is not None and not handle.write and handle.is_open and not handle.is_gone:
            thread.counts["refused"] += 1
            return 9
        return super().do_reset(t, thread, words, handle)


class ResetsAfterGone(Stopping):
    """A reset is accepted on a handle that was told."""

    def refusal_without_range(self, thread, handle):
        if handle is not None and handle.is_open and handle.is_gone:
            return None
        return super().refusal_without_range(thread, handle)


class AbortsResets(Stopping):
    """A reset comes to aborted where its device goes."""

    def end(self, t, request):
        if request.words[0] == "reset" and request.handle.device.standing != "live":
            request.status = "aborted"
        super().end(t, request)


class FailsResets(Stopping):
    """A reset fails where requests were open over its device."""

    def finish(self, t, request):
        if any(request.handle.device in other.handle.device.below for thread in self.threads for other in thread.requests if other is not request):
            request.status = "failed"
        super().finish(t, request)


class NeverDrains(Stopping):
    """A reset doesn't wait for what was sent."""

    def is_drained(self, thread, reset):
        return True


class NeverThaws(Stopping):
    """What was frozen stays so."""

    def visit(self, t, kind, request, left):
        frozen = set(self.threads[t].frozen)
        super().visit(t, kind, request, left)
        if kind == "thaw":
            self.threads[t].frozen |= frozen


class StopsNothing(Stopping):
    """A reset stops nothing of what hangs, and doesn't wait for it."""

    def stop_all(self, t, device):
        pass

    def is_drained(self, thread, reset):
        device = reset.handle.device
        return not any(device in request.handle.device.below and (request.out or not self.may_stop(request)) for request in thread.requests if request.words[0] != "reset")


class StopsBelow(Stopping):
    """A reset stops what is asked of the devices below its own, too."""

    def stop_all(self, t, device):
        for request in list(self.threads[t].requests):
            if request.handle.device.root is device.root:
                self.stop(t, request)


class StopsOnOneThread(Stopping):
    """A reset goes over its own thread alone, and others keep what hangs."""

    def with_channel(self, device):
        found = super().with_channel(device)
        return found[:1]


class AbortsOfOtherHandles(Stopping):
    """An abort stops a request of another handle."""

    def named(self, thread, words, handle):
        return thread.by_line.get(int(words[2]))


class AbortsLast(Stopping):
    """An abort stops the last request that was accepted."""

    def named(self, thread, words, handle):
        return thread.requests[-2] if len(thread.requests) > 1 else None


class FailsNamed(Stopping):
    """What an abort names comes to failed."""

    def named(self, thread, words, handle):
        request = super().named(thread, words, handle)
        if request is not None and self.may_stop(request):
            self.stop(request.thread, request)
            self.results[request.line] = "failed"
            thread.counts["aborted"] -= 1
            thread.counts["failed"] += 1
        return None


class RefusesAbort(Stopping):
    """An abort of what isn't open any more is refused."""

    def do_abort(self, t, thread, words, handle):
        if handle is not None and self.named(thread, words, handle) not in thread.requests and self.refusal_without_range(thread, handle) is None:
            thread.counts["refused"] += 1
            return 22
        return super().do_abort(t, thread, words, handle)


class AbortsServed(Stopping):
    """A request of which all was sent is called aborted by an abort, though its write is done."""

    def named(self, thread, words, handle):
        request = super().named(thread, words, handle)
        if request in thread.requests and request.is_cut and request.out and request.status == "success" and not self.may_stop(request):
            request.status = "aborted"
        return request


class CountsNoResets(Stopping):
    """Resets aren't counted as accepted."""

    def do_reset(self, t, thread, words, handle):
        result = super().do_reset(t, thread, words, handle)
        if not isinstance(result, int):
            thread.counts["accepted"] -= 1
        return result


class ForgetsFailures(Stopping):
    """The last failure that is injected is taken by nobody."""

    def decision(self, device, request):
        found = device.injected.get(request.words[0])
        if found and found[0] == "failure" and found[1] == 1:
            return None
        return super().decision(device, request)


class FailsOnceMore(Stopping):
    """One failure more than was injected."""

    def __init__(self, *given, **more):
        super().__init__(*given, **more)
        for device in self.devices.values():
            for each in device.injected.values():
                each[1] += each[0] == "failure"


class FailsAnother(Stopping):
    """Of one thread the second request takes the failure."""

    def decision(self, device, request):
        found = device.injected.get(request.words[0])
        if found and found[0] == "failure" and not getattr(device, "spared", False):
            device.spared = True
            return None
        return super().decision(device, request)


class HangsForNothing(Stopping):
    """A request hangs over a device with no error for its type."""

    def decision(self, device, request):
        if device.kind == "error" and request.words[0] not in device.injected and self.random.random() < 0.2:
            return "pending"
        return super().decision(device, request)


class ForgetsHanging(Stopping):
    """What should hang goes on."""

    def decision(self, device, request):
        kind = super().decision(device, request)
        return None if kind == "pending" else kind


FLAWS = [
    RefusesResetOfReader, ResetsAfterGone, AbortsResets, FailsResets, NeverDrains, NeverThaws, StopsNothing, StopsBelow, StopsOnOneThread,
    AbortsOfOtherHandles, AbortsLast, FailsNamed, RefusesAbort, AbortsServed, CountsNoResets, ForgetsFailures, FailsOnceMore,
    FailsAnother, HangsForNothing, ForgetsHanging,
]
