"""What resets, aborts, delays and injected errors may do to a request, as far as a report shows it: a part of check.py.

A request is aborted by a removal, by a reset of its device or of one below that may have run meanwhile, or by an abort that names it. One
that an injected error keeps hangs until one of these, or the end of the run. What is injected is taken as long as there is some of it: so
where a request of a type has success, all that was set for that type was taken by others.
"""

EVERY = ("read", "write", "zeroes", "unmap", "flush")


class Stops:
    def __init__(self, check):
        self.check = check
        self.resets = [line for line in check.sorted if line.word == "reset" and line.is_("success")]
        self.aborts = {}  # those that name a line, by its number
        for line in check.sorted:
            if line.word == "abort" and line.is_("success"):
                self.aborts.setdefault(int(line.words[1]), []).append(line)

    # ---- by whom it may have been stopped

    def causes(self, request):
        """The resets that may have been under way while it was open, and the aborts that name it and may have come before its end."""
        return [reset for reset in self.resets if self.may_stop(reset, request)] + self.namers(request)

    def is_over(self, request, device):
        return device in request.hold.device.below

    def may_stop(self, reset, request):
        before = self.check.is_before
        if not self.is_over(request, reset.hold.device) or reset is request:
            return False
        return not (reset.ended and before(reset.ended, request)) and not (request.ended and before(request.ended, reset))

    def namers(self, request):
        found = [line for line in self.aborts.get(request.number, ()) if line.hold is request.hold and line.place > request.place]
        return [line for line in found if request.ended is None or request.ended.place > line.place]

    def ends(self, request):
        """Lines by which it has ended for certain: one of its own thread, and the ends of resets that began after it was accepted."""
        found = [request.ended] if request.ended else []
        for reset in self.resets:
            if reset.ended and self.is_over(request, reset.hold.device) and self.check.is_before(request, reset):
                found.append(reset.ended)
        return found

    # ---- delays and injected errors

    def is_held(self, request):
        """Whether delays hold it before it ends, be it for no time at all."""
        return request.word in ("read", "write") and any(device.kind == "delay" for device in request.hold.device.below)

    def injected(self, device, word):
        """The error that is set for a type, and for how many requests."""
        found = None
        for kind, error, number in device.faults.get("inject", ()):
            if kind.replace("write_zeroes", "zeroes") in (word, "all"):
                found = error, number
        return found or (None, 0)

    def may_meet(self, request, error):
        errors = [self.injected(device, request.word) for device in request.hold.device.below]
        return any(kind == error and number > 0 for kind, number in errors)

    def may_fail(self, request):
        return self.may_meet(request, "failure")

    def is_kept(self, request):
        """Whether it may hang until the end of the run, which aborts it."""
        return request.ended is None and self.may_meet(request, "pending")

    def hangs(self, request):
        """Whether it may hang while nothing is left that could stop it."""
        if request.word not in EVERY or not request.is_("aborted") or not self.is_kept(request) or request.hold.device.goings():
            return False
        if any(self.is_over(request, reset.hold.device) and self.check.is_before(request, reset) for reset in self.resets):
            return False
        # One that is away at a limited device when it is named is left alone.
        return not self.namers(request) or any(device.faults.get("limits") for device in request.hold.device.below)

    def check_injections(self):
        for device in self.check.devices.values():
            for word in EVERY:
                error, number = self.injected(device, word)
                asked = [line for line in self.check.sorted if line.word == word and line.is_accepted() and self.is_over(line, device)]
                ended = [line.result[0] for line in asked]
                if error == "failure":
                    self.check_failures(device, word, number, asked)
                elif error == "pending" and "success" in ended and ended.count("aborted") < number:
                    self.check.fault(None, "a %s over %s has success, and only %d of %d hung" % (word, device.name, ended.count("aborted"), number))
                elif error is None and "failed" in ended and len([row for row in device.below if row.kind == "error"]) == 1 and device.kind == "error":
                    self.check.fault(None, "a %s over %s failed" % (word, device.name))

    def check_failures(self, device, word, number, asked):
        failed = [line for line in asked if line.is_("failed")]
        if len(failed) > number:
            self.check.fault(failed[-1], "%d of a %s were injected" % (number, word))
        done = next((line for line in asked if line.result[0] == "success"), None)
        if done and len(failed) < number:
            self.check.fault(done, "only %d of %d failures were taken before" % (len(failed), number))
        # Of one thread those that were submitted first take them; limits may let another one pass first.
        if any(row.faults.get("limits") for row in self.check.devices.values()):
            return
        for line in failed:
            if any(other.thread == line.thread and other.place < line.place and other.result[0] == "success" for other in asked):
                self.check.fault(line, "an earlier one has success, and takes a failure first")
