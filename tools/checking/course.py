"""What of a script is refused once it is played, as far as its lines and the devices alone say so.

The program ends with status 0 whatever a request came to, so such a slip is easily overlooked. Nothing is said of devices that
the script removes or claims, nor of blocks that a device may have got by a resize, nor of lines whose answer depends on the order in which threads take their turns, nor of those after a
wait that a request may hold up for ever: one that an injected error keeps, and that no reset of the same thread frees.
"""

from .places import quoted
from .rules import MOST_BLOCKS, MOST_MEMORY, meant
from .mistakes import Mistake

MOST_BYTES_OF_REQUEST = 262144
# The kinds of devices that can grow, and those that have as many blocks as the one below them.
GROWING = ("malloc", "null")
FOLLOWING = ("passthru", "delay", "error")
MOST_MALLOC_BLOCKS = 1 << 21
UNBOUND, UNSURE = "unbound", "unsure"
WRITES = ("write", "zeroes", "unmap", "flush")
# The types of request by which injected errors go, where they have other names.
TYPES = {"zeroes": "write_zeroes"}
RANGED = ("read", *WRITES)
SUBMITS = (*RANGED, "reset", "abort")


class Handle:
    def __init__(self, device, writes):
        self.device = device
        self.writes = writes
        self.is_used = False  # whether requests on it may be open


class Course:
    """Goes through a script's commands over the devices of a configuration. `notes` have each line's errno with what is said."""

    def __init__(self, script, made):
        self.script = script
        self.made = made
        self.notes = []
        self.posted = {words[1] for _, _, words in script.commands if words[0] == "post"}
        self.shaky = self.unsure_devices()
        self.resizes = [words[1] for _, _, words in script.commands if words[0] == "resize"]
        self.errnos = {}  # of lines: the number of the error, or None where the line is never done
        for thread in sorted({thread for _, thread, _ in script.commands}):
            self.handles = {}
            self.hanging = []  # the devices on which requests may be kept; None where it isn't sure which
            for place, of_thread, words in script.commands:
                if of_thread == thread and not self.goes_on(place, words):
                    break

    def unsure_devices(self):
        """The names of devices that some line removes or claims, with all that stand over and below them."""
        named = {words[1] for _, _, words in self.script.commands if words[0] == "remove"}
        claiming = {(thread, words[1]) for _, thread, words in self.script.commands if words[0] == "claim"}
        named |= {words[2] for _, thread, words in self.script.commands if words[0] == "open" and (thread, words[1]) in claiming}
        stacks = [self.stack(device) for device in self.made.values()]
        return {name for stack in stacks for name in stack if named & set(stack)}

    def stack(self, device):
        """The name of a device and of those below it."""
        names = []
        while device:
            names.append(device.name)
            device = device.base
        return names

    def may_grow(self, device):
        """Whether a line may let the device grow: it resizes the one that gives the device its blocks."""
        while device.kind in FOLLOWING:
            device = device.base
        return device.kind in GROWING and device.name in self.resizes

    def keeps(self, word, device=None):
        """Whether an injected error may keep such a request on this device, or on any."""
        for each in map(self.made.get, self.stack(device)) if device else self.made.values():
            kind, number = each.errors.get(TYPES.get(word, word), (None, 0))
            if kind == "pending" and number:
                return True
        return False

    def note(self, place, errno, said):
        self.errnos[place] = errno
        at = (self.script.name, (place, self.script.columns[place]))
        end = "errno %d: " % errno if errno else ""
        self.notes.append(Mistake(None, None, 0, end + said, at, place))

    def goes_on(self, place, words):
        """Follows a line; whether its thread goes on after it."""
        word = words[0]
        if word == "wait":
            if self.hanging:
                return False
            for handle in self.handles.values():
                if isinstance(handle, Handle):
                    handle.is_used = False
        elif word == "await":
            if words[1] not in self.posted:
                self.note(place, None, "no line posts the mark %s, so this waits in vain, and the thread does no line after it" % quoted(words[1]))
                return False
        elif word == "open":
            self.open(place, *words[1:])
        elif word == "remove":
            if words[1] not in self.made:
                self.note(place, 19, self.no_device(words[1]))
        elif word == "resize":
            self.resize(place, words[1], int(words[2]))
        elif word in ("close", "claim", "gone", "sized", *SUBMITS):
            return self.with_handle(place, word, words)
        return True

    def no_device(self, name):
        close = meant(name, self.made)
        return "the configuration makes no device %s%s" % (quoted(name), "; %s is meant, it seems" % quoted(close) if close else "")

    def resize(self, place, name, blocks):
        device = self.made.get(name)
        if device is None:
            self.note(place, 19, self.no_device(name))
        elif name in self.shaky or self.resizes.count(name) > 1:
            return
        elif device.kind not in GROWING:
            self.note(place, 22, "%s is a %s device; only a malloc or null device can grow" % (quoted(name), device.kind))
        elif blocks <= device.blocks:
            self.note(place, 22, "BLOCKS is %d, and %s has %d blocks; a device only grows" % (blocks, quoted(name), device.blocks))
        elif blocks > (MOST_MALLOC_BLOCKS if device.kind == "malloc" else MOST_BLOCKS):
            self.note(place, 22, "BLOCKS is %d; a %s device has at most %d" % (blocks, device.kind, MOST_MALLOC_BLOCKS if device.kind == "malloc" else MOST_BLOCKS))
        elif device.kind == "malloc" and self.others(device) + blocks * device.size > MOST_MEMORY:
            self.note(place, 22, "with %d blocks of %d bytes the memory devices would have more than %d bytes together" % (blocks, device.size, MOST_MEMORY))

    def others(self, device):
        """The bytes of the other memory devices, as the configuration makes them."""
        return sum(each.blocks * each.size for each in self.made.values() if each.kind == "malloc" and each is not device)

    def open(self, place, name, device, mode):
        state = self.handles.get(name, UNBOUND)
        found = self.made.get(device)
        if state is UNSURE:
            return
        if state is not UNBOUND:
            self.note(place, 17, "the name %s is bound to an open handle" % quoted(name))
        elif found is None:
            self.note(place, 19, self.no_device(device))
        elif device in self.shaky:
            self.handles[name] = UNSURE
        elif mode == "w" and found.over:
            self.note(place, 1, "the device %s is claimed by %s, which stands on it: it can be opened with r alone" % (quoted(device), quoted(found.over[0].name)))
        else:
            self.handles[name] = Handle(found, mode == "w")

    def with_handle(self, place, word, words):
        name = words[1]
        handle = self.handles.get(name, UNBOUND)
        if handle is UNSURE:
            if word in RANGED and self.keeps(word):
                self.hanging.append(None)
            return True
        if handle is UNBOUND:
            self.note(place, 9, "no handle %s is open on this thread" % quoted(name))
        elif word == "gone":
            self.note(place, None, "no line removes the device of %s, so this waits in vain, and the thread does no line after it" % quoted(name))
            return False
        elif word == "sized":
            if int(words[2]) > handle.device.blocks and not self.may_grow(handle.device):
                self.note(place, None, "no line lets the device of %s grow, so this waits in vain, and the thread does no line after it" % quoted(name))
                return False
        elif word == "close":
            self.handles[name] = UNSURE if handle.is_used else UNBOUND
            if handle.is_used:
                self.notes.append(Mistake(None, None, 0, "no wait stands before this: where a request is open yet, it ends with errno 16",
                                          (self.script.name, (place, self.script.columns[place])), place))
        elif word == "reset":
            handle.is_used = True
            self.hanging = [device for device in self.hanging if device is None or handle.device.name not in self.stack(device)]
        elif word in RANGED:
            self.submit(place, word, handle, name, int(words[2]), int(words[3]))
        return True

    def submit(self, place, word, handle, name, first, count):
        device = handle.device
        bottom = self.made[self.stack(device)[-1]]
        if word in WRITES and not handle.writes:
            self.note(place, 9, "the handle %s was opened with r, and doesn't write" % quoted(name))
        elif word == "unmap" and bottom.kind == "aio":
            self.note(place, 95, "an aio device doesn't take unmap" if bottom is device else "%s stands on an aio device, which doesn't take unmap" % quoted(device.name))
        elif count == 0:
            self.note(place, 22, "COUNT is 0")
        elif count * device.size > MOST_BYTES_OF_REQUEST:
            said = "COUNT is %d, which are %d bytes; a request has at most %d, here %d blocks"
            self.note(place, 22, said % (count, count * device.size, MOST_BYTES_OF_REQUEST, MOST_BYTES_OF_REQUEST // device.size))
        elif first + count > device.blocks and self.may_grow(device):
            handle.is_used = True
        elif first + count > device.blocks:
            self.note(place, 22, "the blocks %d to %d pass the end of %s, which has %d blocks" % (first, first + count - 1, quoted(device.name), device.blocks))
        else:
            handle.is_used = True
            if self.keeps(word, device):
                self.hanging.append(device)
