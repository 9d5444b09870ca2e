"""What the system says of files: those of the command line, and those that are disks."""

import errno
import os
import resource
import stat

from .places import counted
from .rules import MOST_BYTES

ABSENT, FAILED = "no file", "read fault"
KINDS = (
    (stat.S_ISDIR, "a folder"),
    (stat.S_ISFIFO, "a named pipe"),
    (stat.S_ISCHR, "a character device"),
    (stat.S_ISBLK, "a block device"),
    (stat.S_ISSOCK, "a socket"),
)


class Refused(Exception):
    """The system refuses a file: the program's word for it, and what it said."""

    def __init__(self, word, why):
        super().__init__(why)
        self.word = word
        self.why = why


def refused(error, name):
    """The refusal of a file by an error of the system."""
    if error.errno == errno.ENOENT:
        return Refused(ABSENT, why_absent(name))
    said = os.strerror(error.errno)
    more = {
        errno.EISDIR: "it is a folder",
        errno.EACCES: "you may not read it, or not write it where it is a disk, or not pass a folder on the way",
        errno.ENOTDIR: "its path leads through a file",
        errno.ENAMETOOLONG: "its name, or a part of it, is longer than the system takes",
        errno.EMFILE: "too many files are open at once: ulimit -n says how many may be",
        errno.EROFS: "it lies on a file system that takes no writes",
        errno.ETXTBSY: "it is a program that runs",
    }.get(error.errno)
    return Refused(FAILED, "the system says '%s'%s" % (said, ": " + more if more else ""))


def why_absent(name):
    """Which part of a path isn't there."""
    try:
        if os.path.islink(name):
            return "it is a link to '%s', which isn't there" % os.readlink(name)
        folder = os.path.dirname(name.rstrip("/"))
        if folder and not os.path.isdir(folder):
            return "the folder '%s' isn't there" % folder
    except (OSError, ValueError):
        pass
    return "there is no such file%s" % ("" if os.path.isabs(name) else " in the folder '%s'" % current())


def current():
    try:
        return os.getcwd()
    except OSError:
        return "."


def bytes_of(name):
    """The bytes of a file, one more than it may have at most."""
    try:
        with open(name, "rb") as file:
            found = []
            left = MOST_BYTES + 1
            while left > 0:
                piece = file.read(left)
                if not piece:
                    break
                found.append(piece)
                left -= len(piece)
            return b"".join(found)
    except OSError as error:
        raise refused(error, name)
    except ValueError:
        raise Refused(FAILED, "its name has a byte 0")


def is_open(number):
    try:
        os.fstat(number)
    except OSError:
        return False
    return True


def room_for_files():
    """How many files can be opened beside those that are open."""
    most = resource.getrlimit(resource.RLIMIT_NOFILE)[0]
    try:
        numbers = [int(each) for each in os.listdir("/proc/self/fd")]
    except OSError:
        numbers = range(3)
    return most - sum(number < most and is_open(number) for number in numbers)


class Disks:
    """The files that are opened as disks, which stay open as long as the program keeps them open."""

    # The program has so many more open while it opens one.
    BESIDE = 1

    def __init__(self):
        self.opened = 0
        self.room = room_for_files() - self.BESIDE

    def length(self, name):
        """The bytes of a file that can be a disk."""
        try:
            status = os.stat(name)
            if not stat.S_ISREG(status.st_mode):
                kind = next((word for is_kind, word in KINDS if is_kind(status.st_mode)), "something else")
                raise Refused(FAILED, "it is %s; a disk is a regular file" % kind)
            if self.opened >= self.room:
                raise refused(OSError(errno.EMFILE, ""), name)
            os.close(os.open(name, os.O_RDWR | os.O_CLOEXEC))
        except OSError as error:
            raise refused(error, name)
        except ValueError:
            raise Refused(FAILED, "its name has a character 0")
        self.opened += 1
        return status.st_size


def sized(size):
    return counted(size, "byte")
