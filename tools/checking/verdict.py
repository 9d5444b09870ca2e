"""What the program answers to a configuration and a script, and all that is wrong with them."""

from .configuration import Configuration
from .course import Course
from .devices import Devices
from .files import Refused, bytes_of
from .mistakes import CONFIG_FILE, JOBS_FILE, Mistake, first_of
from .places import shown
from .rules import MOST_BYTES
from .script import Script


class Checked:
    """A configuration's text, and where there is one a script's: mistakes in the program's order, notes, and the devices."""

    def __init__(self, config_name, config, jobs_name=None, jobs=None, threads=1, looks_at_files=True):
        self.mistakes = []
        self.notes = []
        self.devices = None
        self.configuration = None
        self.script = None
        self.course = None
        config = self.file(CONFIG_FILE, config_name, config)
        if config is not None:
            self.configuration = Configuration(config_name, config)
            self.mistakes += self.configuration.mistakes
            self.notes += self.configuration.notes
        if self.configuration and self.configuration.root is not None:
            self.devices = Devices(self.configuration.calls, looks_at_files)
            self.mistakes += self.devices.mistakes
            self.notes += self.devices.notes
        if jobs_name is not None:
            jobs = self.file(JOBS_FILE, jobs_name, jobs)
        if jobs is not None:
            self.script = Script(jobs_name, jobs, threads)
            self.mistakes += self.script.mistakes
        if not self.mistakes and self.devices and self.script:
            self.course = Course(self.script, self.devices.made)
        self.mistakes.sort(key=lambda each: each.order)

    def file(self, order, name, content):
        """The bytes of a file, which `content` says or gives; None where the program doesn't take them."""
        try:
            content = content() if callable(content) else content
        except Refused as no:
            self.mistakes.append(Mistake((order, 0), "%s: %s" % (no.word, name), 3, "%s: %s" % (shown(name, 4096), no.why)))
            return None
        if len(content) > MOST_BYTES:
            said = "%s: the file has more than %d bytes, the most that are read" % (shown(name, 4096), MOST_BYTES)
            self.mistakes.append(Mistake((order, 0), "file too long: %s" % name, 1, said))
            return None
        return content

    @property
    def first(self):
        """The mistake that the program names; None where it runs."""
        return first_of(self.mistakes)


def check_files(config, jobs=None, threads=1):
    """Checks the files of these names."""
    return Checked(config, lambda: bytes_of(config), jobs, jobs and (lambda: bytes_of(jobs)), threads)
