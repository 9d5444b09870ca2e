"""A copy of a configuration without the commands that are refused."""

from .configuration import Configuration
from .devices import Devices
from .mistakes import CONFIG_TEXT, SHAPE


def cuts_of(array, left_out):
    """The pieces of a text that go with elements of an array, each from where to where."""
    kept = False
    for place, node in enumerate(array.value):
        if node not in left_out:
            kept = True
        elif kept:
            yield array.value[place - 1].end, node.end
        elif place + 1 < len(array.value):
            yield node.begin, array.value[place + 1].begin
        else:
            yield node.begin, node.end


def without(text, root, left_out):
    """The text without these commands."""
    cuts = []
    for subsystem in root.get("subsystems").value:
        config = subsystem.get("config")
        if config is not None and config.kind == "array":
            cuts += cuts_of(config, left_out)
    pieces, at = [], 0
    for begin, end in sorted(cuts):
        pieces.append(text[at:begin])
        at = end
    return "".join(pieces) + text[at:]


def served_copy(name, content):
    """The text without what is refused, why each command was left out, and what waits; None with the mistakes where it has no form."""
    left_out, waiting = [], None
    while True:
        configuration = Configuration(name, content)
        if any(each.order[0] in (CONFIG_TEXT, SHAPE) for each in configuration.mistakes):
            return None, configuration.mistakes, []
        devices = Devices(configuration.calls)
        # Places and indices are those of the file, in which all is said the first time.
        waiting = devices.waits if waiting is None else waiting
        mistakes = configuration.mistakes + devices.mistakes
        if not mistakes:
            return configuration.text.text, left_out, waiting
        indices = {each.index for each in mistakes}
        left_out += sorted(mistakes, key=lambda each: each.index)
        nodes = [call.node for call in configuration.calls if call.index in indices]
        content = without(configuration.text.text, configuration.root, nodes).encode()
