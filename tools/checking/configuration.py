"""Reads a configuration's text: its shape and its commands, with all that is wrong with them."""

import re

from . import rules
from .mistakes import CONFIG_TEXT, READING, SHAPE, Mistake
from .places import Text, listed, quoted, shown
from .reader import read_on
from .rules import INVALID, NOT_FOUND, NOT_SUPPORTED
from .script import COMMANDS

# How a script begins.
SCRIPT = re.compile(r"(?:[ \t\r]*\n|#[^\n]*\n)*[0-9]+[ \t]+(?:%s)\b" % "|".join(COMMANDS))
NOT_JSON = "configuration is not JSON"
FORM = '{"subsystems": [{"subsystem": "bdev", "config": [commands]}]}'


class Call:
    """A command: its index, its method, and its parameters. `number` is that of its subsystem, counted from 1."""

    def __init__(self, text, index, number, node):
        self.text = text
        self.index = index
        self.number = number
        self.node = node
        self.method_node = node.get("method")
        self.method = self.method_node.value
        self.params = node.get("params")
        self.is_good = True

    def param(self, key):
        return self.params.get(key) if self.params is not None else None

    def value(self, key, default=None):
        node = self.param(key)
        return default if node is None else node.value

    def label(self):
        """What it is about, by its name or its base's."""
        for key, word in (("name", ""), ("base_bdev", "over "), ("base_name", "over "), ("base_bdev_name", "over ")):
            node = self.param(key)
            if node is not None and node.kind == "text":
                return " " + word + quoted(node.value)
        return ""

    def subject(self):
        return "command %d, %s%s" % (self.index, shown(self.method, 100), self.label())

    def place(self, node=None):
        return (self.text.name, self.text.place((node or self.method_node).begin))

    def mistake(self, order, code, said, node=None):
        self.is_good = False
        fault = "configuration command %d refused: %d" % (self.index, code)
        return Mistake((order, self.index), fault, 1, self.subject() + ": " + said, self.place(node), self.index)


class Configuration:
    """What a configuration's text says.

    `calls` are the commands in their order; None stands for what is none, where there is a mistake. `notes` say what the program
    takes without a word, though it may not be what is meant.
    """

    def __init__(self, name, content):
        self.calls = []
        self.mistakes = []
        self.notes = []
        self.root = None
        self.text = self.decoded(name, content)
        if self.is_utf16(content):
            return
        root, twice, slips = read_on(self.text.text)
        if slips and SCRIPT.match(self.text.text):
            slips[0].why += "; this is a script, it seems, and the configuration comes first"
        for slip in slips:
            self.mistakes.append(Mistake((CONFIG_TEXT, slip.at), NOT_JSON, 1, slip.why + self.near(slip.at), (name, self.text.place(slip.at))))
        if root is None:
            return
        self.root = root
        self.twice(twice)
        self.shape(root)
        for call in self.calls:
            if call is not None:
                self.mistakes += self.read_call(call)

    def decoded(self, name, content):
        try:
            return Text(name, content.decode())
        except UnicodeDecodeError as error:
            before = content[: error.start].decode()
            text = Text(name, content.decode(errors="replace"))
            said = "byte 0x%02x is no UTF-8 here" % content[error.start]
            if self.is_utf16(content):
                said += ": the file is UTF-16, it seems; save it as UTF-8"
            self.mistakes.append(Mistake((CONFIG_TEXT, len(before)), NOT_JSON, 1, said, (name, text.place(len(before)))))
            return text

    def is_utf16(self, content):
        return content[:2] in (b"\xff\xfe", b"\xfe\xff")

    def near(self, at):
        """The text that stands at a place."""
        end = self.text.text.find("\n", at)
        here = self.text.text[at : min(at + 40, end if end >= 0 else at + 40)].rstrip()
        return "; here stands " + quoted(here, 30) if here else ""

    def place(self, node):
        return (self.text.name, self.text.place(node.begin))

    def twice(self, twice):
        for key, at in twice:
            place = (self.text.name, self.text.place(at))
            self.notes.append(Mistake(None, None, 0, "the key %s stands twice in this object: this value counts" % quoted(key), place))

    # ---- the shape

    def shaped(self, number, node, said):
        self.mistakes.append(Mistake((SHAPE, number), "configuration shape: %d" % number, 1, said, self.place(node), number))

    def written(self, node):
        return shown(self.text.text[node.begin : node.end], 30)

    def shape(self, root):
        if root.kind != "object":
            more = ": the array stands there under the key 'subsystems'" if root.kind == "array" else ""
            return self.shaped(0, root, "the configuration is %s; it must be an object of the form %s%s" % (self.kind(root), FORM, more))
        subsystems = root.get("subsystems")
        if subsystems is None:
            more = ""
            close = rules.meant("subsystems", root.value)
            if close:
                more = "; there is %s" % quoted(close)
            elif "method" in root.value:
                more = ": this is one command, which stands among the commands there"
            elif "subsystem" in root.value:
                more = ": this is one subsystem, which stands in that array"
            return self.shaped(0, root, "the key 'subsystems' is absent; the form is %s%s" % (FORM, more))
        if subsystems.kind != "array":
            return self.shaped(0, subsystems, "subsystems is %s; it must be an array" % self.kind(subsystems))
        for number, subsystem in enumerate(subsystems.value, 1):
            self.subsystem(number, subsystem)
        if not any(each.get("subsystem") and each.get("subsystem").value == "bdev" for each in subsystems.value):
            self.notes.append(Mistake(None, None, 0, "there is no subsystem 'bdev', so no command and no device", self.place(subsystems)))

    def kind(self, node):
        return rules.KINDS.get(node.kind, "a number") if node.kind != "text" else "the text " + self.written(node)

    def subsystem(self, number, node):
        if node.kind != "object":
            return self.shaped(number, node, "subsystem %d is %s; it must be an object" % (number, self.kind(node)))
        named = node.get("subsystem")
        if named is None or named.kind != "text":
            what = "absent" if named is None else self.kind(named)
            return self.shaped(number, named or node, "subsystem %d: its key 'subsystem' is %s; it must be a text, such as 'bdev'" % (number, what))
        config = node.get("config")
        if config is None or config.kind == "null":
            return None
        subject = "subsystem %d, %s" % (number, shown(named.value))
        if config.kind != "array":
            return self.shaped(number, config, "%s: its config is %s; it must be an array, or null" % (subject, self.kind(config)))
        if named.value != "bdev":
            return None
        for element in config.value:
            self.element(number, subject, element)

    def element(self, number, subject, node):
        index = len(self.calls)
        what = "%s: command %d" % (subject, index)
        if node.kind != "object":
            said, at = "is %s; it must be an object with a text 'method'" % self.kind(node), node
        elif node.get("method") is None:
            said, at = "has no 'method'", node
            close = rules.meant("method", node.value)
            said += "; there is %s" % quoted(close) if close else ""
        elif node.get("method").kind != "text":
            at = node.get("method")
            said = "has the method %s; it must be a text" % self.kind(at)
        elif node.get("params") is not None and node.get("params").kind != "object":
            at = node.get("params")
            said = "has as params %s; they must be an object, or absent" % self.kind(at)
        else:
            self.calls.append(Call(self.text, index, number, node))
            return
        self.calls.append(None)
        self.shaped(number, at, what + " " + said)

    # ---- the commands

    def read_call(self, call):
        parameters = rules.parameters_of(call.method)
        if parameters is None:
            if rules.is_ignored(call.method):
                return []
            close = rules.method_meant(call.method)
            said = "the method isn't served" + ("; %s is meant, it seems" % close if close else "")
            return [call.mistake(READING, NOT_FOUND, said)]
        found = self.wrong_parameters(call, parameters)
        if call.method in rules.BASES:
            # Of a command with both, the program names the other code.
            code = INVALID if found else NOT_SUPPORTED
            for key, only in rules.PLAIN.items():
                node = call.param(key)
                if node is not None and not self.is_plain(key, node):
                    found.append(call.mistake(READING, code, "%s is %s; only %s is served" % (key, self.written(node), only), node))
        return found

    def is_plain(self, key, node):
        return node.kind != "true" if key == "readonly" else node.kind == "whole" and node.value == 0

    def wrong_parameters(self, call, parameters):
        """What is wrong with the parameters of a command."""
        found = []
        given = call.params.value if call.params is not None else {}
        unknown = [key for key in given if key not in parameters and key not in rules.KNOWN]
        for key, (rule, needed) in parameters.items():
            node = call.param(key)
            if node is None:
                if needed:
                    close = rules.meant(key, unknown)
                    more = "; there is %s, which is no parameter" % quoted(close) if close else ""
                    said = "%s is absent; it must be %s%s" % (key, rule.rule(), more)
                    found.append(call.mistake(READING, INVALID, said, given[close] if close else call.params))
                    if close:
                        unknown.remove(close)
            elif not rule.takes(node):
                found.append(call.mistake(READING, INVALID, "%s is %s" % (key, rules.said(node, self.text.text, rule)), node))
        found += self.wrong_together(call, given)
        for key in unknown:
            close = rules.meant(key, [each for each in parameters if each not in given])
            more = "; %s is meant, it seems" % close if close else ""
            self.notes.append(Mistake(None, None, 0, "%s: %s is no parameter, and ignored%s" % (call.subject(), quoted(key), more), call.place(given[key])))
        return found

    def wrong_together(self, call, given):
        """What parameters must not be beside each other."""
        if call.method == "bdev_set_qos_limit" and not any(key in given for key in rules.LIMITS):
            return [call.mistake(READING, INVALID, "no limit is given; one of %s is needed" % listed(rules.LIMITS), call.params)]
        io_type = call.param("io_type")
        if call.method == "bdev_error_inject_error" and io_type is not None and call.value("error_type") == "corrupt_data":
            if io_type.value in ("write_zeroes", "unmap", "flush"):
                said = "io_type is %s; where error_type is 'corrupt_data', it must be 'read', 'write' or 'all': no other has data"
                return [call.mistake(READING, INVALID, said % self.written(io_type), io_type)]
        return []
