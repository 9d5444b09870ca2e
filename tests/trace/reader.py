"""reader: reads the text of a history by the form in docs/TRACE.md, and writes it back.

It knows, for each act, which fields stand in which order, and shares no code with what writes them or with
tools/trace-view. read() ends with a WrongText that names the line where the text is outside the form.
"""

import re

NUMBER = r"(?:0|[1-9][0-9]*)"
OWN = rf"{NUMBER}\.{NUMBER}"
NAME = r"[!-~]{1,255}"
HEX8, HEX32 = r"[0-9a-f]{16}", r"[0-9a-f]{64}"
TYPE = rf"type (?:read|zeroes|unmap|flush|reset(?: drain {NUMBER})?|write seed {NUMBER} flip (?:yes|no)|abort names {NUMBER})"
RANGE = rf"lba {NUMBER} count {NUMBER}"
THREADS = rf"(?: thread {NUMBER})*"
DESTRUCT = rf"(?: destruct {NUMBER})?"

TOKENS = [
    rf"request request {OWN}", rf"piece request {OWN} piece {NUMBER}", rf"walk walk {OWN}",
    rf"go request {OWN}{THREADS}", rf"gone handle {NUMBER}", rf"channel device {NUMBER}", rf"device device {NUMBER}",
    rf"mark mark {NAME}", rf"grow device {NUMBER} blocks {NUMBER}", rf"sized handle {NUMBER} blocks {NUMBER}",
]
EVENTS = [
    rf"open name {NAME} mode [rw]", rf"close handle {NUMBER}",
    rf"claim handle {NUMBER} claim (?:exclusive|one|none|shared key {NUMBER})",
    rf"get-channel device {NUMBER}", rf"put-channel device {NUMBER} closing (?:yes|no)",
    rf"drop-channel device {NUMBER}", rf"begin-remove name {NAME}", rf"begin-reset device {NUMBER} request {OWN}",
    rf"end-reset device {NUMBER}", rf"finish-reset device {NUMBER}",
    rf"take-injection device {NUMBER} request {OWN} {TYPE}", rf"destructed device {NUMBER}",
    rf"begin-resize name {NAME} blocks {NUMBER}", rf"end-resize device {NUMBER}",
]
ANSWERS = [
    rf"opened handle {NUMBER} device {NUMBER} blocks {NUMBER}", rf"closed{DESTRUCT}", "claimed",
    rf"got fresh (?:yes|no)(?: frozen {NUMBER})*", rf"put-down left {NUMBER}",
    rf"dropped channel (?:kept|gone|last)(?: zero {NUMBER})?{DESTRUCT}",
    rf"removing device {NUMBER}{THREADS}(?: handle {NUMBER} owner {NUMBER})*{DESTRUCT}",
    rf"reset-started{THREADS}", "reset-queued", rf"reset-ended{THREADS}",
    rf"reset-finished(?: next {OWN}{THREADS})?", "injected decision (?:pass|fail|pend|corrupt)",
    rf"freed(?: close {NUMBER})?", rf"refused errno {NUMBER}", rf"resizing device {NUMBER} home {NUMBER}",
    rf"resized blocks {NUMBER}(?: handle {NUMBER} owner {NUMBER})*{DESTRUCT}",
]


def one_of(forms):
    return "(?:" + "|".join(forms) + ")"


ACTS = {
    "put": rf" to {NUMBER} number {NUMBER} message {one_of(TOKENS)}",
    "took": rf" from {NUMBER} number {NUMBER} message {one_of(TOKENS)}",
    "registry": rf" event {one_of(EVENTS)} answer {one_of(ANSWERS)}",
    "accept": rf" request {OWN} handle {NUMBER} device {NUMBER} {TYPE} {RANGE}",
    "refuse": rf" errno {NUMBER}(?: handle {NUMBER})? {TYPE} {RANGE}",
    "inject": rf" request {OWN} device {NUMBER} decision (?:pass|fail|pend|corrupt)",
    "pend": rf" request {OWN}",
    "let": rf" request {OWN} device {NUMBER} now {NUMBER}",
    "cut": rf" request {OWN} pieces {NUMBER}",
    "apply": rf" request {OWN} piece {NUMBER} device {NUMBER} end (?:done|fault)",
    "nomem": rf" request {OWN} piece {NUMBER} device {NUMBER}",
    "hold": rf" request {OWN} until {NUMBER}",
    "release": rf" request {OWN} now {NUMBER}",
    "abort": rf" request {OWN} cause (?:frozen device {NUMBER}|removed device {NUMBER}|named by {OWN})",
    "complete": rf" request {OWN} status (?:success|failed|aborted)(?: first {HEX8} sha256 {HEX32})?",
    "visit": rf" walk {OWN} device {NUMBER} kind (?:freeze|drain|thaw|removal)",
    "grace": rf" walk {OWN} until {NUMBER}",
    "due": rf" walk {OWN} now {NUMBER}",
    "tick": rf" device {NUMBER} now {NUMBER} slices {NUMBER}",
    "grow": rf" device {NUMBER} blocks {NUMBER}",
    "destruct": rf" device {NUMBER}(?: sha256 {HEX32})?",
    "script": rf" line {NUMBER} outcome (?:ok|refused errno {NUMBER}|busy open {NUMBER}|accepted request {OWN})",
    "shutdown": "",
}
FORMS = {act: re.compile(form) for act, form in ACTS.items()}
ENTRY = re.compile(rf"({NUMBER}) ({NUMBER}) ([a-z]+)(.*)", re.DOTALL)


class WrongText(Exception):
    """The text is outside the form: the number of the line, from 1, and why."""


class Entry:
    """An entry: its stamp, its thread, its act and its fields, pairs of key and value in their order."""

    def __init__(self, stamp, thread, act, fields):
        self.stamp, self.thread, self.act, self.fields = stamp, thread, act, fields

    def get(self, key):
        """Returns the first value of the key, or None."""
        return next((value for name, value in self.fields if name == key), None)

    def all(self, key):
        """Returns the values of the key."""
        return [value for name, value in self.fields if name == key]

    def line(self):
        """Returns the entry's line."""
        return " ".join([str(self.stamp), str(self.thread), self.act] + [word for field in self.fields for word in field])


def read(text):
    """Returns the lines of the report and the entries."""
    if not text.endswith("\n"):
        raise WrongText(text.count("\n") + 1, "the last line doesn't end")
    lines = text.split("\n")[:-1]
    head = next((at for at, line in enumerate(lines) if re.fullmatch(rf"history {NUMBER}", line)), None)
    if head is None:
        raise WrongText(len(lines), "no line says how many entries there are")
    entries = []
    for at, line in enumerate(lines[head + 1:], head + 2):
        found = ENTRY.fullmatch(line)
        if not found or found[3] not in FORMS:
            raise WrongText(at, "no stamp, thread and act")
        if not FORMS[found[3]].fullmatch(found[4]):
            raise WrongText(at, f"the fields aren't those of {found[3]}")
        words = found[4].split(" ")[1:]
        entries.append(Entry(int(found[1]), int(found[2]), found[3], list(zip(words[::2], words[1::2]))))
    if len(entries) != int(lines[head].split(" ")[1]):
        raise WrongText(head + 1, f"{len(entries)} entries follow")
    return lines[:head], entries


def write(report, entries):
    """Returns the text of a report and entries."""
    return "".join(line + "\n" for line in [*report, f"history {len(entries)}", *(it.line() for it in entries)])
