"""Judges what tools/check says of a configuration and a script. It shares no code with it: it stands on tests/hostile/judge.py.

`all_faults(config, jobs, threads)` gives the program's line for each mistake, in the program's order: the first fault is found and
what causes it is taken out, again and again. `misplaced(line, ..)` says what is wrong with one line of tools/check: the command or
word that it names, its place, its value, and whether that breaks a rule.
"""

import itertools
import json
import os
import re
import sys

HERE = os.path.dirname(os.path.realpath(__file__))
sys.path.insert(0, os.path.join(os.path.dirname(HERE), "hostile"))

import cases
import judge

LONGEST = 100000
HARMLESS = {"method": "bdev_examine"}


def watch_files(files):
    """Says which files there are: their bytes by their names, None for a folder."""
    rest = judge.disk_blocks

    def disk_blocks(filename, size):
        name = os.path.normpath(filename)
        if name in files and files[name] is None:
            raise judge.NoDisk("read fault: " + filename)
        if name in files and not filename.endswith("/"):
            return files[name] // size
        if any(name.startswith(each + "/") and files[each] is not None for each in files):
            raise judge.NoDisk("read fault: " + filename)
        return rest(filename, size)

    judge.disk_blocks = disk_blocks


def calls_in(value):
    """The commands of a value of the right shape, each with its list and its place there."""
    return [(each["config"], place) for each in value["subsystems"] if each["subsystem"] == "bdev" for place in range(len(each.get("config") or []))]


def unreadable(value):
    """The index of the first command whose file can't be opened."""
    for index, (config, place) in enumerate(calls_in(value)):
        asked = judge.read_call(config[place])
        if isinstance(asked, tuple) and asked[0] == "aio":
            try:
                judge.disk_blocks(asked[2], asked[3])
            except judge.NoDisk:
                return index
    return None


def config_faults(config):
    """All faults of a configuration, each as its line; with the value as it was, where it has the shape."""
    if len(config) > judge.MOST_BYTES:
        return [("file too long: config", None)], None
    try:
        value = judge.json_of(config)
    except judge.NoJson:
        return [(judge.config_fault(config), None)], None
    found, bent = [], False
    while True:
        try:
            line = judge.config_fault(json.dumps(value).encode())
        except judge.NoDisk as no:
            line = no.args[0]
        if line is None or line == "configuration shape: 0":
            return found + [(line, None)] * (line is not None), value
        shape = re.fullmatch(r"configuration shape: (\d+)", line)
        if shape:
            bent = True
            found.append((line, None))
            value["subsystems"][int(shape.group(1)) - 1] = {"subsystem": "none"}
            continue
        if bent:
            # The numbers of commands are others where a whole subsystem was taken out.
            return found, None
        refused = re.fullmatch(r"configuration command (\d+) refused: (-\d+)", line)
        index = int(refused.group(1)) if refused else unreadable(value)
        found.append((line, index))
        config, place = calls_in(value)[index]
        config[place] = HARMLESS


def script_faults(jobs, threads):
    """All faults of a script, with the line, the place of the word that is wrong, and the line's number."""
    wrong, submitted = [], set()
    if len(jobs) > judge.MOST_BYTES:
        return [("file too long: jobs", None, None)]
    for place, line in enumerate(judge.lines_of(jobs), 1):
        if place > judge.MOST_LINES:
            wrong.append(("script line %d" % place, place, 0))
            break
        words = judge.words_of(line)
        if line.startswith(b"#") or not words:
            continue
        thread = judge.number(words[0])
        if thread is None or thread >= threads:
            wrong.append(("script line %d" % place, place, begin_of(line, 0)))
        elif len(words) < 2 or not judge.is_command(words[1], words[2:], thread, submitted):
            wrong.append(("script line %d" % place, place, begin_of(line, wrong_word(words, thread, submitted))))
        elif words[1] in judge.SUBMITS:
            submitted.add((thread, place))
    return wrong


def begin_of(line, place):
    """The column, from 0, of the word of this place; after the last one where there are fewer."""
    spots = [match.span() for match in re.finditer(rb"[^ \t]+", line)]
    return spots[place][0] if place < len(spots) else spots[-1][1]


def can_go_on(words, thread, submitted):
    """Whether some words after these make a command of them."""
    if len(words) < 2:
        return True
    pool = [b"r", b"0", b"exclusive", b"98989898"]
    stands = submitted | {(thread, 98989898)}
    return any(judge.is_command(words[1], words[2:] + list(more), thread, stands) for count in range(5) for more in itertools.product(pool, repeat=count))


def wrong_word(words, thread, submitted):
    """The place of the first word after which no words can make a command; their number where one is missing."""
    for place in range(2, len(words) + 1):
        if not can_go_on(words[:place], thread, submitted):
            return place - 1
    return len(words)


def all_faults(config, jobs, threads):
    """The program's lines for all mistakes in its order, and the commands' indices and the lines' places of them."""
    judge.RUN_FILES.update(config=len(config), jobs=len(jobs))
    of_config, _ = config_faults(config)
    return of_config, script_faults(jobs, threads)


# ---- what a line says


GOOD = {**cases.KEYS, "bdev_malloc_create": {"name": "M", "num_blocks": 64, "block_size": 512}}
MAY = {
    "bdev_malloc_create": ("optimal_io_boundary", "queue_depth"),
    "bdev_null_create": ("optimal_io_boundary", "queue_depth"),
    "bdev_aio_create": ("block_size", "queue_depth"),
    "bdev_split_create": ("split_size_mb",),
    "bdev_error_inject_error": ("num",),
    "bdev_set_qos_limit": ("rw_ios_per_sec", "rw_mbytes_per_sec", "r_mbytes_per_sec", "w_mbytes_per_sec"),
}
PLAIN = ("md_size", "dif_type", "readonly")


def wrong_params(call):
    """The parameters of a command that are absent or wrong, each by itself beside others that are right."""
    method, params = call["method"], call.get("params", {})
    if method not in GOOD:
        return set()
    found = set()
    for key in {**GOOD[method], **dict.fromkeys(MAY.get(method, ()))}:
        tried = dict(GOOD[method])
        if key == "io_type" and params.get("error_type") == "corrupt_data":
            tried["error_type"] = "corrupt_data"
        if key in params:
            tried[key] = params[key]
        elif key in MAY.get(method, ()):
            continue
        else:
            del tried[key]
        if judge.read_call({"method": method, "params": whole(tried)}) == judge.INVALID:
            found.add(key)
    if method == "bdev_set_qos_limit" and not any(key in params for key in MAY[method]):
        found.add("no limit")
    return found


def unplain_params(call):
    method, params = call["method"], call.get("params", {})
    if method not in judge.BASES:
        return set()
    return {key for key in PLAIN if key in params and judge.read_call({"method": method, "params": whole({**GOOD[method], key: params[key]})}) == judge.NOT_SUPPORTED}


def whole(params):
    return {key: judge.Whole(value) if type(value) is int else value for key, value in params.items()}


LINE = re.compile(r"config:(\d+):(\d+): command (\d+), (.*)", re.DOTALL)
IS = re.compile(r"(\w+) (is absent|is )(.*)", re.DOTALL)


def value_at(text, line, column):
    """The value that stands at a place."""
    offset = sum(len(each) + 1 for each in text.split("\n")[: line - 1]) + column - 1
    return json.JSONDecoder(parse_int=lambda token: judge.Reader(token).number()).raw_decode(text, offset)[0]


def alike(one, other):
    return one == other and isinstance(one, bool) == isinstance(other, bool)


def misplaced(said, text, calls):
    """What is wrong with a line that tools/check says of a command; and the parameter that it names, if it names one."""
    match = LINE.fullmatch(said)
    if not match:
        return "it names no command and place", None
    line, column, index = (int(each) for each in match.groups()[:3])
    if index >= len(calls):
        return "there is no command of that index", None
    call = calls[index]
    head, colon, body = match.group(4).partition(": ")
    if not head.startswith(call["method"][:100]) and call["method"].isprintable():
        return "command %d has the method %r" % (index, call["method"]), None
    try:
        there = value_at(text, line, column)
    except (ValueError, IndexError):
        return "no value begins at its place", None
    params = call.get("params", {})
    if body.startswith("the method "):
        return (None if there == call["method"] else "another value stands at its place"), "method"
    if body.startswith("no limit is given"):
        return None, "no limit"
    named = IS.match(body)
    if not named:
        return (None if there in list(params.values()) + [call["method"]] else "no value of the command stands at its place"), None
    key, what = named.group(1), named.group(2)
    if what == "is absent":
        right = key not in params and (any(alike(there, each) for each in [params, call["method"], *params.values()]))
        return (None if right else "it is there, or the place is another command's"), key
    if key not in params or not alike(there, params[key]):
        return "another value stands at its place", key
    return None, key
