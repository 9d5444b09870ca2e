"""Configurations and scripts, good and bad, each with its number: the same at every run.

Even numbers are those that tests/hostile generates. Odd ones are made here: configurations as a user writes them, over lines and
with several mistakes at once, over disks that there are and aren't, with scripts of several threads.
"""

import json
import os
import sys

HERE = os.path.dirname(os.path.realpath(__file__))
sys.path.insert(0, os.path.join(os.path.dirname(HERE), "hostile"))

import cases
from cases import Dice, Pairs, Raw

# The files of the folder of a run, with their bytes; None stands for a folder.
FILES = {"disk.img": 5000, "small.img": 511, "empty.img": 0, "whole.img": 65536, "folder": None}
NAMES = ["M", "N", "Disk0", "Top", "P", "Mp0", "Mp1", "Np0", "Disk0p1", "Nvme0n1", "EE_M", "EE_Mp0"]
BAD = ["0", "-1", "64.0", "1e2", '"64"', "null", "true", "[]", "{}", '""', '"a b"', '"\\u00e9"', "2097153", "18446744073709551616", "1099511627777", "513", "7", "1025", '"x"', "-0", '"' + "n" * 201 + '"']
HANDLES = ["h", "k", "handle-1", "a_b"]
BAD_WORDS = ["", "-1", "00", "0x1", "4k", "1.0", "18446744073709551616", "h/", "h" * 33, "rw", "W", "#", "opne", "Read", "\xe9", "\x7f", "both", "none", "shared", "3", "r", "now"]


def method_of(dice):
    """A command with good parameters: its method, and its parameters' texts."""
    name, base = dice.of(NAMES) if dice.below(3) == 0 else "D%d" % dice.below(1000), dice.of(NAMES)
    blocks = dice.of(["1", "8", "64", "65", "2048", "8192"])
    kind = dice.below(16)
    if kind < 3:
        return "bdev_malloc_create", [("name", json.dumps(name)), ("num_blocks", blocks), ("block_size", dice.of(["512", "4096"]))]
    if kind < 5:
        return "bdev_null_create", [("name", json.dumps(name)), ("num_blocks", dice.of([blocks, "1099511627776"])), ("block_size", dice.of(["512", "4096"]))]
    if kind < 6:
        files = ["disk.img", "whole.img", "./disk.img"] if dice.below(6) else ["small.img", "empty.img", "folder", "nowhere.img", "none/disk.img", "disk.img/x", "n" * 300]
        return "bdev_aio_create", [("name", json.dumps(name)), ("filename", json.dumps(dice.of(files)))]
    if kind < 8:
        return "bdev_passthru_create", [("base_bdev_name", json.dumps(base)), ("name", json.dumps(name))]
    if kind < 10:
        size = [("split_size_mb", dice.of(["0", "1", "4"]))] if dice.below(3) == 0 else []
        return "bdev_split_create", [("base_bdev", json.dumps(base)), ("split_count", dice.of(["1", "2", "3", "64"])), *size]
    if kind in (12, 13):
        return "bdev_error_create", [("base_name", json.dumps(dice.of(["M", base])))]
    if kind == 14:
        types = [("io_type", json.dumps(dice.of(["read", "write", "write_zeroes", "unmap", "flush", "all"]))), ("error_type", json.dumps(dice.of(["failure", "pending", "corrupt_data"])))]
        return "bdev_error_inject_error", [("name", json.dumps(dice.of(["EE_M", "EE_" + base]))), *types, *([("num", dice.of(["0", "1", "3"]))] if dice.below(2) else [])]
    if kind == 15:
        keys = dice.of([["rw_ios_per_sec"], ["rw_mbytes_per_sec"], ["r_mbytes_per_sec", "w_mbytes_per_sec"]])
        return "bdev_set_qos_limit", [("name", json.dumps(dice.of(["M", base, name]))), *((key, dice.of(["0", "1", "1000000"])) for key in keys)]
    if kind == 10:
        return dice.of(["bdev_set_options", "bdev_examine", "bdev_wait_for_examine", "iobuf_set_options"]), [("whatever", "1")]
    if dice.below(6):
        return dice.of(["bdev_examine", "bdev_nvme_set_hotplug"]), []
    method = dice.of(["bdev_nvme_attach_controller", "bdev_delay_create", "bdev_error_create", "bdev_error_inject_error", "bdev_set_qos_limit", "bdev_malloc_creat"])
    return method, [(key, json.dumps(value)) for key, value in cases.KEYS.get(method, {"name": "Nvme0"}).items()]


MORE = [("queue_depth", "1"), ("queue_depth", "1024"), ("optimal_io_boundary", "8"), ("optimal_io_boundary", "0"), ("md_size", "0"), ("readonly", "false"), ("uuid", '"x"')]
BENT = [("queue_depth", "0"), ("optimal_io_boundary", "4"), ("md_size", "8"), ("dif_type", "1"), ("readonly", "true"), ("nam", '"x"')]


def command(dice, harm):
    method, params = method_of(dice)
    if dice.below(3) == 0:
        params.append(dice.of(MORE))
    for _ in range(2):
        if not harm or dice.below(8):
            continue
        kind = dice.below(4)
        if kind == 0 and params:
            params.pop(dice.below(len(params)))
        elif kind == 1 and params:
            place = dice.below(len(params))
            params[place] = (params[place][0], dice.of(BAD))
        elif kind == 2:
            params.append(dice.of(BENT))
        elif params:
            params.append((dice.of(params)[0], dice.of(BAD)))
    pairs = Pairs([("method", method)])
    if params or dice.below(2):
        pairs.append(("params", Pairs([(key, Raw(value)) for key, value in params])))
    if harm and dice.below(60) == 0:
        pairs[dice.below(len(pairs))] = dice.of([("params", []), ("method", 7), ("Method", "bdev_examine")])
    return pairs


def laid_out(value, dice, depth=0):
    """A value's text, over lines or on one."""
    if isinstance(value, Raw):
        return value.text
    if isinstance(value, dict):
        value = Pairs(value.items())
    if isinstance(value, (Pairs, list)):
        opened, closed = "{}" if isinstance(value, Pairs) else "[]"
        items = [json.dumps(each[0]) + dice.of([":", ": ", " : "]) + laid_out(each[1], dice, depth + 1) for each in value] if opened == "{" else [laid_out(each, dice, depth + 1) for each in value]
        between = dice.of(["", " ", "\n" + "  " * depth, "\n" + "\t" * depth, "\r\n"])
        return opened + between + ("," + between).join(items) + between + closed
    return json.dumps(value)


SLIPS = [(",", ""), (",", ",,"), (":", ""), ("}", ",}"), ("]", ",]"), ('"', "'"), ('"', ""), ("\n", " // x\n"), ("{", "["), ("64", "064"), ("512", "512k"), ("e", "\xe9"), ("}", "")]


def spoilt(text, dice):
    """The text with a slip of its writer in it."""
    old, new = dice.of(SLIPS)
    places = [place for place in range(len(text)) if text.startswith(old, place)]
    if not places:
        return text + ","
    place = dice.of(places)
    return text[:place] + new + text[place + len(old) :]


def configuration(dice):
    harm = dice.below(2) == 0
    commands = [command(dice, harm) for _ in range(dice.below(9))]
    cut = dice.below(len(commands) + 1) if dice.below(4) == 0 else len(commands)
    subsystems = [Pairs([("subsystem", "bdev"), ("config", commands[:cut])])]
    if cut < len(commands):
        subsystems.append(Pairs([("subsystem", "bdev"), ("config", commands[cut:])]))
    for _ in range(dice.below(3)):
        other = dice.of([Pairs([("subsystem", "nvmf"), ("config", [1])]), Pairs([("subsystem", "iobuf"), ("config", Raw("null"))]), Pairs([("subsystem", "vhost")])])
        subsystems.insert(dice.below(len(subsystems) + 1), other)
    if harm and dice.below(12) == 0:
        other = dice.of([7, Pairs([("subsystem", 7)]), Pairs([("config", [])]), Pairs([("subsystem", "bdev"), ("config", Raw("{}"))]), Pairs([("subsystem", "nvmf"), ("config", 7)])])
        subsystems.insert(dice.below(len(subsystems) + 1), other)
    whole = Pairs([(dice.of(["subsystems"] * 30 + ["Subsystems"]) if harm else "subsystems", subsystems)])
    text = laid_out(whole, dice)
    if harm and dice.below(8) == 0:
        text = spoilt(text, dice)
    return text.encode()


def line_of(dice, threads, place):
    thread, handle = str(dice.below(threads)), dice.of(HANDLES)
    numbers = [str(dice.below(70)), str(1 + dice.below(4))]
    made = [
        ["open", handle, dice.of(NAMES), dice.of(["r", "w"])], ["close", handle], ["claim", handle, dice.of(["exclusive", "one", "none"])], ["claim", handle, "shared", "7"],
        ["read", handle, *numbers], ["write", handle, *numbers, "5"], ["zeroes", handle, *numbers], ["unmap", handle, *numbers], ["flush", handle, *numbers], ["wait"],
        ["post", "mark-1"], ["remove", dice.of(NAMES)], ["resize", dice.of(NAMES), str(dice.below(140))],
    ]
    rare = [["await", "mark-1"], ["gone", handle], ["sized", handle, str(dice.below(140))], ["reset", handle], ["reset", handle, "5"], ["sleep", "5"], ["abort", handle, str(1 + dice.below(place + 1))]]
    return [thread, *(dice.of(rare) if dice.below(40) == 0 else dice.of(made))]


def script(dice, threads):
    harm = dice.below(3) == 0
    lines = []
    for place in range(dice.below(40)):
        words = line_of(dice, threads, place)
        if harm and dice.below(6) == 0:
            kind = dice.below(4)
            at = dice.below(len(words))
            if kind == 0:
                words[at] = dice.of(BAD_WORDS)
            elif kind == 1:
                words.pop(at)
            elif kind == 2:
                words.insert(at + 1, dice.of(BAD_WORDS))
            else:
                words[0] = dice.of(["1", "3", "15", "16", "x", "-1"])
        blank = dice.of([" ", " ", " ", "\t", "  "])
        lines.append(dice.of(["", "", "", " "]) + blank.join(words) + dice.of(["", "", "", " "]))
        if dice.below(10) == 0:
            lines.append(dice.of(["", "# a comment", "   ", "#0 wait"]))
    return (dice.of(["\n", "\n", "\r\n"]).join(lines) + dice.of(["\n", ""])).encode("latin-1")


def case(number):
    """The bytes of a configuration and of a script, and how many threads play."""
    if number % 2 == 0:
        _, config, jobs, threads = cases.case(number // 2)
        return config, jobs, threads
    dice = Dice(number)
    threads = dice.of([1, 2, 4])
    return configuration(dice), script(dice, threads), threads


def words(number):
    """The words of a command line, right and wrong."""
    dice = Dice(number + 1000000)
    made = dice.of([["run", "config", "jobs"], ["run", "config", "jobs"], ["exercise", dice.of(["1", "8", "0", "501", "01"])], ["generate", dice.of(["1", "500", "-1"])], ["--version"], []])
    for _ in range(dice.below(3)):
        option = dice.of(["--threads", "--threads", "--reactors", "--schedule", *(["--seed", "-t"] if dice.below(4) == 0 else [])])
        value = dice.of(["1", "2", "7", "8"] if dice.below(3) else ["1", "2", "8", "9", "16", "17", "0", "01", "", "x", "18446744073709551615", "18446744073709551616", "2.0"])
        made += dice.of([[option, value], [option, value], [option, value], [option], [option + "=" + value]])
    for _ in range(dice.below(3) // 2 + dice.below(2)):
        kind = dice.below(3)
        if kind == 0 and made:
            made.pop(dice.below(len(made)))
        elif kind == 1:
            made.insert(dice.below(len(made) + 1), dice.of(["", "-", "--help", "-h", "more", "-x", "run", "\udcff", "--threads"]))
        elif made:
            place = dice.below(len(made))
            made.insert(dice.below(len(made) + 1), made.pop(place))
    return made
