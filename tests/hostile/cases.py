"""Configurations and scripts that mean harm, each with its number: the same at every run.

`case(number)` gives a case: what is done to it, the bytes of a configuration and of a script, and how many threads play. Not
each of them has a fault: the judge says which.
"""

import json


class Dice:
    """Numbers by a generator of 64 bits, from a seed."""

    def __init__(self, seed):
        self.state = seed * 2862933555777941757 + 3037000493 & (1 << 64) - 1

    def below(self, most):
        self.state = self.state * 6364136223846793005 + 1442695040888963407 & (1 << 64) - 1
        return (self.state >> 33) % most

    def of(self, items):
        return items[self.below(len(items))]


class Raw:
    """A JSON text that is put in as it stands."""

    def __init__(self, text):
        self.text = text


def text_of(value):
    """A value's JSON text. Objects may be lists of pairs, so that a key can stand twice."""
    if isinstance(value, Raw):
        return value.text
    if isinstance(value, dict):
        value = Pairs(value.items())
    if isinstance(value, Pairs):
        return "{" + ",".join(json.dumps(key) + ":" + text_of(item) for key, item in value) + "}"
    if isinstance(value, list):
        return "[" + ",".join(text_of(item) for item in value) + "]"
    return json.dumps(value)


class Pairs(list):
    """The members of an object, in order."""


NUMBERS = ["-1", "-0", "0", "0.5", "64.0", "6.4e1", "1e2", "1E400", "-1e999", "1e308", "1e-999", "9223372036854775807", "9223372036854775808",
           "18446744073709551615", "18446744073709551616", "1" + "0" * 30, "9" * 400, "9" * 5000, "0." + "3" * 3000, "+1", "01", "1.", ".5", "1e",
           "0x40", "1_000", "NaN", "Infinity", "-", "2097152", "2097153", "1023", "1025", "4294967296", "1099511627776", "1099511627777"]
OTHERS = ["null", "true", "false", '""', '"64"', "[]", "[64]", "{}", '{"a":1}', '"M\\u0000"', '"\\ud800"', '"\\ud83d\\ude00"', '"\\ud83dx"', '"a b"', '"\\x41"',
          '"tab\there"', '"' + "n" * 200 + '"', '"' + "n" * 201 + '"', '"' + "n" * 100000 + '"', "'M'", "nul", "True", "undefined"]
BYTES = [b"\xff", b"\xc0\xaf", b"\xed\xa0\x80", b"\xf4\x90\x80\x80", b"\xe2\x82", b"\x80", b"\x00", b"\xef\xbb\xbf", b"\xf0\x9f\x98\x80", b"\xc3\xa9"]
METHODS = ["bdev_null_create", "bdev_aio_create", "bdev_passthru_create", "bdev_split_create", "bdev_delay_create", "bdev_error_create",
           "bdev_error_inject_error", "bdev_set_qos_limit", "bdev_raid_create", "bdev_set_options", "bdev_malloc_set_options", "_set_options", "bdev_examine", "",
           "bdev_malloc_creat", "BDEV_MALLOC_CREATE", "bdev_malloc_create ", "bdev_malloc_delete", "nvmf_create_transport"]
KEYS = {
    "bdev_null_create": {"name": "N", "num_blocks": 64, "block_size": 512},
    "bdev_aio_create": {"name": "A", "filename": "disk", "block_size": 512},
    "bdev_passthru_create": {"base_bdev_name": "M", "name": "P"},
    "bdev_split_create": {"base_bdev": "M", "split_count": 2},
    "bdev_delay_create": {"base_bdev_name": "M", "name": "D", "avg_read_latency": 1, "p99_read_latency": 2, "avg_write_latency": 3, "p99_write_latency": 4},
    "bdev_error_create": {"base_name": "M"},
    "bdev_error_inject_error": {"name": "EE_M", "io_type": "read", "error_type": "failure"},
    "bdev_set_qos_limit": {"name": "M", "rw_ios_per_sec": 1000},
}


def malloc(name="M", **more):
    return {"method": "bdev_malloc_create", "params": dict({"name": name, "num_blocks": 64, "block_size": 512}, **more)}


def null(name="N", **more):
    return {"method": "bdev_null_create", "params": dict({"name": name, "num_blocks": 64, "block_size": 512}, **more)}


def config(*calls):
    return {"subsystems": [{"subsystem": "bdev", "config": list(calls)}]}


GOOD = text_of(config(malloc(), {"method": "bdev_wait_for_examine"})).encode()
SCRIPT = b"""# a script
0 open h M w
0 write h 0 1 5
1 open k M r
0 wait
0 post written
1 await written
1 read k 0 1
1 wait
1 close k
0 claim h shared 7
0 close h
"""
LINES = ["read h 0", "read h 0 1 2", "read h -1 1", "read h 0x0 1", "read h 18446744073709551616 1", "read h 00 1", "read h 1.0 1", "write h 0 1", "write h 0 1 1e3",
         "open h M", "open h M rw", "open h M W", "open h/ M r", "open " + "h" * 33 + " M r", "open h " + "M" * 256 + " r", "open \xe9 M r", "open h M\x7f r", "close",
         "close h k", "claim h", "claim h both", "claim h shared", "claim h shared x", "claim h exclusive 1", "abort h 1", "abort h 3", "abort h 999", "abort h", "reset h",
         "reset", "reset h 1", "sleep 1", "sleep", "sleep -1", "wait now", "post", "post a b", "await", "await a b", "gone", "gone h 1", "remove", "remove M M", "remove M\x00", "resize", "resize M",
         "resize M x", "resize M 065", "resize M 65 1", "resize M\x7f 65", "resize 65 M", "sized", "sized h", "sized h x", "sized h/ 65", "sized h 65 1", "sized 65 -1",
         "resize M 18446744073709551616", "resize M 65", "resize M 18446744073709551615", "sized h 1", "sized h 65",
         "open h M r # opened", "unmap h 0", "flush h", "zeroes h 0 1 1", "READ h 0 1", "copy h 0 1", "read\x0bh 0 1", "read h 0 1\r", "read h 0 1\x00", "sleep 99999999999999999999"]
THREADS = ["2", "16", "-1", "01", "x", "", "4294967296", "18446744073709551616", "0x0", "1.0"]


def bend_params(dice):
    key = dice.of(["name", "num_blocks", "block_size", "optimal_io_boundary", "queue_depth", "md_size", "dif_type", "readonly", "uuid"])
    return text_of(config(dice.of([malloc, malloc, null])(**{key: Raw(dice.of(NUMBERS + OTHERS))}))).encode()


def cut_off(dice):
    return GOOD[: dice.below(len(GOOD))]


def spoil(dice, good):
    bytes_ = bytearray(good)
    for _ in range(1 + dice.below(3)):
        at = dice.below(len(bytes_))
        kind = dice.below(3)
        if kind == 0:
            bytes_[at] = dice.below(256)
        elif kind == 1:
            del bytes_[at]
        else:
            bytes_[at:at] = dice.of(BYTES)
    return bytes(bytes_)


def nest(dice):
    depth = dice.of([1, 100, 122, 123, 124, 125, 126, 127, 128, 129, 1000, 100000, 1000000])
    opened, closed = dice.of([("[", "]"), ('{"a":', "}"), ('[{"a":', "}]")])
    deep = opened * depth + ("1" + closed * depth if dice.below(3) else "")
    place = dice.below(4)
    if place == 0:
        return deep.encode()
    if place == 1:
        return text_of({"subsystems": Raw(deep)}).encode()
    if place == 2:
        return text_of({"a": Raw(deep), "subsystems": [{"subsystem": "bdev", "config": 7}]}).encode()
    return text_of(config(malloc(x=Raw(deep)), malloc())).encode()


def wrong_type(dice):
    wrong = Raw(dice.of(NUMBERS[:16] + OTHERS[:9]))
    good = {"subsystem": "bdev", "config": [malloc()]}
    spots = [
        {"subsystems": wrong},
        {"subsystems": [good, wrong]},
        {"subsystems": [good, {"subsystem": wrong, "config": []}]},
        {"subsystems": [{"subsystem": "nvmf", "config": wrong}, {"subsystem": "bdev", "config": wrong}]},
        {"subsystems": [{"subsystem": "nvmf", "config": [wrong]}, {"subsystem": "bdev", "config": [wrong]}]},
        {"subsystems": [{"subsystem": "bdev", "config": [{"method": wrong}]}]},
        {"subsystems": [{"subsystem": "bdev", "config": [malloc(), {"method": "bdev_malloc_create", "params": wrong}]}]},
        {"subsystems": [{"config": []}]},
        {"subsystems": [good, {}]},
        {"Subsystems": [good]},
        wrong,
    ]
    return text_of(dice.of(spots)).encode()


def equal_keys(dice):
    """A key stands twice in one object: the last one counts."""
    first, last = dice.of([("64", "0"), ("0", "64"), ('"M"', "1"), ("1", '"M"'), ("512", "513"), ("null", "512")])
    key = dice.of(["name", "num_blocks", "block_size", "queue_depth"])
    params = Pairs([(k, v) for k, v in malloc()["params"].items() if k != key])
    params[dice.below(len(params) + 1) : 0] = [(key, Raw(first))]
    params.append((key, Raw(last)))
    call = Pairs([("params", params), ("method", "bdev_malloc_create")])
    spots = [
        config(call),
        config(Pairs([("method", "bdev_malloc_create"), ("params", params), ("params", Raw("{}"))])),
        config(Pairs([("method", "bdev_malloc_create"), ("params", malloc()["params"]), ("method", "bdev_x")])),
        Pairs([("subsystems", []), ("subsystems", Raw("7"))]),
        {"subsystems": [Pairs([("subsystem", "nvmf"), ("config", [call]), ("subsystem", "bdev")])]},
        {"subsystems": [Pairs([("subsystem", "bdev"), ("config", []), ("config", {})])]},
    ]
    return text_of(dice.of(spots)).encode()


def many(dice):
    kind = dice.below(4)
    if kind == 0:
        return text_of(config(*[dice.of([malloc, null])("M%d" % i, num_blocks=1) for i in range(255 + dice.below(4))])).encode()
    if kind == 1:
        # Only malloc devices count as memory.
        blocks = dice.of([2097152, 1048577, 262144])
        calls = [malloc("M%d" % i, num_blocks=blocks, block_size=dice.of([512, 4096])) for i in range(5)]
        calls.insert(dice.below(6), null(num_blocks=dice.of([1 << 40, (1 << 40) + 1, 2097153]), block_size=4096))
        return text_of(config(*calls)).encode()
    if kind == 2:
        twice = dice.below(20)
        names = ["M%d" % i for i in range(20)]
        names.insert(dice.below(20), "M%d" % twice)
        return text_of(config(*[malloc(name) for name in names])).encode()
    return text_of({"subsystems": [{"subsystem": "s%d" % i, "config": None} for i in range(20000)] + [7]}).encode()


def methods(dice):
    calls = []
    for _ in range(1 + dice.below(4)):
        method = dice.of(METHODS)
        params = dict(KEYS.get(method, {}))
        if params and dice.below(2):
            key = dice.of(sorted(params))
            if dice.below(2):
                del params[key]
            else:
                params[key] = Raw(dice.of(NUMBERS[:16] + OTHERS[:9]))
        calls.append({"method": method, "params": params} if params or dice.below(2) else {"method": method})
        calls.append(malloc("M%d" % dice.below(3), **dice.of([{}, {}, {"optimal_io_boundary": 8}, {"optimal_io_boundary": 7}, {"md_size": 8}, {"readonly": True}])))
    return text_of(config(*calls)).encode()


def stacks(dice):
    """Devices over each other: some in the wrong order, over a claimed base, with a name that stands, or with parts that don't fit."""
    names = ["M", "N", "P", "Q", "Mp0", "Mp1", "Pp0", "Mp1p0", "EE_M", "EE_P"]
    calls = []
    for _ in range(2 + dice.below(7)):
        kind = dice.below(7)
        if kind == 0:
            calls.append(malloc(dice.of(names[:3]), num_blocks=dice.of([1, 2, 3, 64, 65, 2048, 4097, 2097152]), optimal_io_boundary=dice.of([0, 8, 9])))
        elif kind == 3:
            calls.append(null(dice.of(names[:3]), num_blocks=dice.of([1, 3, 65, 2048, 1 << 40, 1 << 40, (1 << 40) - 1]), optimal_io_boundary=dice.of([0, 8])))
        elif kind == 1:
            calls.append({"method": "bdev_passthru_create", "params": {"base_bdev_name": dice.of(names), "name": dice.of(names)}})
        elif kind == 4:
            latencies = {"%s_%s_latency" % (of, way): dice.of([0, 1, 2] if of == "avg" else [1, 2, 3]) for way in ("read", "write") for of in ("avg", "p99")}
            calls.append({"method": "bdev_delay_create", "params": {"base_bdev_name": dice.of(names), "name": dice.of(names), **latencies}})
        elif kind == 5:
            calls.append({"method": "bdev_error_create", "params": {"base_name": dice.of(names)}})
        elif kind == 6:
            params = {"name": dice.of(["EE_M", "EE_P", "EE_EE_M", "M"]), "io_type": "all", "error_type": dice.of(["failure", "pending", "corrupt_data"])}
            calls.append({"method": "bdev_error_inject_error", "params": {**params, "num": dice.of([0, 1, 4294967295])}})
        else:
            params = {"base_bdev": dice.of(names), "split_count": dice.of([1, 2, 3, 64]), "split_size_mb": dice.of([0, 0, 1, 2, 1048576])}
            calls.append({"method": "bdev_split_create", "params": params})
    if dice.below(8) == 0:
        # More layers than there may be.
        last = dice.of(names[:3])
        for layer in range(62 + dice.below(4)):
            calls.append({"method": "bdev_passthru_create", "params": {"base_bdev_name": last, "name": "L%d" % layer}})
            last = "L%d" % layer
    return text_of(config(*calls)).encode()


def blank(dice):
    return dice.of([b"", b" ", b"\n", b"\x00", b"null", b"[]", b"{}", b"7", b'"subsystems"', b"{} {}", GOOD + b"x", GOOD + b",", b"[" * 8388608, b" " * 8388609, b"\xef\xbb\xbf" + GOOD])


def bad_line(dice):
    lines = SCRIPT.decode().splitlines()
    thread = dice.of(["0", "1"]) if dice.below(4) else dice.of(THREADS)
    for _ in range(1 + dice.below(2)):
        lines.insert(dice.below(len(lines) + 1), thread + dice.of([" ", "\t", "  "]) + dice.of(LINES))
    return (dice.of(["\n", "\r\n"]).join(lines) + "\n").encode("latin-1")


def long_script(dice):
    kind = dice.below(5)
    if kind == 0:
        return b"#\n" * dice.of([20001, 20002, 1000000])
    if kind == 1:
        return b"0 wait\n" * 20000 + dice.of([b"#", b"x", b"0 wait", b"\r"])
    if kind == 2:
        return b"0 open h " + b"M" * dice.of([256, 100000, 8000000]) + b" r\n"
    if kind == 3:
        return b"0 read h 0 " + b"9" * dice.of([21, 1000, 1000000])
    return b"0 " + b"wait " * dice.of([2, 1000, 1000000])


CONFIGS = [bend_params, bend_params, cut_off, lambda dice: spoil(dice, GOOD), nest, wrong_type, equal_keys, many, methods, methods, stacks, stacks, blank]
SCRIPTS = [bad_line, bad_line, lambda dice: SCRIPT[: dice.below(len(SCRIPT))], lambda dice: spoil(dice, SCRIPT), long_script]
NAMES = ["parameter", "parameter", "cut off", "spoilt", "nested", "wrong type", "equal keys", "many", "methods", "methods", "stacks",
         "stacks", "blank",
         "bad line", "bad line", "cut off script", "spoilt script", "long script"]


def case(number):
    dice = Dice(number)
    kind = dice.below(len(NAMES))
    threads = 2 if dice.below(8) else 1
    if kind < len(CONFIGS):
        return NAMES[kind], CONFIGS[kind](dice), SCRIPT, threads
    return NAMES[kind], GOOD, SCRIPTS[kind - len(CONFIGS)](dice), threads
