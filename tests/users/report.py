"""report: checks tools/report: what it reads and refuses, its JSON, CSV and tables, its verdicts and comparisons.

Known values were written by hand from docs/FORMATS.md and the reports of examples, which themselves were worked out
without the program.
"""

import collections
import copy
import glob
import json
import os
import random
import re
import subprocess

from harness import TOP, called, program, read, tool, write
from schema import faults

FIRST = "examples/first-path/report.txt"
INJECTED = "examples/injected-errors/report.txt"
REMOVAL = "examples/hot-removal/report.txt"
PATTERN = "c3717cf549ddf372826820cc644a3290eb934e51efef437764e816825dbfd7d6"
DEVICE = "86cd2c9acac57ea80bb89b887b62a568aafde3fb8899d022955e70b6d97f57c6"

FIRST_JSON = {
    "format": "bdevrun report",
    "version": 1,
    "full": True,
    "jobs": [
        {"line": 1, "thread": 0, "command": "open", "result": "ok"},
        {"line": 2, "thread": 0, "command": "write", "result": "success"},
        {"line": 3, "thread": 0, "command": "wait", "result": "ok"},
        {"line": 4, "thread": 0, "command": "read", "result": "success", "first": "050c131a21282f36", "sha256": PATTERN},
        {"line": 5, "thread": 0, "command": "wait", "result": "ok"},
        {"line": 6, "thread": 0, "command": "close", "result": "ok"},
    ],
    "commands": [
        {"command": "open", "ok": 1, "success": 0, "failed": 0, "aborted": 0, "refused": 0, "skipped": 0},
        {"command": "close", "ok": 1, "success": 0, "failed": 0, "aborted": 0, "refused": 0, "skipped": 0},
        {"command": "wait", "ok": 2, "success": 0, "failed": 0, "aborted": 0, "refused": 0, "skipped": 0},
        {"command": "read", "ok": 0, "success": 1, "failed": 0, "aborted": 0, "refused": 0, "skipped": 0},
        {"command": "write", "ok": 0, "success": 1, "failed": 0, "aborted": 0, "refused": 0, "skipped": 0},
    ],
    "gone": [],
    "waiting": [],
    "threads": [{"thread": 0, "accepted": 2, "success": 2, "failed": 0, "aborted": 0, "refused": 0}],
    "devices": [
        {
            "name": "Malloc0",
            "kind": "malloc",
            "blocks": 64,
            "block_size": 512,
            "reads": 1,
            "writes": 1,
            "read_bytes": 512,
            "write_bytes": 512,
            "sha256": DEVICE,
        }
    ],
    "end": {"accepted": 2, "success": 2, "failed": 0, "aborted": 0},
}

# A report with every kind of line and every result, by the forms of docs/FORMATS.md.
EVERY = f"""job 1 0 open ok
job 2 0 open errno 17
job 3 0 write failed
job 4 0 write aborted
job 6 0 read success first 0102030405060708 sha256 {PATTERN}
job 7 0 close errno 16 open 2
job 8 1 unmap errno 95
job 9 1 claim errno 22
job 10 0 gone ok
job 11 1 await skipped
job 12 1 flush skipped
job 13 0 flush success
gone 0 h 12
gone 0 h 12
waiting 3 bdev_passthru_create Base
waiting 5 bdev_split_create 7
thread 0 accepted 4 success 2 failed 1 aborted 1 refused 0
thread 1 accepted 0 success 0 failed 0 aborted 0 refused 1
device 12 aio blocks 8 size 512 reads 1 writes 0 read_bytes 512 write_bytes 0
device N null blocks 1099511627776 size 4096 reads 18446744073709551615 writes 0 read_bytes 18446744073709551615 write_bytes 0
end accepted 4 success 2 failed 1 aborted 1
"""

EVERY_CSV = {
    "jobs": f"""line,thread,command,result,errno,open,first,sha256
1,0,open,ok,,,,
2,0,open,refused,17,,,
3,0,write,failed,,,,
4,0,write,aborted,,,,
6,0,read,success,,,0102030405060708,{PATTERN}
7,0,close,refused,16,2,,
8,1,unmap,refused,95,,,
9,1,claim,refused,22,,,
10,0,gone,ok,,,,
11,1,await,skipped,,,,
12,1,flush,skipped,,,,
13,0,flush,success,,,,
""",
    "commands": """command,ok,success,failed,aborted,refused,skipped
open,1,0,0,0,1,0
close,0,0,0,0,1,0
claim,0,0,0,0,1,0
gone,1,0,0,0,0,0
await,0,0,0,0,0,1
read,0,1,0,0,0,0
write,0,0,1,1,0,0
unmap,0,0,0,0,1,0
flush,0,1,0,0,0,1
""",
    "gone": "thread,handle,device\n0,h,12\n0,h,12\n",
    "waiting": "index,method,base\n3,bdev_passthru_create,Base\n5,bdev_split_create,7\n",
    "threads": "thread,accepted,success,failed,aborted,refused\n0,4,2,1,1,0\n1,0,0,0,0,1\n",
    "devices": """name,kind,blocks,block_size,reads,writes,read_bytes,write_bytes,sha256
12,aio,8,512,1,0,512,0,
N,null,1099511627776,4096,18446744073709551615,0,18446744073709551615,0,
""",
    "end": "accepted,success,failed,aborted\n4,2,1,1\n",
}

EVERY_VERDICT = """line 2 thread 0 open: refused, errno 17 EEXIST: the name is bound to an open handle
line 3 thread 0 write: failed: the file of its device did, or an injected error met it
line 4 thread 0 write: aborted: by a reset, by an abort that names it, or as its device was removed, by the script or as the run ended
line 7 thread 0 close: refused, errno 16 EBUSY: the handle has 2 open requests
line 8 thread 1 unmap: refused, errno 95 ENOTSUP: an aio device takes none
line 9 thread 1 claim: refused, errno 22 EINVAL: the key is 0
line 11 thread 1 await: never done: nobody posts its mark
line 12 thread 1 flush: never done: it stands after line 11
command 3 of the configuration, bdev_passthru_create: waits for Base, which was not made
command 5 of the configuration, bdev_split_create: waits for 7, which was not made
bad: 1 failed, 1 aborted, 4 refused, 2 skipped, 2 waiting
"""

INJECTED_VERDICT = """line 2 thread 0 write: failed: the file of its device did, or an injected error met it
line 4 thread 0 write: failed: the file of its device did, or an injected error met it
line 16 thread 0 read: aborted: by a reset, by an abort that names it, or as its device was removed, by the script or as the run ended
line 18 thread 0 wait: never done: a request before it never ended
line 19 thread 0 close: never done: it stands after line 18
bad: 2 failed, 1 aborted, 2 skipped
"""

TABLES = """threads
thread  accepted  success  failed  aborted  refused
     0        16       16       0        0        0
     1        16       16       0        0        0

devices
name  kind      blocks  block_size  reads  writes  read_bytes  write_bytes  sha256
M     malloc      1024         512      0       0           0            0  73b5dae60a0d57ced25871a98ed25680185ac67ff0f8dae99419a424d065c97a
P     passthru    1024         512     16      16        8192         8192

end
accepted  success  failed  aborted
      32       32       0        0
"""

# Changes of EVERY that leave no report: what is replaced, by what, and the line that has to be named.
BROKEN = [
    ("job 1 0 open ok", "job 1 0 open success", 1),
    ("job 1 0 open ok", "job 0 0 open ok", 1),
    ("job 1 0 open ok", "job 01 0 open ok", 1),
    ("job 1 0 open ok", "job 1 16 open ok", 1),
    ("job 1 0 open ok", "job 1  0 open ok", 1),
    ("job 1 0 open ok", "job 1 0 open ok ", 1),
    ("job 1 0 open ok", " job 1 0 open ok", 1),
    ("job 1 0 open ok", "job 1 0 open ok\r", 1),
    ("job 1 0 open ok", "job 1\t0 open ok", 1),
    ("job 1 0 open ok", "job 1 0 reset ok", 1),
    ("job 1 0 open ok", "job 1 0 reset aborted", 1),
    ("job 1 0 open ok", "job 1 0 abort failed", 1),
    ("job 1 0 open ok", "Job 1 0 open ok", 1),
    ("job 1 0 open ok", "job 20001 0 open ok", 1),
    ("job 1 0 open ok", "no file: config.json", 1),
    ("job 1 0 open ok", "", 1),
    ("job 2 0 open errno 17", "job 1 0 open errno 17", 2),
    ("job 2 0 open errno 17", "job 2 0 open errno 0", 2),
    ("job 2 0 open errno 17", "job 2 0 open errno", 2),
    ("job 2 0 open errno 17", "job 2 0 open errno 16 open 1", 2),
    ("job 2 0 open errno 17", "job 2 0 open aborted", 2),
    ("job 3 0 write failed", "job 3 0 write ok", 3),
    ("job 3 0 write failed", "job 3 0 write success first 0102030405060708 sha256 " + PATTERN, 3),
    ("job 6 0 read success first 0102030405060708", "job 6 0 read success first 01020304050607", 5),
    ("job 6 0 read success first 0102030405060708", "job 6 0 read success first 010203040506070A", 5),
    (f" first 0102030405060708 sha256 {PATTERN}", "", 5),
    (PATTERN, PATTERN[1:], 5),
    (PATTERN, "é" + PATTERN[2:], 5),
    ("job 11 1 await skipped", "job 11 1 await errno 9", 10),
    ("gone 0 h 12\ngone 0 h 12", "gone 1 h 12\ngone 0 h 12", 14),
    ("gone 0 h 12\ngone", "gone 0 h/h 12\ngone", 13),
    ("gone 0 h 12\ngone", "waiting 1 m b\ngone", 14),
    ("waiting 5", "waiting 3", 16),
    ("waiting 5 bdev_split_create 7", "waiting 5 bdev_split_create", 16),
    ("thread 0 accepted 4", "thread 0 accepted 5", 17),
    ("thread 0 accepted 4 success 2 failed 1 aborted 1", "thread 0 accepted 4 success 1 failed 2 aborted 1", 17),
    ("thread 1 accepted 0 success 0 failed 0 aborted 0 refused 1", "thread 1 accepted 0 success 0 failed 0 aborted 0 refused 2", 18),
    ("thread 1 ", "thread 0 ", 18),
    ("thread 1 accepted 0 success 0 failed 0 aborted 0 refused 1\n", "", 20),
    ("end ", "thread 2 accepted 0 success 0 failed 0 aborted 0 refused 0\nend ", 21),
    ("device 12 aio", "device 12 malloc", 19),
    ("device 12 aio", "device 12 raid", 19),
    ("write_bytes 0\ndevice", f"write_bytes 0 sha256 {PATTERN}\ndevice", 19),
    ("device N", "device 12", 20),
    ("reads 18446744073709551615", "reads 18446744073709551616", 20),
    ("end accepted 4", "end accepted 5", 21),
    ("end accepted 4 success 2 failed 1 aborted 1\n", "", 21),
    ("aborted 1\n\0", "aborted 1", 21),
    ("\n\0", "\nend accepted 4 success 2 failed 1 aborted 1\n", 22),
    ("\n\0", "\n\n", 22),
]

# Two lines of EVERY changed places: not the same two results, by what comparison says.
CHANGES = [
    ("job 13 0 flush success", "job 14 0 flush success", ["job 13 0 flush: only in A", "job 14 0 flush: only in B"], "jobs 2"),
    ("job 10 0 gone ok", "job 10 0 gone errno 9", ["job 10 0 gone: result ok | errno 9"], "jobs 1"),
    ("open 2", "open 3", ["job 7 0 close: result errno 16 open 2 | errno 16 open 3"], "jobs 1"),
    (PATTERN, DEVICE, [f"job 6 0 read: sha256 {PATTERN} | {DEVICE}"], "jobs 1, digests 1"),
    ("gone 0 h 12\n", "", ["gone 0 h 12: only in A"], "gone 1"),
    ("waiting 5 bdev_split_create 7\n", "", ["waiting 5 bdev_split_create 7: only in A"], "waiting 1"),
    ("device N", "device O", ["device N: only in A", "device O: only in B"], "devices 2"),
    ("blocks 8 ", "blocks 9 ", ["device 12: blocks 8 | 9"], "devices 1"),
]


def check_forms(checks):
    status, out, err = called("report", "--json", FIRST)
    checks.equal((status, json.loads(out), err), (0, FIRST_JSON, ""), "report --json of the first path")
    for part, wanted in EVERY_CSV.items():
        checks.equal(tool("report", "--csv", part, given=EVERY), (0, wanted, ""), f"report --csv {part}")
    status, out, err = tool("report", "--json", "-", given=EVERY)
    found = json.loads(out)
    checks.equal([it for it in found["jobs"] if it["line"] == 7][0], {"line": 7, "thread": 0, "command": "close", "result": "refused", "errno": 16, "open": 2, "error": "EBUSY"}, "a close with open requests")
    checks.equal(found["devices"][1]["reads"], 2**64 - 1, "the greatest count")
    words = ("exercise", "8", "--threads", "2")
    status, text, _ = program(*words)
    checks.equal((status, called("report", given=text)), (0, (0, TABLES, "")), f"tables of bdevrun {' '.join(words)}")
    checks.equal(json.loads(tool("report", "--json", given=text)[1])["full"], False, "a report without jobs isn't full")
    checks.equal(tool("report", "--table", "end", given=text)[1], "accepted  success  failed  aborted\n      32       32       0        0\n", "one table")
    text = "end accepted 0 success 0 failed 0 aborted 0\n"
    checks.equal(tool("report", "--csv", "jobs", given=text), (0, "line,thread,command,result,errno,open,first,sha256\n", ""), "no jobs")


def check_all_reports(checks):
    """Each report of the repository, its numbers counted a second time, and its JSON by the schema."""
    schema = json.loads(read("docs/report.schema.json"))
    try:
        import jsonschema

        jsonschema.Draft202012Validator.check_schema(schema)
        judge = jsonschema.Draft202012Validator(schema)
    except (ImportError, AttributeError):
        # An old one doesn't know the schema's draft.
        judge = None
        checks.skip("the schema is checked without python3-jsonschema, which isn't there, or is older than 4")
    texts = [EVERY] + [read(os.path.relpath(it, TOP)) for it in sorted(glob.glob(f"{TOP}/examples/*/report.txt") + glob.glob(f"{TOP}/tests/runs/*/report.txt"))]
    values = []
    for text in texts:
        status, out, err = tool("report", "--json", given=text)
        checks.equal((status, err), (0, ""), f"report --json of a known report, {text[:40]!r}")
        if status:
            continue
        value = json.loads(out)
        values.append(value)
        checks.equal(text_of(value), text, f"the text by its JSON, {text[:40]!r}")
        lines = [it.split() for it in text.splitlines()]
        kinds = collections.Counter(it[0] for it in lines)
        parts = (("job", "jobs"), ("gone", "gone"), ("waiting", "waiting"), ("thread", "threads"), ("device", "devices"))
        checks.equal([len(value[part]) for _, part in parts], [kinds[kind] for kind, _ in parts], f"the numbers of rows, {text[:40]!r}")
        done = sum(it[0] == "job" and it[4] in ("ok", "success") for it in lines)
        checks.equal(sum(it["ok"] + it["success"] for it in value["commands"]), done, f"commands that were done, {text[:40]!r}")
        shown = sorted(it[-1] for it in lines if "sha256" in it)
        checks.equal(sorted(it["sha256"] for it in value["jobs"] + value["devices"] if "sha256" in it), shown, f"the digests, {text[:40]!r}")
        checks.equal(faults(schema, value, schema), [], "the schema")
        if judge:
            checks.equal([it.message for it in judge.iter_errors(value)], [], "the schema, by jsonschema")
    planted(checks, schema, values[0])


def planted(checks, schema, value):
    """Values that the schema has to refuse, each one change away from a good one."""
    def changed(act):
        other = copy.deepcopy(value)
        act(other)
        return other

    read_job = next(at for at, it in enumerate(value["jobs"]) if it["command"] == "read")
    for name, act in [
        ("another version", lambda it: it.update(version=2)),
        ("a part is missing", lambda it: it.pop("waiting")),
        ("one part more", lambda it: it.update(more=1)),
        ("a line 0", lambda it: it["jobs"][0].update(line=0)),
        ("a negative count", lambda it: it["end"].update(failed=-1)),
        ("a count as text", lambda it: it["end"].update(failed="0")),
        ("a short digest", lambda it: it["jobs"][read_job].update(sha256="00")),
        ("a digest without first bytes", lambda it: it["jobs"][read_job].pop("first")),
        ("an errno of what was done", lambda it: it["jobs"][0].update(errno=9)),
        ("a refusal without errno", lambda it: it["jobs"][0].update(result="refused")),
        ("another result", lambda it: it["jobs"][0].update(result="fine")),
        ("a digest of a null device", lambda it: it["devices"][-1].update(sha256=PATTERN)),
        ("a malloc device without", lambda it: it["devices"][0].update(kind="malloc")),
        ("an unknown kind", lambda it: it["devices"][0].update(kind="raid")),
    ]:
        checks.that(faults(schema, changed(act), schema), f"the schema lets through: {name}")


def text_of(value):
    """The report that a JSON value was made of: nothing of it is lost."""
    ends = lambda it: " ".join(f"{key} {it[key]}" for key in ("accepted", "success", "failed", "aborted"))
    lines = []
    for it in value["jobs"]:
        result = it["result"]
        if "errno" in it:
            result = f"errno {it['errno']}" + (f" open {it['open']}" if "open" in it else "")
        if "first" in it:
            result += f" first {it['first']} sha256 {it['sha256']}"
        lines.append(f"job {it['line']} {it['thread']} {it['command']} {result}")
    lines += [f"gone {it['thread']} {it['handle']} {it['device']}" for it in value["gone"]]
    lines += [f"waiting {it['index']} {it['method']} {it['base']}" for it in value["waiting"]]
    lines += [f"thread {it['thread']} {ends(it)} refused {it['refused']}" for it in value["threads"]]
    for it in value["devices"]:
        counts = " ".join(f"{key} {it[key]}" for key in ("reads", "writes", "read_bytes", "write_bytes"))
        digest = f" sha256 {it['sha256']}" if "sha256" in it else ""
        lines.append(f"device {it['name']} {it['kind']} blocks {it['blocks']} size {it['block_size']} {counts}{digest}")
    return "".join(f"{it}\n" for it in [*lines, f"end {ends(value['end'])}"])


def check_changed(checks, room):
    """Texts one small change away from a report: each is refused with a line that it has, or is another report, which
    differs by comparison too. None ends in another way."""
    chance = random.Random(54)
    kept = write(f"{room}/kept", EVERY)
    reports = refused = 0
    for turn in range(600):
        text, place = EVERY, chance.randrange(len(EVERY))
        way = chance.randrange(4)
        if way == 0:
            text = text[:place] + chance.choice("0123456789abcdefgh \n\t-é") + text[place + chance.randrange(2) :]
        elif way == 1:
            text = text[:place] + text[place + chance.randrange(1, 4) :]
        else:
            rows = text.splitlines(True)
            one, other = chance.randrange(len(rows)), chance.randrange(len(rows))
            if way == 2:
                rows[one], rows[other] = rows[other], rows[one]
            else:
                rows[one : one + 1] = [] if chance.randrange(2) else [rows[one]] * 2
            text = "".join(rows)
        status, out, err = tool("report", "--json", given=text)
        if status == 0:
            reports += text != EVERY
            wanted = 0 if text == EVERY else 6
            checks.equal((text_of(json.loads(out)), tool("report", "--compare", kept, "-", given=text)[0]), (text, wanted), "a changed report")
        else:
            refused += 1
            line = re.fullmatch(r"tools/report: standard input: line (\d+): [ -~]+\n", err)
            good = status == 1 and line and int(line[1]) <= text.count("\n") + 1
            checks.that(good, f"{text!r} ended with {status}, {err!r}")
    checks.that(reports > 20 and refused > 300, f"{reports} reports and {refused} others were tried")


def check_refused(checks):
    checks.equal(tool("report", "--csv", "end", given=EVERY)[0], 0, "the text that is broken in what follows")
    for old, new, line in BROKEN:
        text = EVERY + "\0"
        checks.that(old in text, f"{old!r} stands nowhere")
        text = text.replace(old, new, 1).rstrip("\0")
        status, out, err = tool("report", "--json", given=text)
        good = status == 1 and not out and err.startswith(f"tools/report: standard input: line {line}: ") and err.count("\n") == 1
        checks.that(good, f"{old!r} as {new!r}: status {status}, {err!r} in place of line {line}")
        checks.equal(tool("report", "--verdict", given=text)[0], 1, f"--verdict of {old!r} as {new!r}")
    for text in ("", "\n", "\0", "\n" + EVERY, "configuration is not JSON\n", "\x1b[31m\n"):
        status, out, err = tool("report", given=text)
        good = status == 1 and not out and "line 1: " in err and err[:-1].isprintable()
        checks.that(good, f"{text!r:.40} as a report: status {status}, {err!r}")
    checks.equal(tool("report", given=b"\xff\xfe")[0], 1, "bytes that are no text")


def check_verdicts(checks, room):
    checks.equal(called("report", "--verdict", FIRST), (0, "good: 6 commands, 2 requests, 1 device\n", ""), "a good verdict")
    checks.equal(called("report", "--verdict", given=EVERY), (5, EVERY_VERDICT, ""), "a verdict of all that can be bad")
    checks.equal(called("report", "--verdict", INJECTED), (5, INJECTED_VERDICT, ""), "a verdict of requests that injected errors met")
    no_jobs = "thread 3 accepted 3 success 1 failed 1 aborted 1 refused 2\nend accepted 3 success 1 failed 1 aborted 1\n"
    wanted = "thread 3: 1 request failed\nthread 3: 1 request aborted\nthread 3: 2 requests refused\nbad: 1 failed, 1 aborted, 2 refused\n"
    checks.equal(tool("report", "--verdict", given=no_jobs), (5, wanted, ""), "a verdict without jobs")
    # What ends with status 0 and isn't what was meant.
    config = "examples/first-path/config.json"
    for script, line in [
        ("0 open h Maloc0 w\n", "line 1 thread 0 open: refused, errno 19 ENODEV: there is no such device, or it is being removed\nbad: 1 refused\n"),
        ("0 open h Malloc0 w\n0 write h 0 1 5\n0 close h\n", "line 3 thread 0 close: refused, errno 16 EBUSY: the handle has 1 open request\nbad: 1 refused\n"),
        ("0 await never\n0 wait\n", "line 1 thread 0 await: never done: nobody posts its mark\nline 2 thread 0 wait: never done: it stands after line 1\nbad: 2 skipped\n"),
        ("0 open h Malloc0 r\n0 gone h\n", "line 2 thread 0 gone: never done: nobody removes its device\nbad: 1 skipped\n"),
        ("0 open h Malloc0 r\n0 write h 0 1 5\n", "line 2 thread 0 write: refused, errno 9 EBADF: the name isn't bound to a handle, or its handle doesn't write\nbad: 1 refused\n"),
        ("0 open h Malloc0 r\n0 read h 63 2\n", "line 2 thread 0 read: refused, errno 22 EINVAL: it has no block, more than 262,144 bytes, or passes the device's end\nbad: 1 refused\n"),
        ("0 open h Malloc0 r\n0 claim h exclusive\n0 open g Malloc0 w\n", "line 3 thread 0 open: refused, errno 1 EPERM: the device is claimed\nbad: 1 refused\n"),
    ]:
        status, text, _ = program("run", config, write(f"{room}/jobs.txt", script))
        checks.equal((status, tool("report", "--verdict", given=text)), (0, (5, line, "")), f"a verdict of {script!r}")
    waits = write(f"{room}/waits.json", '{"subsystems":[{"subsystem":"bdev","config":[{"method":"bdev_passthru_create","params":{"base_bdev_name":"B","name":"P"}}]}]}')
    status, text, _ = program("run", waits, "/dev/null")
    wanted = "command 0 of the configuration, bdev_passthru_create: waits for B, which was not made\nbad: 1 waiting\n"
    checks.equal((status, tool("report", "--verdict", given=text)), (0, (5, wanted, "")), "a verdict of a device that waits")


def check_comparisons(checks, room):
    a, b = f"{room}/a", f"{room}/b"
    checks.equal(called("report", "--compare", FIRST, "-", given=read(FIRST)), (0, "alike: 6 jobs, 1 device, 2 digests\n", ""), "alike")
    write(a, EVERY)
    for old, new, lines, last in CHANGES:
        write(b, EVERY.replace(old, new, 1))
        wanted = "".join(f"{it}\n" for it in [*lines, f"differ: {last}"])
        checks.equal(tool("report", "--compare", a, b), (6, wanted, ""), f"{old!r} as {new!r}")
    rows = EVERY.splitlines(True)
    rows[18], rows[19] = rows[19], rows[18]
    write(b, "".join(rows))
    checks.equal(tool("report", "--compare", a, b), (6, "devices: in another order: number 0 is 12 | N\ndiffer: devices 1\n", ""), "another order")
    # Two runs of the program: one script more, and a schedule that changes nothing.
    example = "examples/two-threads"
    run = ("run", f"{example}/config.json", f"{example}/jobs.txt", "--threads", "2")
    for schedule in "1", "2":
        write(a if schedule == "1" else b, program(*run, "--schedule", schedule)[1])
    checks.equal(tool("report", "--compare", a, b)[0], 0, "two schedules of two threads")
    write(f"{room}/jobs.txt", read(f"{example}/jobs.txt").replace("0 write a 0 1 5", "0 write a 0 1 6"))
    write(b, program("run", f"{example}/config.json", f"{room}/jobs.txt", "--threads", "2")[1])
    status, out, _ = tool("report", "--compare", a, b)
    checks.that(status == 6 and "device Malloc0: sha256 " in out and "jobs 1, devices 1, digests 2\n" in out, f"another seed: {status}, {out!r}")


def check_words(checks, room):
    status, out, err = tool("report", "--help")
    checks.that(status == 0 and out.startswith("tools/report: ") and "Exit status" in out and not err, "report --help")
    for words in (["--all"], ["--csv"], ["--csv", "all"], [FIRST, FIRST], ["--compare", FIRST], ["--compare", "-", "-"], [FIRST, "--json"], [""]):
        status, out, err = tool("report", *words)
        checks.that(status == 2 and not out and "usage: tools/report" in err, f"report {words}: {status}")
    for name in (f"{room}/absent", room):
        status, out, err = tool("report", name)
        checks.that(status == 3 and not out and name in err and err.count("\n") == 1, f"report of {name}: {status}, {err!r}")
    with open("/dev/full", "wb") as full:
        ran = subprocess.run([f"{TOP}/tools/report", "--json", FIRST], stdout=full, stderr=subprocess.PIPE, cwd=TOP)
    checks.equal((ran.returncode, ran.stderr.count(b"\n")), (3, 1), "report onto a full disk")
    status, out, err = called("report", "--verdict", f"{TOP}/README.md")
    checks.that(status == 1 and "README.md: line 1: " in err, f"a page as a report: {status}, {err!r}")


def all_checks(checks, room):
    check_forms(checks)
    check_refused(checks)
    check_verdicts(checks, room)
    check_comparisons(checks, room)
    check_words(checks, room)
    check_all_reports(checks)
    check_changed(checks, room)
