"""tools: checks tools/digest, tools/jobs and tools/convert, by the reports of examples and by the program."""

import hashlib
import json
import random
import re

from harness import called, program, read, tool, write

# What was read where in an example, by a job's line or a device's name; and the words that have to give its digest.
DIGESTS = [
    ("first-path", 4, "0 1 write 0 1 5"),
    ("first-path", "Malloc0", "0 64 write 0 1 5"),
    ("two-threads", 7, "0 1 write 0 1 5"),
    ("two-threads", 13, "1 1 write 0 1 5 write 1 1 9"),
    ("two-threads", "Malloc0", "0 64 write 0 1 5 write 1 1 9"),
    ("claims", 17, "0 1 write 0 1 5"),
    ("split", 7, "35 12 from 32 write 3 12 9"),
    ("split", 13, "64 1 from 32 write 3 12 9"),
    ("split", "Malloc0", "0 65 from 32 write 3 12 9 from 0 write 31 1 1"),
    ("disk", 12, "0 1 write 0 1 5 write 1000000 8 7 write 2097088 64 9 zeroes 1000002 2"),
    ("disk", 13, "1000000 4 write 0 1 5 write 1000000 8 7 write 2097088 64 9 zeroes 1000002 2"),
    ("disk", 14, "5 1 write 0 1 5 write 1000000 8 7"),
    ("disk", 25, "2097151 1 write 2097088 64 9"),
    ("null", 8, "--size 4096 1099511627712 64"),
    ("null", 9, "--size 4096 0 1 write 0 1 5"),
    ("null", "Malloc0", "--size 4096 0 64 write 0 1 5"),
    ("saved-configuration", 5, "2047 1 write 2047 1 5"),
    ("saved-configuration", 11, "--size 4096 1 1 write 0 2 9"),
    ("saved-configuration", "Malloc0", "0 2048 write 2047 1 5"),
    ("saved-configuration", "Malloc1", "--size 4096 0 256 write 0 2 9"),
    ("injected-errors", 8, "0 1 write 0 1 5"),
    ("injected-errors", 17, "0 1"),
    ("injected-errors", "Malloc0", "0 64 write 0 1 5"),
    ("exercise", "M", "0 1024 " + " ".join(f"write {64 * t + 7 * i} 1 {1000 * t + i}" for t in (0, 1) for i in range(8))),
]


def pattern(seed, block, size):
    return bytes((seed + 31 * block + 7 * i) % 256 for i in range(size))


def check_digests(checks):
    for example, where, words in DIGESTS:
        start = f"job {where} " if isinstance(where, int) else f"device {where} "
        line = next(it for it in read(f"examples/{example}/report.txt").splitlines() if it.startswith(start))
        status, out, err = tool("digest", *words.split())
        wanted = line[line.index("first ") if "first " in line else line.index("sha256 ") :]
        checks.that(status == 0 and out.endswith(wanted + "\n") and not err, f"digest {words:.80}: {out!r} in place of {wanted!r}")
    # Acts that cover each other in part, compared with bytes that are changed one by one.
    chance = random.Random(54)
    for turn in range(40):
        size, blocks, words = chance.choice((512, 4096)), 40, []
        device, begin = bytearray(blocks * size), 0
        for _ in range(chance.randrange(8)):
            act = chance.choice(("write", "zeroes", "unmap", "from"))
            if act == "from":
                begin = chance.randrange(20)
                words += [act, str(begin)]
                continue
            first, count, seed = chance.randrange(12), chance.randrange(9), chance.randrange(2**64)
            words += [act, str(first), str(count)] + [str(seed)] * (act == "write")
            for block in range(first, first + count):
                data = pattern(seed, block, size) if act == "write" else bytes(size)
                device[(begin + block) * size : (begin + block + 1) * size] = data
        lba, count = chance.randrange(20), chance.randrange(1, 20)
        data = bytes(device[lba * size : (lba + count) * size])
        wanted = f"first {data[:8].hex()} sha256 {hashlib.sha256(data).hexdigest()}\n"
        words = ["--size", str(size), str(lba), str(count), *words]
        checks.equal(tool("digest", *words), (0, wanted, ""), f"digest {' '.join(words)}")
    checks.equal(called("digest", "0", "1", "write", "0", "1", "5")[:2], (0, "first 050c131a21282f36 sha256 c3717cf549ddf372826820cc644a3290eb934e51efef437764e816825dbfd7d6\n"), "digest")
    checks.equal(called("digest", "--help")[0], 0, "digest --help")
    for words in ("", "0", "0 0", "0 1 write", "0 1 write 0 1", "0 1 reset", "0 1 2", "00 1", "0 1 write 0 1 -1", "--size 520 0 1", f"0 {2**21 + 1}", f"{2**64} 1", "--all 0 1"):
        status, out, err = tool("digest", *words.split())
        checks.that(status == 2 and not out and "usage: tools/digest" in err, f"digest {words}: {status}")


# ---- scripts

# What the random numbers begin with from seed 3 on, by the rule in docs/FORMATS.md.
SEED = 3


def numbers(seed):
    while True:
        seed = (seed * 6364136223846793005 + 1442695040888963407) % 2**64
        yield seed >> 33


SEQUENTIAL = """# tools/jobs sequential M 8 --threads 2 --depth 2 --requests 5 --count 2 --seed 3
0 open h M w
0 write h 0 2 {}
0 write h 2 2 {}
0 wait
0 read h 0 2
0 read h 2 2
0 wait
0 write h 0 2 {}
0 wait
0 close h
1 open h M w
1 write h 4 2 {}
1 write h 6 2 {}
1 wait
1 read h 4 2
1 read h 6 2
1 wait
1 write h 4 2 {}
1 wait
1 close h
"""

SCRIPTS = [
    "sequential M 1024",
    "sequential M 1024 --threads 3 --depth 5 --requests 33 --count 7 --seed 18446744073709551615",
    "random M 1024 --threads 4 --depth 16 --requests 100 --seed 1",
    "random M 1024 --depth 1 --requests 1",
    "random M 1024 --depth 1024 --requests 2048",
    "mixed M 1024 --threads 2 --depth 32 --requests 300 --unmaps --seed 2",
    "mixed M 1024 --threads 16 --depth 8 --requests 50 --reads 90 --count 8 --seed 3",
    "mixed M 1024 --reads 0 --count 128 --depth 8",
    "mixed M 1024 --reads 100 --threads 5",
]


def replay(script, blocks):
    """What each read of a script of one device has to show, where no two threads share a block; and the whole device."""
    device, shown = bytearray(blocks * 512), {}
    for number, line in enumerate(script.splitlines(), 1):
        words = line.split()
        if words[1] in ("write", "zeroes", "unmap"):
            first, count = int(words[3]), int(words[4])
            for block in range(first, first + count):
                device[block * 512 : block * 512 + 512] = pattern(int(words[5]), block, 512) if words[1] == "write" else bytes(512)
        elif words[1] == "read":
            data = bytes(device[int(words[3]) * 512 : (int(words[3]) + int(words[4])) * 512])
            shown[number] = f"success first {data[:8].hex()} sha256 {hashlib.sha256(data).hexdigest()}"
    return shown, hashlib.sha256(device).hexdigest()


def check_order(checks, name, script, words):
    """No thread has more open requests than it may, and none of those that are open has a block of another's."""
    options = dict(re.findall(r"--(\w+) (\d+)", words))
    open_blocks, most, requests = {}, 0, {}
    good = True
    for line in script.splitlines()[1:]:
        thread, word, *rest = line.split()
        mine = open_blocks.setdefault(thread, [])
        if word == "wait":
            mine.clear()
        elif word not in ("open", "close"):
            blocks = set(range(int(rest[1]), int(rest[1]) + int(rest[2])))
            good = good and not any(blocks & other for all_of in open_blocks.values() for other in all_of)
            mine.append(blocks)
            most = max(most, len(mine))
            requests[thread] = requests.get(thread, 0) + 1
        elif word == "close":
            good = good and not mine
            open_blocks.pop(thread)
    checks.that(good, f"{name}: open requests share a block, or are open at a close")
    checks.that(most <= int(options.get("depth", 8)), f"{name}: {most} requests are open at once")
    wanted = [int(options.get("requests", 64))] * int(options.get("threads", 1))
    checks.equal(list(requests.values()), wanted, f"{name}: requests by thread")


def check_jobs(checks, room):
    words = "sequential M 8 --threads 2 --depth 2 --requests 5 --count 2 --seed 3"
    chance = numbers(SEED)
    checks.equal(called("jobs", *words.split()), (0, SEQUENTIAL.format(*[next(chance) for _ in range(6)]), ""), f"jobs {words}")
    checks.equal(next(numbers(0)), 1442695040888963407 >> 33, "the first random number of seed 0")
    # Each of four places once: where one is taken the next free one, and after the last the first.
    for seed in range(8):
        chance, wanted = numbers(seed), []
        for _ in range(4):
            place = next(chance) % 4
            wanted.append(next(it % 4 for it in range(place, place + 4) if it % 4 not in wanted))
        lines = tool("jobs", *f"random M 4 --depth 4 --requests 8 --seed {seed}".split())[1].splitlines()
        written = [it.split()[3] for it in lines if " write " in it]
        checks.equal(written, [str(it) for it in wanted], f"the places of a random script of seed {seed}")
    config = write(f"{room}/config.json", '{"subsystems":[{"subsystem":"bdev","config":[{"method":"bdev_malloc_create","params":{"name":"M","num_blocks":1024,"block_size":512}}]}]}')
    for words in SCRIPTS:
        name = f"jobs {words}"
        status, script, err = tool("jobs", *words.split())
        checks.equal((status, err), (0, ""), name)
        checks.equal(tool("jobs", *words.split())[1], script, f"{name}: twice")
        if "--seed" in words:
            other = re.sub(r"--seed \d+", "--seed 77", words)
            checks.that(tool("jobs", *other.split())[1] != script, f"{name}: another seed gives the same script")
        check_order(checks, name, script, words)
        jobs = write(f"{room}/jobs.txt", script)
        threads = dict(re.findall(r"--(threads) (\d+)", words)).get("threads", "1")
        shown, content = replay(script, 1024)
        reports = set()
        for more in (["--schedule", "5"], ["--reactors", "2"]):
            status, report, err = program("run", config, jobs, "--threads", threads, *more)
            checks.equal((status, err), (0, ""), f"{name}: the program's answer")
            reports.add(report)
        checks.equal(len(reports), 1, f"{name}: reports by a schedule and by reactors")
        lines = report.splitlines()
        given = {int(it.split()[1]): " ".join(it.split()[4:]) for it in lines if it.startswith("job ") and it.split()[3] == "read"}
        checks.equal(given, shown, f"{name}: what reads show")
        checks.equal([it.split()[-1] for it in lines if it.startswith("device ")], [content], f"{name}: the device")
        checks.equal(tool("report", "--verdict", given=report)[0], 0, f"{name}: the verdict")
    kinds = tool("jobs", *SCRIPTS[5].split())[1]
    checks.equal({it.split()[1] for it in kinds.splitlines()[1:]}, {"open", "read", "write", "zeroes", "unmap", "flush", "wait", "close"}, "what a mixed script has")
    # The longest: a comment, and for each request two lines, and two more for the thread.
    for requests, status in ((9998, 0), (9999, 2)):
        ended, script, err = tool("jobs", "mixed", "M", "9", "--depth", "1", "--requests", str(requests))
        checks.equal((ended, script.count("\n")), (status, 1 + 2 + 2 * requests if status == 0 else 0), f"{requests} requests")
        checks.that(status == 0 or "20001 lines" in err, f"{requests} requests: {err!r}")
    checks.equal(called("jobs", "--help")[0], 0, "jobs --help")
    for words in ("", "random", "random M", "random M 0", "other M 8", "random M 8 --seed", "random M 8 --seed x", "random M 8 --seed 1 --seed 1", "random M 8 --threads 17", "random M 8 --depth 0", "random M 8 --reads 5", "random M 7 --depth 8", "random M 8 --count 513", "random M 999 --size 4096 --count 65", "random M 8 --size 520", "random M\t 8 --all", "mixed M 8 --reads 101"):
        status, out, err = tool("jobs", *words.split(" "))
        checks.that(status == 2 and not out and "usage: tools/jobs" in err, f"jobs {words}: {status}, {err!r}")


# ---- configurations

DEVICES = """Nvme0n1 malloc 131072 512
Nvme1n1 null 1953525168 512
Malloc0 malloc 2048 512
Nvme0n1p0 part 8192 512
Nvme0n1p1 part 8192 512
Top passthru 8192 512
Slow delay 2048 512
OverSlow passthru 2048 512
"""
SAID = """command 1, bdev_nvme_attach_controller 'Nvme0': Nvme0n1 becomes a malloc device of 131072 blocks of 512 bytes, by default; --size Nvme0n1=BLOCKSxB sets it
command 2, bdev_nvme_attach_controller 'Nvme1': Nvme1n1 becomes a null device of 1953525168 blocks of 512 bytes
left out: command 3, bdev_nvme_attach_controller 'Nvme1': a further path to Nvme1 makes no device
command 4, bdev_malloc_create 'Malloc0': without md_size, dif_type
left out: command 7, bdev_lvol_set_external_parent: the method isn't served
"""


def bdev(*commands):
    return json.dumps({"subsystems": [{"subsystem": "bdev", "config": [{"method": method, "params": params} for method, params in commands]}]})


def malloc(name, blocks=64, size=512, **more):
    return "bdev_malloc_create", {"name": name, "num_blocks": blocks, "block_size": size, **more}


def passthru(base, name):
    return "bdev_passthru_create", {"base_bdev_name": base, "name": name}


def split(base, count, **more):
    return "bdev_split_create", {"base_bdev": base, "split_count": count, **more}


def error(base):
    return "bdev_error_create", {"base_name": base}


def inject(name, kind="failure", **more):
    return "bdev_error_inject_error", {"name": name, "io_type": "read", "error_type": kind, **more}


def limit(name, **rates):
    return "bdev_set_qos_limit", {"name": name, **(rates or {"rw_ios_per_sec": 1000})}


def nvme(name):
    return "bdev_nvme_attach_controller", {"name": name, "trtype": "PCIe", "traddr": "0000:5e:00.0"}


def raid(name):
    return "bdev_raid_create", {"name": name, "raid_level": "raid0", "base_bdevs": ["A", "B"]}


# A configuration, the words, the devices that are made (name, kind, blocks, size), and a part of what is said.
CASES = [
    (bdev(nvme("N")), "--blocks 9 --block-size 4096", ["N" + "n1 malloc 9 4096"], "by default"),
    (bdev(nvme("N")), "--null", ["Nn1 null 131072 512"], "becomes a null device"),
    (bdev(nvme("N")), "--size Nn2=5 --size Nn1=6x4096", ["Nn2 malloc 5 512", "Nn1 malloc 6 4096"], ""),
    (bdev(nvme("N")), f"--size Nn1={2**40}x4096", [f"Nn1 null {2**40} 4096"], ""),
    (bdev(nvme("N"), nvme("NN")), "--size NNn1=5 --blocks 4", ["Nn1 malloc 4 512", "NNn1 malloc 5 512"], ""),
    (bdev(passthru("Nn1", "P"), nvme("N")), "--blocks 90", ["Nn1 malloc 90 512", "P passthru 90 512"], ""),
    (bdev(malloc("A", 2**21), malloc("B", 1)), "", [f"A malloc {2**21} 512", "B null 1 512"], "command 1, bdev_malloc_create 'B': B becomes a null device"),
    (bdev(malloc("A", 2**20), malloc("B", 1), malloc("C", 2**20)), "", [f"A malloc {2**20} 512", "B malloc 1 512", f"C null {2**20} 512"], "command 2, bdev_malloc_create 'C': C becomes a null device"),
    (bdev(malloc("A", 2**21 + 1)), "", [f"A null {2**21 + 1} 512"], "becomes a null device"),
    (bdev(nvme("N"), malloc("A", 2**18, 4096)), "", ["Nn1 null 131072 512", f"A malloc {2**18} 4096"], ""),
    (bdev(malloc("A", readonly=True, dif_type=1, md_size=8, queue_depth=0, optimal_io_boundary=7)), "", ["A malloc 64 512"], "without optimal_io_boundary, queue_depth, md_size, dif_type, readonly"),
    (bdev(malloc("A", optimal_io_boundary=8, queue_depth=1024)), "", ["A malloc 64 512"], ""),
    (bdev(malloc("A", size=520), passthru("A", "P"), passthru("P", "Q"), malloc("B")), "", ["B malloc 64 512"], "left out: command 2, bdev_passthru_create 'Q': it waits for its base 'P'"),
    (bdev(malloc("A"), malloc("A", 65)), "", ["A malloc 64 512"], "left out: command 1, bdev_malloc_create 'A': a device 'A' stands already"),
    (bdev(malloc("A"), passthru("A", "P"), passthru("A", "Q")), "", ["A malloc 64 512", "P passthru 64 512"], "left out: command 2, bdev_passthru_create 'Q': base_bdev_name is 'A', on which command 1"),
    (bdev(malloc("A"), split("A", 2, split_size_mb=1)), "", ["A malloc 64 512"], "left out: command 1, bdev_split_create over 'A': split_size_mb is 1, so a part has 2048 blocks"),
    (bdev(malloc("A"), split("A", 65)), "", ["A malloc 64 512"], "left out: command 1, bdev_split_create over 'A': split_count is 65"),
    (bdev(malloc("A"), malloc("Ap1"), split("A", 2)), "", ["A malloc 64 512", "Ap1 malloc 64 512"], "left out: command 2, bdev_split_create over 'A': a device 'Ap1' stands already"),
    (bdev(*[malloc("A")] + [passthru(f"P{it}" if it else "A", f"P{it + 1}") for it in range(65)]), "", ["A malloc 64 512"] + [f"P{it} passthru 64 512" for it in range(1, 64)], "it would stand in layer 65"),
    (bdev(*[malloc(f"M{it}", 1) for it in range(257)]), "", [f"M{it} malloc 1 512" for it in range(256)], "left out: command 256, bdev_malloc_create 'M256': "),
    (bdev(malloc("A"), error("A"), inject("EE_A", num=0), passthru("EE_A", "P")), "", ["A malloc 64 512", "EE_A error 64 512", "P passthru 64 512"], ""),
    (bdev(error("A"), inject("EE_A"), malloc("A"), inject("A"), inject("EE_A")), "", ["A malloc 64 512", "EE_A error 64 512"], "left out: command 3, bdev_error_inject_error 'A': name is 'A': it is of kind malloc"),
    (bdev(malloc("A"), error("A"), inject("EE_A", num=-1), inject("EE_A", "nomem")), "", ["A malloc 64 512", "EE_A error 64 512"], "left out: command 3, bdev_error_inject_error 'EE_A': error_type is"),
    (bdev(malloc("A"), limit("A", r_mbytes_per_sec=0), passthru("A", "P"), limit("P", rw_ios_per_sec=10**9, w_mbytes_per_sec=10**6)), "", ["A malloc 64 512", "P passthru 64 512"], ""),
    (bdev(limit("A"), malloc("A"), limit("A")), "", ["A malloc 64 512"], "left out: command 0, bdev_set_qos_limit 'A': name is 'A': there is no such device when this is done: command 1"),
    (bdev(malloc("A"), limit("A", w_mbytes_per_sec=-1), limit("A", r_mbytes_per_sec=10**6 + 1)), "", ["A malloc 64 512"], "command 1, bdev_set_qos_limit 'A'"),
    (bdev(nvme("N"), limit("Nn2"), error("Nn2"), inject("EE_Nn2")), "--size Nn1=5 --size Nn2=6", ["Nn1 malloc 5 512", "Nn2 malloc 6 512", "EE_Nn2 error 6 512"], ""),
    (bdev(raid("R"), passthru("R", "P")), "", [], "left out: command 0, bdev_raid_create 'R': the method isn't served"),
    (bdev(raid("R"), passthru("R", "P")), "--size R=77", ["R malloc 77 512", "P passthru 77 512"], "R becomes a malloc device"),
    (bdev(("bdev_aio_create", {"name": "F", "filename": "/nowhere/f", "block_size": 512})), "--size F=7", ["F malloc 7 512"], ""),
    (bdev(("bdev_set_qos_limit", {"name": "A"}), ("bdev_set_options", {}), ("bdev_x", {}), malloc("A b"), malloc("A\nb")), "", [], "left out: command 3, bdev_malloc_create 'A b': name is"),
    (bdev(malloc("A", blocks=0), malloc("B", blocks="64"), malloc("C", blocks=True), malloc("D", blocks=64.0)), "", [], "left out: command 3, bdev_malloc_create 'D': num_blocks is 64.0"),
    ('{"subsystems":[]}', "", [], ""),
    ('{"subsystems":[{"subsystem":"bdev","config":null},{"subsystem":"nvmf","config":[7]},{"subsystem":"bdev","config":[{"method":"bdev_x"}]}]}', "", [], "left out: command 0, bdev_x: the method isn't served"),
]


def devices_of(report):
    rows = [it.split() for it in report.splitlines() if it.startswith("device ")]
    return [f"{it[1]} {it[2]} {it[4]} {it[6]}" for it in rows]


def any_configuration(chance):
    """A saved configuration with much in it that isn't served, or is wrong."""
    names = [f"D{it}" for it in range(6)] + ["Nvme0n1", "Nvme0", "D0p0", "D0p1", "lvs/a", "", "a b", 7]
    name = lambda: chance.choice(names)
    makers = [
        lambda: malloc(name(), chance.choice([1, 64, 5000, 2**21 + 1, 2**22, 0, -1, "7", None]), chance.choice([512, 4096, 520, "512"]), md_size=chance.choice([0, 0, 0, 8]), readonly=chance.choice([False, False, True, None])),
        lambda: ("bdev_null_create", {"name": name(), "num_blocks": chance.choice([1, 9000, 2**40, 2**40 + 1]), "block_size": 4096, "dif_type": chance.choice([0, 1, False, None])}),
        lambda: passthru(name(), name()),
        lambda: split(name(), chance.choice([1, 2, 64, 65, 0]), **chance.choice([{}, {"split_size_mb": 1}, {"split_size_mb": -1}, {"split_size_mb": None}])),
        lambda: nvme(name()),
        lambda: raid(name()),
        lambda: ("bdev_delay_create", {"name": name(), "base_bdev_name": name()}),
        lambda: error(name()),
        lambda: inject(chance.choice(["EE_D0", "EE_D1", "D0", ""]), chance.choice(["failure", "pending", "nomem"])),
        lambda: limit(name(), rw_mbytes_per_sec=chance.choice([0, 1, 10**6, 10**6 + 1, -1, None])),
        lambda: ("bdev_malloc_set_options", {}),
        lambda: ("bdev_null_create", {}),
    ]
    return bdev(*[chance.choice(makers)() for _ in range(chance.randrange(12))])


def made_of(text):
    """The devices without a base that a configuration asks for, as those of a report."""
    commands = [it for part in json.loads(text)["subsystems"] if part["subsystem"] == "bdev" for it in part["config"]]
    return [f"{it['params']['name']} {it['method'].split('_')[1]} {it['params']['num_blocks']} {it['params']['block_size']}" for it in commands]


def check_converted(checks, room, text, words, name):
    """The program takes what was made, and nothing waits; its devices are returned. Where they are large it isn't run, since
    the digests of their content at the end take seconds."""
    status, out, err = tool("convert", *words.split(), given=text)
    checks.equal(status, 0, f"{name}: the status, {err!r:.300}")
    if re.search(f'"num_blocks": ({2**18}|{2**20}|{2**21}),', out):
        return made_of(out), err
    ended, report, fault = program("run", write(f"{room}/made.json", out), "/dev/null")
    checks.equal((ended, fault), (0, ""), f"{name}: the program's answer")
    checks.equal(tool("report", "--verdict", given=report)[0] if ended == 0 else 0, 0, f"{name}: the verdict")
    again = tool("convert", given=out)
    checks.equal((again[0], json.loads(again[1]), again[2]), (0, json.loads(out), ""), f"{name}: made again")
    return devices_of(report), err


def check_convert(checks, room):
    status, out, err = called("convert", "examples/tools/target.json", "--size", "Nvme1n1=1953525168")
    checks.equal((status, err), (0, "".join(f"tools/convert: {it}\n" for it in SAID.splitlines())), "convert of the example")
    ended, report, _ = program("run", write(f"{room}/made.json", out), "/dev/null")
    checks.equal((ended, devices_of(report)), (0, DEVICES.splitlines()), "the devices of the example")
    value, made = json.loads(read("examples/tools/target.json")), json.loads(out)
    checks.equal([made["subsystems"][0], made["subsystems"][2]], [value["subsystems"][0], value["subsystems"][2]], "other subsystems stay")
    saved = read("examples/saved-configuration/config.json")
    status, out, err = tool("convert", given=saved)
    checks.equal((status, json.loads(out), err), (0, json.loads(saved), ""), "a configuration that is served stays as it is")
    for number, (text, words, devices, said) in enumerate(CASES):
        name = f"convert, case {number}"
        found, err = check_converted(checks, room, text, words, name)
        checks.equal(found, devices, f"{name}: the devices")
        checks.that(said in err, f"{name}: {said!r} isn't said in {err!r:.300}")
    chance = random.Random(54)
    for turn in range(60):
        check_converted(checks, room, any_configuration(chance), "--blocks 7", f"convert, random configuration {turn}")
    # A disk whose file is there stays, and one whose file isn't, or is none, doesn't.
    disk = write(f"{room}/disk.img", "\0" * 5000)
    for name, wanted in ((disk, "F aio 9 512"), (f"{room}/absent", "F malloc 7 512"), (room, "F malloc 7 512"), ("/dev/null", "F malloc 7 512")):
        text = bdev(("bdev_aio_create", {"name": "F", "filename": name, "block_size": 512}), passthru("F", "P"))
        found, err = check_converted(checks, room, text, "--blocks 7", f"a disk {name}")
        checks.equal(found, [wanted, wanted.replace("F aio", "P passthru").replace("F malloc", "P passthru")], f"a disk {name}: the devices")
        checks.equal(bool(err), name != disk, f"a disk {name}: what is said")
    status, out, err = tool("convert", given=bdev(("bdev_\x1b[31m\n", {})))
    checks.that(status == 0 and err[:-1].isprintable(), f"a method with control characters: {err!r}")
    for text in ("", "[", "7", "[]", "{}", '{"subsystems":{}}', '{"subsystems":[7]}', '{"subsystems":[{"subsystem":"bdev","config":7}]}', bdev() + "x", '{"subsystems":[{"subsystem":"bdev","config":[{"method":"m","params":null}]}]}', '{"subsystems":[],"a":1e400}', '{"subsystems":[],"a":NaN}', '{"subsystems":[],"a":' + "[" * 127 + "]" * 127 + "}", "[" * 100000, b"\xff", '{"subsystems":[],"a":"\\ud800"}'):
        status, out, err = tool("convert", given=text)
        checks.that(status == 1 and not out and err.startswith("tools/convert: standard input:"), f"convert of {text!r:.60}: {status}, {err!r:.200}")
    checks.equal(called("convert", "--help")[0], 0, "convert --help")
    checks.equal(tool("convert", f"{room}/absent")[0], 3, "convert of a file that isn't there")
    for words in ("--size", "--size A", "--size A=0", "--size A=1x520", "--size A=1 --size A=1", "--blocks x", "--block-size 520", "a b", "--all", f"--blocks {2**40 + 1}", "--size Missing=1"):
        status, out, err = tool("convert", *words.split(), given='{"subsystems":[]}')
        checks.that(status == 2 and not out and "usage: tools/convert" in err, f"convert {words}: {status}")


def all_checks(checks, room):
    check_digests(checks)
    check_jobs(checks, room)
    check_convert(checks, room)
