"""Mistakes that users make, each with the program's line and status, and with what its reason has to say.

The places were counted by hand, and the rules are those of docs/FORMATS.md. A configuration has a command's parts on lines of
their own, so that they can be counted: the first command begins at line 2, its name is on line 3, and so on.
"""

USAGE = "usage: bdevrun run CONFIG JOBS, exercise N or generate N; options --threads N --reactors N --schedule N"
NOT_JSON = "configuration is not JSON"
RUN = ("run", "config", "jobs")
JOBS = "0 open h M w\n0 write h 0 1 5\n0 wait\n0 close h\n"
BYTES = "a text of 1 to 4096 bytes"
NAME = "a text of 1 to 200 printable ASCII characters without a space"
BLOCKS = "a whole number from 1 to 2097152"


class Case:
    """A mistake: what it is called, the files of its folder, the words, the program's answer, and what the reason must have."""

    def __init__(self, name, line, status, says, config=None, jobs=JOBS, words=RUN, files=None, limits=None, more=0):
        self.name = name
        self.line = line
        self.status = status
        self.says = says
        self.files = dict(files or {})
        if config is not None:
            self.files["config"] = config
        if jobs is not None:
            self.files["jobs"] = jobs
        self.words = list(words)
        self.limits = limits
        self.more = more  # how many mistakes there are beside


def bdev(*commands):
    """A configuration with these commands from line 2 on."""
    return '{"subsystems": [{"subsystem": "bdev", "config": [\n' + ",\n".join(commands) + "\n]}]}\n"


def command(method, *params):
    """A command of one line more than it has parameters."""
    return '{"method": "%s", "params": {\n' % method + ",\n".join(params) + "}}"


def malloc(name='"M"', blocks="64", size="512", *more):
    """Four lines: the method's value in column 12, the name in 9, the blocks in 15, the size in 15."""
    return command("bdev_malloc_create", '"name": ' + name, '"num_blocks": ' + blocks, '"block_size": ' + size, *more)


def null(name='"N"', blocks="64", size="512", *more):
    return command("bdev_null_create", '"name": ' + name, '"num_blocks": ' + blocks, '"block_size": ' + size, *more)


def aio(name='"A"', filename='"disk"', *more):
    """Three lines: the file's name in column 13."""
    return command("bdev_aio_create", '"name": ' + name, '"filename": ' + filename, *more)


def passthru(base='"M"', name='"P"'):
    """Three lines: the base in column 19, the name in 9."""
    return command("bdev_passthru_create", '"base_bdev_name": ' + base, '"name": ' + name)


def split(base='"M"', count="2", *more):
    """Three lines: the base in column 14, the count in 16, a size in 18."""
    return command("bdev_split_create", '"base_bdev": ' + base, '"split_count": ' + count, *more)


def inject(name='"EE_M"', type='"read"', kind='"failure"', *more):
    """Four lines: the name in column 9, the type of request in 12, the kind of error in 15."""
    return command("bdev_error_inject_error", '"name": ' + name, '"io_type": ' + type, '"error_type": ' + kind, *more)


def limits(name='"M"', limit='"rw_ios_per_sec": 1000'):
    """Three lines: the name in column 9."""
    return command("bdev_set_qos_limit", '"name": ' + name, limit)


def refused(index, code):
    return "configuration command %d refused: %d" % (index, code)


def of_text(name, config, *says, more=0):
    return Case("text: " + name, NOT_JSON, 1, says, config, more=more)


def of_shape(name, number, config, *says, more=0):
    return Case("shape: " + name, "configuration shape: %d" % number, 1, says, config, more=more)


def of_command(name, index, code, config, *says, more=0, files=None):
    return Case("command: " + name, refused(index, code), 1, says, config, files=files, more=more)


def of_file(name, line, config, *says, more=0, files=None, limits=None):
    return Case("file: " + name, line, 3, says, config, files=files, limits=limits, more=more)


def of_script(name, number, jobs, *says, threads=None, more=0):
    words = [*RUN, "--threads", str(threads)] if threads else RUN
    return Case("script: " + name, "script line %d" % number, 1, says, bdev(malloc()), jobs, words, more=more)


def of_words(name, words, *says):
    return Case("words: " + name, USAGE, 2, says, bdev(malloc()), JOBS, words.split(" ") if isinstance(words, str) else words)


TEXTS = [
    of_text("nothing", "", "config:1:1: ", "empty"),
    of_text("blanks alone", " \n\n", "config:3:1: ", "empty or has only blanks"),
    of_text("the script in its place", JOBS, "config:1:3: ", "something stands after the value", "this is a script", "the configuration comes first"),
    of_text("a comma too many in an object", '{"subsystems": [\n  {"subsystem": "nvmf",\n   "config": null,\n  }\n]}', "config:3:18: ", "a comma stands before the closing }"),
    of_text("a comma too many in an array", '{"subsystems": [\n{"subsystem": "nvmf"},\n]}', "config:2:22: ", "a comma stands before the closing ]"),
    of_text("a comma missing", '{"subsystems": [\n{"subsystem": "nvmf"}\n{"subsystem": "bdev"}\n]}', "config:3:1: ", "a comma or the closing ] is expected"),
    of_text("a colon missing", '{"subsystems" []}', "config:1:15: ", "a colon is expected after the key"),
    of_text("a byte order mark", "\ufeff{}", "config:1:1: ", "byte order mark", "save it as UTF-8 without one", more=1),
    of_text("UTF-16", '{"subsystems": []}'.encode("utf-16"), "config:1:1: ", "byte 0xff is no UTF-8", "UTF-16"),
    of_text("a byte of Latin-1", b'{"subsystems": [\n{"subsystem": "b\xe9"}]}', "config:2:17: ", "byte 0xe9 is no UTF-8"),
    of_text("a comment", '{"subsystems": [\n  // none yet\n]}', "config:2:3: ", "JSON has no comments"),
    of_text("single quotes", "{'subsystems': []}", "config:1:2: ", "a key stands in double quotes"),
    of_text("a leading zero", bdev(malloc(blocks="064")), "config:4:15: ", "without a leading zero"),
    of_text("a size with a unit", bdev(malloc(size="4k")), "config:5:15: ", "a number has digits", "no unit", "'4k}}'"),
    of_text("True", bdev(malloc('"M"', "64", "512", '"readonly": True')), "config:6:13: ", "true, false, null", "true is meant", more=1),
    of_text("a text that isn't closed", '{"subsystems": [\n{"subsystem": "bdev}]}\n', "config:2:15: ", "isn't closed by a double quote"),
    of_text("cut off", '{"subsystems": [\n{"subsystem": "bdev",', "config:2:22: ", "the file ends here", "before the { of line 2, column 1 is closed"),
    of_text("a tab in a text", '{"subsystems": [\n{"subsystem": "a\tb"}]}', "config:2:17: ", "a tab as \\t"),
    of_text("an escape that there isn't", '{"subsystems": [\n{"subsystem": "a\\x41"}]}', "config:2:17: ", "no escape"),
    of_text("half a character", '{"subsystems": [\n{"subsystem": "\\ud83d"}]}', "config:2:16: ", "without the second"),
    of_text("too deep", "[" * 128 + "]" * 128, "config:1:128: ", "nested deeper than 127"),
    of_text("a number too large", bdev(malloc(blocks="1e400")), "config:4:15: ", "larger than readers of JSON take"),
    of_text("two values", '{"subsystems": []}\n{"subsystems": []}\n', "config:2:1: ", "something stands after the value"),
]

SHAPES = [
    of_shape("an array alone", 0, '[{"subsystem": "bdev", "config": []}]', "config:1:1: ", "an array; it must be an object", "'subsystems'"),
    of_shape("one command", 0, malloc(), "config:1:1: ", "'subsystems' is absent", "this is one command"),
    of_shape("one subsystem", 0, '{"subsystem": "bdev", "config": []}', "config:1:1: ", "'subsystems' is absent"),
    of_shape("a capital letter", 0, '{"Subsystems": []}', "config:1:1: ", "'subsystems' is absent", "there is 'Subsystems'"),
    of_shape("an object in place of the array", 0, '{"subsystems":\n{"bdev": []}}', "config:2:1: ", "subsystems is an object; it must be an array"),
    of_shape("a number as a subsystem", 2, '{"subsystems": [\n{"subsystem": "nvmf"},\n7]}', "config:3:1: ", "subsystem 2 is a number; it must be an object"),
    of_shape("no name of a subsystem", 1, '{"subsystems": [\n{"config": []}]}', "config:2:1: ", "subsystem 1", "'subsystem' is absent", "a text"),
    of_shape("config as an object", 1, '{"subsystems": [{"subsystem": "bdev",\n"config": {}}]}', "config:2:11: ", "its config is an object; it must be an array, or null"),
    of_shape("a command without a method", 1, bdev(malloc(), '{"params": {}}'), "config:6:1: ", "command 1 has no 'method'"),
    of_shape("a method's key mistyped", 1, bdev('{"methode": "bdev_examine"}'), "config:2:1: ", "command 0 has no 'method'", "there is 'methode'"),
    of_shape("params as an array", 1, bdev('{"method": "bdev_malloc_create",\n"params": []}'), "config:3:11: ", "command 0 has as params an array; they must be an object, or absent"),
]

NVME = command("bdev_nvme_attach_controller", '"name": "Nvme0"', '"trtype": "PCIe"', '"traddr": "0000:00:05.0"')
QOS = limits()
ERROR = command("bdev_error_create", '"base_name": "M"')
DELAY = command("bdev_delay_create", '"base_bdev_name": "M"', '"name": "D"', '"avg_read_latency": 5', '"p99_read_latency": 4', '"avg_write_latency": 5', '"p99_write_latency": 5')
COMMANDS = [
    of_command("a method mistyped", 0, -32601, bdev(command("bdev_malloc_creat", '"name": "M"')), "config:2:12: ", "command 0, bdev_malloc_creat 'M'", "isn't served", "bdev_malloc_create is meant"),
    of_command("NVMe and more in a save", 1, -32601, bdev(command("bdev_set_options", '"bdev_auto_examine": true'), NVME, malloc(), QOS, command("bdev_raid_create", '"name": "R"')),
               "config:4:12: command 1, bdev_nvme_attach_controller 'Nvme0'", "config:15:12: command 4, bdev_raid_create 'R'", "served are bdev_malloc_create", "tools/check --served"),
    of_command("num_block for num_blocks", 0, -32602, bdev(command("bdev_malloc_create", '"name": "M"', '"num_block": 64', '"block_size": 512')), "config:4:14: ", "num_blocks is absent", BLOCKS, "'num_block', which is no parameter"),
    of_command("no name", 0, -32602, bdev(command("bdev_malloc_create", '"num_blocks": 64', '"block_size": 512')), "config:2:44: ", "name is absent", NAME),
    of_command("no parameters", 0, -32602, bdev('{"method": "bdev_null_create"}'), "config:2:12: ", "name is absent", "num_blocks is absent", "from 1 to 1099511627776", "block_size is absent", "512 or 4096"),
    of_command("a number as a text", 1, -32602, bdev(malloc(), null(blocks='"64"')), "config:8:15: command 1, bdev_null_create 'N': num_blocks is \"64\"", "a text, not a number"),
    of_command("a block of 1024", 0, -32602, bdev(malloc(size="1024")), "config:5:15: ", "block_size is 1024", "must be 512 or 4096"),
    of_command("a device of 2 GiB", 0, -32602, bdev(malloc(blocks="4194304")), "config:4:15: ", "num_blocks is 4194304", BLOCKS),
    of_command("no block", 0, -32602, bdev(malloc(blocks="0")), "config:4:15: ", "num_blocks is 0", BLOCKS),
    of_command("a null device too large", 0, -32602, bdev(null(blocks="1099511627777")), "config:4:15: ", "num_blocks is 1099511627777", "a whole number from 1 to 1099511627776"),
    of_command("a number with a point", 0, -32602, bdev(malloc(blocks="64.0")), "config:4:15: ", "num_blocks is 64.0", "not a whole number"),
    of_command("below zero", 0, -32602, bdev(malloc(blocks="-64")), "config:4:15: ", "num_blocks is -64", BLOCKS),
    of_command("null", 0, -32602, bdev(malloc('"M"', "64", "512", '"queue_depth": null')), "config:6:16: ", "queue_depth is null", "a whole number from 1 to 1024"),
    of_command("a boundary of 4", 0, -32602, bdev(malloc('"M"', "64", "512", '"optimal_io_boundary": 4')), "config:6:24: ", "optimal_io_boundary is 4", "0, or a whole number of blocks from 8 on"),
    of_command("a boundary of -0", 0, -32602, bdev(malloc('"M"', "64", "512", '"optimal_io_boundary": -0')), "config:6:24: ", "optimal_io_boundary is -0", "not a whole number", "0, or a whole number of blocks from 8 on"),
    of_command("a queue too deep", 0, -32602, bdev(malloc('"M"', "64", "512", '"queue_depth": 2048')), "config:6:16: ", "queue_depth is 2048", "from 1 to 1024"),
    of_command("a name with a space", 0, -32602, bdev(malloc(name='"My disk"')), "config:3:9: ", 'name is "My disk"', "with a space in it", NAME),
    of_command("a name with an umlaut", 0, -32602, bdev(malloc(name='"Plätte"')), "config:3:9: ", "isn't printable ASCII", "'\\xe4'", NAME),
    of_command("an empty name", 0, -32602, bdev(malloc(name='""')), "config:3:9: ", 'name is ""', "empty", NAME),
    of_command("a name of 201", 0, -32602, bdev(malloc(name='"' + "n" * 201 + '"')), "config:3:9: ", "201 characters long", NAME),
    of_command("two parameters at once", 0, -32602, bdev(malloc(blocks="0", size="513")), "config:4:15: ", "num_blocks is 0", "config:5:15: ", "block_size is 513"),
    of_command("65 parts", 1, -32602, bdev(malloc(), split(count="65")), "config:8:16: command 1, bdev_split_create over 'M': split_count is 65", "from 1 to 64"),
    of_command("an empty file name", 0, -32602, bdev(aio(filename='""')), "config:4:13: ", 'filename is ""', BYTES),
    of_command("metadata", 0, -95, bdev(malloc('"M"', "64", "512", '"md_size": 8')), "config:6:12: ", "md_size is 8", "only 0 is served"),
    of_command("metadata of -0", 0, -95, bdev(malloc('"M"', "64", "512", '"md_size": -0')), "config:6:12: ", "md_size is -0", "only 0 is served"),
    of_command("protection", 0, -95, bdev(null('"N"', "64", "512", '"dif_type": 1')), "config:6:13: ", "dif_type is 1", "only 0 is served"),
    of_command("a disk for reading", 0, -95, bdev(aio('"A"', '"disk"', '"readonly": true')), "config:5:13: ", "readonly is true", "only false is served"),
    of_command("a limit for a device that comes later", 0, -19, bdev(QOS, malloc()), "config:3:9: command 0, bdev_set_qos_limit 'M'", "name is 'M'", "command 1, which would make it, comes later"),
    of_command("a limit for a device that waits", 1, -19, bdev(passthru(), limits('"P"'), malloc()), "config:6:9: command 1, bdev_set_qos_limit 'P'", "command 0, which would make it, waits itself"),
    of_command("a limit for no device", 1, -19, bdev(malloc(), limits('"N"')), "config:7:9: command 1, bdev_set_qos_limit 'N'", "no command makes it"),
    of_command("no limit", 1, -32602, bdev(malloc(), command("bdev_set_qos_limit", '"name": "M"')), "config:6:44: command 1, bdev_set_qos_limit 'M'", "no limit is given; one of rw_ios_per_sec, rw_mbytes_per_sec"),
    of_command("too many requests a second", 1, -32602, bdev(malloc(), limits(limit='"rw_ios_per_sec": 1000000001')), "config:8:19: ", "rw_ios_per_sec is 1000000001", "a whole number from 0 to 1000000000"),
    of_command("too many megabytes a second", 1, -32602, bdev(malloc(), limits(limit='"r_mbytes_per_sec": 1000001')), "config:8:21: ", "r_mbytes_per_sec is 1000001", "a whole number from 0 to 1000000"),
    of_command("a delay that is shorter for the hundredth", 1, -22, bdev(malloc(), DELAY), "config:10:21: command 1, bdev_delay_create 'D'", "p99_read_latency is 4", "avg_read_latency, which is 5, or more"),
    of_command("a delay without its latencies", 1, -32602, bdev(malloc(), command("bdev_delay_create", '"base_bdev_name": "M"', '"name": "D"')), "config:6:43: ", "avg_read_latency is absent", "p99_write_latency is absent"),
    of_command("an error for a device that comes later", 0, -19, bdev(inject(), malloc(), ERROR), "config:3:9: command 0, bdev_error_inject_error 'EE_M'", "name is 'EE_M'", "command 2, which would make it, comes later"),
    of_command("an error for a device that waits", 1, -19, bdev(ERROR, inject(), malloc()), "config:5:9: command 1, bdev_error_inject_error 'EE_M'", "command 0, which would make it, waits itself"),
    of_command("an error for no error device", 1, -22, bdev(malloc(), inject('"M"')), "config:7:9: command 1, bdev_error_inject_error 'M'", "it is of kind malloc", "bdev_error_create makes one over it: EE_M"),
    of_command("a type of request that SPDK has", 2, -32602, bdev(malloc(), ERROR, inject(type='"clear"')), "config:10:12: ", 'io_type is "clear"', "'read', 'write', 'write_zeroes', 'unmap', 'flush' or 'all'"),
    of_command("spoilt data of an unmap", 2, -32602, bdev(malloc(), ERROR, inject(type='"unmap"', kind='"corrupt_data"')), "config:10:12: ", 'io_type is "unmap"', "'read', 'write' or 'all'", "no other has data"),
    of_command("two error devices over one base", 2, -17, bdev(malloc(), ERROR, ERROR), "config:9:14: command 2, bdev_error_create over 'M'", "'EE_M' stands already, made by command 1", "base_name is 'M', on which command 1"),
    of_command("an error device over a claimed base", 2, -1, bdev(malloc(), passthru(), ERROR), "config:10:14: command 2, bdev_error_create over 'M'", "base_name is 'M'", "command 1, bdev_passthru_create 'P', stands already", "delay or error device"),
    of_command("a name twice", 1, -17, bdev(malloc(), null(name='"M"')), "config:7:9: command 1, bdev_null_create 'M'", "'M' stands already, made by command 0"),
    of_command("the name of a part", 2, -17, bdev(malloc(), null('"Mp1"'), split()), "config:11:14: command 2, bdev_split_create over 'M'", "'Mp1' stands already, made by command 1"),
    of_command("two over one base", 2, -1, bdev(malloc(), passthru(), passthru('"M"', '"Q"')), "config:10:19: command 2, bdev_passthru_create 'Q'", "base_bdev_name is 'M'", "command 1, bdev_passthru_create 'P', stands already"),
    of_command("two that waited for one base", 1, -1, bdev(passthru(), passthru('"M"', '"Q"'), malloc()), "config:6:19: command 1, bdev_passthru_create 'Q'", "command 0, bdev_passthru_create 'P', stands already"),
    of_command("parts that don't fit", 1, -22, bdev(malloc(), split('"M"', "2", '"split_size_mb": 1')), "config:9:18: ", "split_size_mb is 1", "2048 blocks (1048576 bytes)", "64 blocks of 512 bytes (32768 bytes)", "0 or absent"),
    of_command("parts of 5 MB of 4", 1, -22, bdev(malloc(blocks="8192"), split('"M"', "2", '"split_size_mb": 5')), "config:9:18: ", "split_size_mb is 5", "10240 blocks (5242880 bytes)", "8192 blocks of 512 bytes (4194304 bytes)", "at most 4"),
    of_command("parts without a block", 1, -22, bdev(malloc(blocks="3"), split(count="4")), "config:8:16: ", "split_count is 4", "3 blocks", "at most 3"),
    of_command("more than 1 GiB", 1, -22, bdev(malloc(blocks="2097152"), malloc('"M1"', "1")), "config:8:15: command 1, bdev_malloc_create 'M1'", "num_blocks is 1", "1073742336 bytes", "at most 1073741824", "0 are left"),
    of_command("the 257th device", 256, -22, bdev(*(null('"N%d"' % i) for i in range(257))), "config:1027:9: command 256, bdev_null_create 'N256'", "256 stand already; there are at most 256"),
    of_command("the 65th layer", 64, -22, bdev(null('"P0"'), *(passthru('"P%d"' % i, '"P%d"' % (i + 1)) for i in range(64))), "config:196:19: command 64, bdev_passthru_create 'P64'", "layer 65", "at most 64"),
    of_command("a base that waited and is refused", 0, -22, bdev(split(count="64"), malloc(blocks="8")), "config:4:16: command 0, bdev_split_create over 'M'", "split_count is 64", "8 blocks"),
    of_command("a disk without a block", 0, -22, bdev(aio()), "config:4:13: ", "filename is 'disk'", "a file of 511 bytes", "one block of 512", files={"disk": b"\0" * 511}),
]

FILES = [
    Case("file: CONFIG mistyped", "no file: confg", 3, ("confg: there is no such file in the folder ",), bdev(malloc()), words=("run", "confg", "jobs")),
    Case("file: CONFIG in a folder that there isn't", "no file: saves/config", 3, ("saves/config: the folder 'saves' isn't there",), bdev(malloc()), words=("run", "saves/config", "jobs")),
    Case("file: CONFIG is a folder", "read fault: .", 3, (".: the system says 'Is a directory'", "it is a folder"), bdev(malloc()), words=("run", ".", "jobs")),
    Case("file: JOBS below a file", "read fault: config/jobs", 3, ("config/jobs: the system says 'Not a directory'", "leads through a file"), bdev(malloc()), words=("run", "config", "config/jobs")),
    Case("file: a name too long", "read fault: " + "n" * 256, 3, ("n" * 256 + ": the system says 'File name too long'",), bdev(malloc()), words=("run", "config", "n" * 256)),
    Case("file: JOBS too long", "file too long: jobs", 1, ("jobs: the file has more than 8388608 bytes",), bdev(malloc()), b"#" * 8388609),
    of_file("a disk that isn't there", "no file: disk", bdev(malloc(), aio()), "config:8:13: command 1, bdev_aio_create 'A': filename is 'disk'", "there is no such file"),
    of_file("a link to nothing", "no file: link", bdev(aio(filename='"link"')), "config:4:13: ", "it is a link to 'nowhere', which isn't there", files={"link": ("link", "nowhere")}),
    of_file("a folder as a disk", "read fault: folder", bdev(aio(filename='"folder"')), "config:4:13: ", "filename is 'folder'", "it is a folder", "a disk is a regular file", files={"folder": ("folder",)}),
    of_file("a pipe as a disk", "read fault: pipe", bdev(aio(filename='"pipe"')), "config:4:13: ", "it is a named pipe", "a regular file", files={"pipe": ("pipe",)}),
    of_file("/dev/null as a disk", "read fault: /dev/null", bdev(aio(filename='"/dev/null"')), "config:4:13: ", "it is a character device", "a regular file"),
    of_file("a disk that may not be written", "read fault: /proc/sys/kernel/ostype", bdev(aio(filename='"/proc/sys/kernel/ostype"')), "config:4:13: ", "the system says 'Permission denied'", "may not"),
    of_file("links in a ring", "read fault: ring", bdev(aio(filename='"ring"')), "config:4:13: ", "filename is 'ring'", "the system says 'Too many levels of symbolic links'", files={"ring": ("link", "ring")}),
    of_file("too many disks", "read fault: disk", bdev(*(aio('"A%d"' % i) for i in range(40))), "the system says 'Too many open files'", "ulimit -n", files={"disk": b"\0" * 512}, limits=30, more=13),
]

SCRIPTS = [
    of_script("a command mistyped", 1, "0 opne h M w\n", "jobs:1:3: 'opne' is no command", "'open' is meant", "open, close, claim", "0 opne h M w\n      ^"),
    of_script("a capital letter", 2, "0 open h M w\n0 READ h 0 1\n", "jobs:2:3: 'READ' is no command", "'read' is meant"),
    of_script("the thread forgotten", 1, "open h M w\n", "jobs:1:1: the thread's number is missing", "'0 open'"),
    of_script("a thread without --threads", 2, "0 wait\n1 open h M w\n", "jobs:2:1: the thread's number is 1", "there is one thread, 0", "--threads 2"),
    of_script("a thread past --threads", 1, "5 wait\n", "jobs:1:1: the thread's number is 5", "there are 2 threads, 0 to 1", "--threads 6", threads=2),
    of_script("thread 16", 1, "16 wait\n", "jobs:1:1: the thread's number is 16", "from 0 to 15", threads=16),
    of_script("mode rw", 1, "0 open h M rw\n", "jobs:1:12: MODE is 'rw'", "r (reading) or w"),
    of_script("the mode forgotten", 1, "0 open h M\n", "jobs:1:11: MODE is missing", "open HANDLE DEVICE MODE"),
    of_script("the seed forgotten", 2, "0 open h M w\n0 write h 0 1\n", "jobs:2:14: SEED is missing", "write HANDLE LBA COUNT SEED", "SEED is a number"),
    of_script("hexadecimal", 2, "0 open h M w\n0 read h 0x10 1\n", "jobs:2:10: LBA is '0x10'", "decimal: 16", "from 0 to 18446744073709551615"),
    of_script("a unit", 2, "0 open h M w\n0 read h 0 4k\n", "jobs:2:12: COUNT is '4k'", "no unit"),
    of_script("a leading zero", 1, "0 read h 00 1\n", "jobs:1:10: LBA is '00'", "no leading zero"),
    of_script("below zero", 1, "0 read h -1 1\n", "jobs:1:10: LBA is '-1'", "isn't below 0"),
    of_script("a number past 64 bits", 1, "0 read h 18446744073709551616 1\n", "jobs:1:10: LBA is '18446744073709551616'", "at most 18446744073709551615"),
    of_script("a comment after a command", 3, "# so far good\n0 open h M w\n0 close h # closed\n", "jobs:3:11: '#' stands after the command", "close HANDLE", "a comment has a line of its own"),
    of_script("a word too many", 1, "0 wait now\n", "jobs:1:8: 'now' stands after the command", "'wait'"),
    of_script("a handle with a slash", 1, "0 open a/b M w\n", "jobs:1:8: HANDLE has 1 to 32 characters", "'a/b'"),
    of_script("a handle of 33", 1, "0 close %s\n" % ("h" * 33), "jobs:1:9: HANDLE has 1 to 32 characters", "33 bytes long"),
    of_script("a device of 256", 1, "0 remove %s\n" % ("M" * 256), "jobs:1:10: DEVICE has 1 to 255", "256 bytes long"),
    of_script("a claim of no kind", 1, "0 claim h both\n", "jobs:1:11: KIND is 'both'", "exclusive, one, none or shared KEY"),
    of_script("a shared claim without a key", 1, "0 claim h shared\n", "jobs:1:17: KEY is missing", "claim HANDLE KIND KEY"),
    of_script("an abort without a line", 2, "0 open h M w\n0 abort h\n", "jobs:2:10: LINE is missing", "abort HANDLE LINE"),
    of_script("a sleep without its time", 1, "0 sleep\n", "jobs:1:8: MICROS is missing", "sleep MICROS"),
    of_script("a resize without its blocks", 2, "# so far good\n0 resize M\n", "jobs:2:11: BLOCKS is missing", "resize DEVICE BLOCKS", "BLOCKS is a number"),
    of_script("a resize with a unit", 1, "0 resize M 64k\n", "jobs:1:12: BLOCKS is '64k'", "no unit"),
    of_script("a wait for a size of a device's", 1, "0 sized M:0 64\n", "jobs:1:9: HANDLE has 1 to 32 characters", "'M:0'"),
    of_script("a reset with a time that is no number", 2, "0 open h M w\n0 reset h soon\n", "jobs:2:11: MICROS is 'soon'"),
    of_script("a reset with two times", 2, "0 open h M w\n0 reset h 1 1\n", "jobs:2:13: '1' stands after the command", "reset HANDLE MICROS"),
    of_script("abort of a line that submits nothing", 2, "0 open h M w\n0 abort h 1\n", "jobs:2:11: LINE is 1", "an earlier line of thread 0"),
    of_script("a slip after a reset", 2, "0 reset h\n0 clsoe h\n", "jobs:2:3: 'clsoe' is no command", "'close' is meant"),
    of_script("cut off", 2, "0 open h M w\n0", "jobs:2:2: the line ends after the thread's number"),
    of_script("a byte order mark", 1, "\ufeff0 wait\n", "jobs:1:1: the file begins with a byte order mark"),
    of_script("ends of lines of an old Macintosh", 1, "0 wait\r0 wait\r", "jobs:1:3: 'wait\\r0' is no command"),
    of_script("20,001 lines", 20001, "# one\n" * 20001, "jobs:20001:1: the script has 20001 lines", "at most 20000"),
    of_script("the configuration in its place", 1, bdev(malloc()), "jobs:1:1: this is a configuration", "the script comes after it", more=5),
    of_script("four slips", 1, "0 wiat\n0 read h\n0 close\n0 post\n", "jobs:1:3: 'wiat' is no command", more=3),
]

WORDS = [
    of_words("none", [], "there are no words", "run, exercise, generate, --help or --version"),
    of_words("-h", "-h", "'-h' stands for help", "'bdevrun --help' prints it"),
    of_words("help", "help", "'help' stands for help", "--help"),
    of_words("run --help", "run --help", "'--help' stands for help", "with no other word"),
    of_words("-V", "-V", "'-V' stands for the version", "--version"),
    of_words("--help with more", "--help run", "--help stands alone", "'run' stands after it"),
    of_words("JOBS forgotten", "run config", "JOBS, the name of the script, is missing", "run CONFIG JOBS"),
    of_words("no file", "run", "CONFIG and JOBS", "missing"),
    of_words("options first", "run --threads 2 config jobs", "'--threads' stands before the files", "bdevrun run config jobs --threads 2"),
    of_words("an option between", "run config --reactors 2 jobs", "'--reactors' stands before the files", "bdevrun run config jobs --reactors 2"),
    of_words("--threads=2", "run config jobs --threads=2", "'--threads=2' has its number after a space", "--threads 2"),
    of_words("17 threads", "run config jobs --threads 17", "--threads is '17'", "from 1 to 16"),
    of_words("no thread", "run config jobs --threads 0", "--threads is '0'", "from 1 to 16"),
    of_words("9 reactors", "run config jobs --reactors 9", "--reactors is '9'", "from 1 to 8"),
    of_words("a schedule past 64 bits", "run config jobs --schedule 18446744073709551616", "--schedule is '18446744073709551616'", "from 0 to 18446744073709551615"),
    of_words("reactors and a schedule", "run config jobs --reactors 2 --schedule 1", "--reactors and --schedule don't stand beside each other"),
    of_words("an option twice", "run config jobs --threads 2 --threads 2", "--threads stands twice"),
    of_words("no number", "run config jobs --threads", "the number after --threads is missing", "from 1 to 16"),
    of_words("an option mistyped", "run config jobs --thread 2", "'--thread' is no option", "'--threads' is meant"),
    of_words("an option that there isn't", "run config jobs --seed 2", "'--seed' is no option", "--threads, --reactors and --schedule"),
    of_words("standard input", "run - jobs", "CONFIG is '-'", "/dev/stdin"),
    of_words("a name that begins with -", "run config -jobs", "JOBS is '-jobs'", "./-jobs"),
    of_words("an empty name", ["run", "", "jobs"], "CONFIG is empty", "the name of a file"),
    of_words("a third file", "run config jobs more", "'more' is one word too many", "run CONFIG JOBS"),
    of_words("run forgotten", "config jobs", "the first word is 'config'", "'run' is missing"),
    of_words("run mistyped", "rnu config jobs", "the first word is 'rnu'"),
    of_words("exercise 501", "exercise 501", "N of exercise is '501'", "from 1 to 500"),
    of_words("exercise alone", "exercise", "from 1 to 500"),
    of_words("generate with reactors", "generate 5 --reactors 2", "--reactors is no option of generate", "--threads"),
    of_words("generate 08", "generate 08", "N of generate is '08'", "from 1 to 500"),
    of_words("an option before", "--threads 2 run config jobs", "'--threads' stands before run", "options come last"),
    of_words("a name that isn't UTF-8", ["run", "conf\udce9g", "jobs"], "word 2, 'conf\\xe9g', isn't UTF-8"),
]

CASES = TEXTS + SHAPES + COMMANDS + FILES + SCRIPTS + WORDS
