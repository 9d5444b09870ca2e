"""What tools/with-reason has to do beside the program's own work: each trial says what is wrong, or nothing.

The programs that it runs here are small scripts, but where the line and its reason have to be those of a real fault.
"""

import os
import pty
import signal
import subprocess
import tempfile
import termios
import time

TOP = os.path.dirname(os.path.dirname(os.path.dirname(os.path.realpath(__file__))))
WITH_REASON = os.path.join(TOP, "tools", "with-reason")
CONFIG = '{"subsystems": [{"subsystem": "bdev", "config": [\n{"method": "bdev_malloc_create", "params": {"name": "M", "num_blocks": 8, "block_size": 512}}]}]}'
SECONDS = 60


def played(room, script, *words, **more):
    """How with-reason ends over a program that is this shell script."""
    path = os.path.join(room, "program")
    with open(path, "w", encoding="utf-8") as file:
        file.write("#!/bin/sh\n" + script)
    os.chmod(path, 0o755)
    return run(room, path, *words, **more)


def run(room, program, *words, **more):
    streams = {"stdin": subprocess.DEVNULL, "stdout": subprocess.PIPE, "stderr": subprocess.PIPE, **more}
    done = subprocess.run([WITH_REASON, program, *words], cwd=room, timeout=SECONDS, **streams)
    return done.returncode, done.stdout, done.stderr


def differs(found, wanted):
    return None if found == wanted else "it ends with %r, not with %r" % (found, wanted)


def is_silent_at_success(program, room):
    return differs(played(room, "echo report; echo more"), (0, b"report\nmore\n", b""))


def hands_on_input(program, room):
    with open(os.path.join(room, "input"), "w+b") as file:
        file.write(b"from a file\n")
        file.seek(0)
        return differs(played(room, "cat", stdin=file), (0, b"from a file\n", b""))


def keeps_words(program, room):
    return differs(played(room, 'printf "%s|" "$@"', "", "a b", "*", "\\", "ü"), (0, "|a b|*|\\|ü|".encode(), b""))


def keeps_bytes(program, room):
    return differs(played(room, "printf 'no file: a\\0b\\nc\\n' >&2; exit 3"), (3, b"", b"no file: a\0b\nc\n"))


def opens_no_more(program, room):
    """The program has just the files open that a shell without it would have."""
    found = played(room, "exec ls /proc/self/fd")
    plain = subprocess.run([os.path.join(room, "program")], capture_output=True, stdin=subprocess.DEVNULL, timeout=SECONDS)
    return differs(found, (0, plain.stdout, b""))


def ends_as_killed(program, room):
    return differs(played(room, "kill -KILL $$"), (-signal.SIGKILL, b"", b""))


def lay_out(room, jobs):
    for name, text in (("config", CONFIG), ("jobs", jobs)):
        with open(os.path.join(room, name), "w", encoding="utf-8") as file:
            file.write(text)


def says_why(program, room):
    lay_out(room, "0 open h M rw\n")
    status, out, err = run(room, program, "run", "config", "jobs")
    lines = err.decode().splitlines()
    if (status, out, lines[:1]) != (1, b"", ["script line 1"]):
        return "it ends with %d and %r" % (status, lines)
    return None if lines[1:] and lines[1].startswith("jobs:1:12: MODE is 'rw'") else "the reason is %r" % lines[1:]


def runs_it_alone(program, room):
    lay_out(room, "0 open h M rw\n")
    return differs(run(room, program, "run", "config", "jobs", env={**os.environ, "BDEVRUN_REASONS": "no"}), (1, b"", b"script line 1\n"))


def says_of_full_output(program, room):
    lay_out(room, "0 wait\n")
    with open("/dev/full", "wb") as full:
        status, _, err = run(room, program, "run", "config", "jobs", stdout=full)
    return None if status == 3 and err.startswith(b"write fault\nstandard output took no more bytes") else "it ends with %d and %r" % (status, err)


def says_of_pipe(program, room):
    lay_out(room, "0 open h M rw\n")
    done = subprocess.run(["bash", "-c", '"$@" <(cat config) <(cat jobs)', "bash", WITH_REASON, program, "run"], cwd=room, capture_output=True, timeout=SECONDS)
    lines = done.stderr.decode().splitlines()
    return None if done.returncode == 1 and lines[0] == "script line 1" and "can be read once" in lines[1] else "it ends with %d and %r" % (done.returncode, lines)


def has_no_error_output(program, room):
    lay_out(room, "0 open h M rw\n")
    done = subprocess.run(["bash", "-c", '"$@" 2>&-', "bash", WITH_REASON, program, "run", "config", "jobs"], cwd=room, capture_output=True, timeout=SECONDS)
    return differs((done.returncode, done.stdout, done.stderr), (1, b"", b""))


def is_there(pid):
    try:
        with open("/proc/%d/stat" % pid, encoding="utf-8") as file:
            return file.read().rpartition(")")[2].split()[0] != "Z"
    except OSError:
        return False


def ends_by(number, wanted):
    """A trial of a signal to with-reason alone: it ends, and the program with it."""

    def trial(program, room):
        path = os.path.join(room, "program")
        with open(path, "w", encoding="utf-8") as file:
            file.write("#!/bin/sh\necho $$ >started\nexec sleep 1000\n")
        os.chmod(path, 0o755)
        begun = subprocess.Popen([WITH_REASON, path], cwd=room, stdin=subprocess.DEVNULL, stdout=subprocess.PIPE, stderr=subprocess.PIPE)
        started = os.path.join(room, "started")
        until = time.monotonic() + SECONDS
        while (not os.path.exists(started) or not os.path.getsize(started)) and time.monotonic() < until:
            time.sleep(0.01)
        with open(started, encoding="utf-8") as file:
            pid = int(file.read())
        begun.send_signal(number)
        out, err = begun.communicate(timeout=SECONDS)
        if (begun.returncode, out, err) != (wanted, b"", b""):
            return "it ends with %d, %r and %r" % (begun.returncode, out, err)
        until = time.monotonic() + 5
        while is_there(pid) and time.monotonic() < until:
            time.sleep(0.01)
        return "the program goes on" if is_there(pid) else None

    return trial


def on_terminal(room, script, out_too):
    """What a terminal shows as standard error, and as standard output too, and the status."""
    path = os.path.join(room, "program")
    with open(path, "w", encoding="utf-8") as file:
        file.write("#!/bin/sh\n" + script)
    os.chmod(path, 0o755)
    shown, terminal = pty.openpty()
    attributes = termios.tcgetattr(terminal)
    attributes[1] &= ~termios.OPOST
    termios.tcsetattr(terminal, termios.TCSANOW, attributes)
    begun = subprocess.Popen([WITH_REASON, path], cwd=room, stdin=subprocess.DEVNULL, stdout=terminal if out_too else subprocess.DEVNULL, stderr=terminal)
    os.close(terminal)
    found = b""
    while True:
        try:
            piece = os.read(shown, 65536)
        except OSError:
            break
        if not piece:
            break
        found += piece
    os.close(shown)
    return begun.wait(SECONDS), found


def screen(shown):
    """The lines that stand on a screen in the end."""
    lines, column = [""], 0
    text = shown.decode().replace("\x1b[K", "\x00")
    for each in text:
        if each == "\n":
            lines.append("")
            column = 0
        elif each == "\r":
            column = 0
        elif each == "\x00":
            lines[-1] = lines[-1][:column]
        else:
            lines[-1] = lines[-1][:column].ljust(column) + each + lines[-1][column + 1 :]
            column += 1
    return lines


def says_that_it_runs(program, room):
    status, shown = on_terminal(room, "sleep 4; echo job 1 0 open ok; echo end", True)
    if status or b"running 2 s\r" not in shown:
        return "it ends with %d and %r" % (status, shown)
    return differs(screen(shown), ["job 1 0 open ok", "end", ""])


def is_erased_before_a_fault(program, room):
    status, shown = on_terminal(room, "sleep 4; echo out of memory >&2; exit 4", False)
    if status != 4 or b"running 2 s\r" not in shown:
        return "it ends with %d and %r" % (status, shown)
    lines = screen(shown)
    return None if lines[0] == "out of memory" and lines[1].startswith("there was no memory left") else "the screen has %r" % lines


def is_silent_at_once(program, room):
    return differs(on_terminal(room, "echo report", True), (0, b"report\n"))


def is_silent_in_a_pipe(program, room):
    return differs(played(room, "sleep 4; echo report"), (0, b"report\n", b""))


TRIALS = {
    "prints nothing where a run succeeds": is_silent_at_success,
    "hands standard input on": hands_on_input,
    "hands words on": keeps_words,
    "keeps the bytes of a fault's line": keeps_bytes,
    "leaves the program its open files": opens_no_more,
    "ends as the program is killed": ends_as_killed,
    "says why below the line": says_why,
    "says nothing where it isn't wanted": runs_it_alone,
    "says why output failed": says_of_full_output,
    "says that a pipe can be read once": says_of_pipe,
    "keeps the status without standard error": has_no_error_output,
    "ends at SIGTERM": ends_by(signal.SIGTERM, -signal.SIGTERM),
    "ends at SIGINT": ends_by(signal.SIGINT, -signal.SIGINT),
    "ends at SIGHUP": ends_by(signal.SIGHUP, -signal.SIGHUP),
    # A shell can't end by SIGQUIT itself.
    "ends at SIGQUIT": ends_by(signal.SIGQUIT, 128 + signal.SIGQUIT),
    "ends at SIGKILL": ends_by(signal.SIGKILL, -signal.SIGKILL),
    "says on a terminal that a run goes on": says_that_it_runs,
    "erases that before a fault's line": is_erased_before_a_fault,
    "says nothing on a terminal where a run is short": is_silent_at_once,
    "says nothing in a pipe": is_silent_in_a_pipe,
}


def trial(name, program):
    """What is wrong with the trial of this name."""
    with tempfile.TemporaryDirectory() as room:
        try:
            return TRIALS[name](program, room)
        except (OSError, ValueError, subprocess.TimeoutExpired) as error:
            return "it gives no answer: %s" % error
