"""place: checks install and uninstall, in a folder with copies of what they install and a program that stands in for the
proved one."""

import os
import shutil
import stat
import subprocess

from harness import TOP, run

PLACES = {
    "docs/bdevrun.1": "share/man/man1/bdevrun.1",
    "completions/bdevrun.bash": "share/bash-completion/completions/bdevrun",
    "docs/FORMATS.md": "share/doc/bdevrun/FORMATS.md",
    "docs/TRACE.md": "share/doc/bdevrun/TRACE.md",
    "tools/installed": "bin/bdevrun",
    "tools/with-reason": "lib/bdevrun/with-reason",
    "tools/reasons": "lib/bdevrun/reasons",
    "tools/check": "lib/bdevrun/check",
}
LIST = "share/doc/bdevrun/installed"


def files_in(folder):
    """Each file below the folder with its content."""
    found = {}
    for place, _, names in os.walk(folder):
        for name in names:
            with open(f"{place}/{name}", "rb") as it:
                found[os.path.relpath(f"{place}/{name}", folder)] = it.read()
    return found


def folders_in(folder):
    return sorted(os.path.relpath(place, folder) for place, _, _ in os.walk(folder) if place != folder)


def set_up(top):
    """A repository as install sees it, without a program."""
    for name in ("examples", "completions", "tools"):
        shutil.copytree(f"{TOP}/{name}", f"{top}/{name}", ignore=shutil.ignore_patterns("*.img", "__pycache__"))
    for name in ("crates/bdevrun/src", "crates/bdevrun/specs", "crates/bdevrun/proofs", "crates/bdevrun/out", "crates/bdevtrace/out", "docs"):
        os.makedirs(f"{top}/{name}")
    for name in ("install", "uninstall", "crates.txt", "docs/bdevrun.1", "docs/FORMATS.md", "docs/TRACE.md"):
        shutil.copy(f"{TOP}/{name}", f"{top}/{name}")
    for name in ("src", "specs", "proofs"):
        with open(f"{top}/crates/bdevrun/{name}/file", "w", encoding="utf-8") as it:
            it.write("\n")
    with open(f"{top}/examples/disk/disk.img", "w", encoding="utf-8") as it:
        it.write("a disk\n")


def build(top, words="one", names=("bdevrun", "bdevtrace")):
    """What ./build leaves: each program, and the note of what it was made of."""
    contents = run(f"{top}/tools/executable", "--contents")[1].strip()
    for name in names:
        program = f"{top}/crates/{name}/out/{name}"
        with open(program, "w", encoding="utf-8") as it:
            it.write(f'#!/bin/sh\n[ "$1" != run ] || {{ echo "no file: $2" >&2; exit 3; }}\necho {words}\n')
        os.chmod(program, 0o755)
        subprocess.run([f"{top}/tools/executable", "--of", name, "--proved", contents], check=True)


class Place:
    def __init__(self, checks, top, room, prefix="/opt/b r"):
        self.checks, self.top, self.room, self.root = checks, top, room, room + prefix
        self.environment = {**os.environ, "DESTDIR": room, "PREFIX": prefix}

    def act(self, words, status, said, name):
        """Runs install or uninstall, from another folder."""
        word, *more = words.split()
        ended, out, err = run(f"{self.top}/{word}", *more, folder="/", env=self.environment)
        self.checks.that(ended == status and said in err and not out, f"{name}: {words} ended with {ended}, {err!r:.300}")


def wanted_files(top):
    wanted = {place: files_in(f"{top}/{os.path.dirname(name)}")[os.path.basename(name)] for name, place in PLACES.items()}
    wanted["lib/bdevrun/bdevrun"] = files_in(f"{top}/crates/bdevrun/out")["bdevrun"]
    wanted["bin/bdevtrace"] = files_in(f"{top}/crates/bdevtrace/out")["bdevtrace"]
    wanted.update({f"lib/bdevrun/checking/{name}": text for name, text in files_in(f"{top}/tools/checking").items()})
    examples = files_in(f"{top}/examples")
    wanted.update({f"share/doc/bdevrun/examples/{name}": text for name, text in examples.items() if not name.endswith(".img")})
    return wanted


def check_place(checks, room):
    top, away = f"{room}/top", f"{room}/away"
    os.makedirs(top)
    os.makedirs(away)
    set_up(top)
    place = Place(checks, top, away)
    place.act("install", 1, "there is no proved program of these sources: ./build", "without a program")
    checks.equal(os.listdir(away), [], "an install without a program leaves nothing")
    build(top, names=("bdevrun",))
    place.act("install", 1, "there is no proved program of these sources: ./build", "without bdevtrace")
    checks.equal(os.listdir(away), [], "an install without bdevtrace leaves nothing")
    build(top)
    place.act("install", 0, f"are in {place.root}", "install")
    files = files_in(place.root)
    listed = files.pop(LIST, b"").decode()
    wanted = wanted_files(top)
    checks.equal(files, wanted, "what is installed")
    checks.equal(run("sha256sum", "-c", "--quiet", "--strict", given="".join(it + "\n" for it in listed.splitlines() if not it.startswith("folder")), folder=place.root), (0, "", ""), "the list, by sha256sum")
    checks.equal(run(f"{place.root}/bin/bdevrun", "--version"), (0, "one\n", ""), "the installed program")
    checks.equal(run(f"{place.root}/bin/bdevtrace", "--version"), (0, "one\n", ""), "the installed bdevtrace")
    os.symlink(f"{place.root}/bin/bdevrun", f"{room}/called")
    status, out, err = run(f"{room}/called", "run", "absent.json", "/dev/null", folder=room)
    first, _, reason = err.partition("\n")
    checks.that((status, out, first) == (3, "", "no file: absent.json") and "absent.json" in reason, f"the installed program's fault: {status}, {err!r}")
    status, out, err = run(f"{room}/called", "run", "absent.json", "/dev/null", folder=room, env={**os.environ, "BDEVRUN_REASONS": "no"})
    checks.equal((status, out, err), (3, "", "no file: absent.json\n"), "the same without a reason")
    mode = lambda name: oct(stat.S_IMODE(os.stat(f"{place.root}/{name}").st_mode))
    checks.equal([mode("lib/bdevrun/bdevrun"), mode("share/man/man1/bdevrun.1"), mode("share/doc/bdevrun/examples/disk/make-disk")], ["0o755", "0o644", "0o755"], "modes")

    # Again, with a newer program and an example that is no more.
    build(top, "two")
    shutil.rmtree(f"{top}/examples/claims")
    place.act("install", 0, f"are in {place.root}", "install again")
    files = files_in(place.root)
    files.pop(LIST)
    checks.equal(files, wanted_files(top), "what is installed again")

    # Sources that changed since the proof: nothing is installed.
    with open(f"{top}/crates/bdevrun/proofs/file", "a", encoding="utf-8") as it:
        it.write("-- more\n")
    place.act("install", 1, "there is no proved program", "with other sources")
    build(top, "two")

    # What others put there stays, and so do their folders.
    with open(f"{place.root}/share/man/man1/other.1", "w", encoding="utf-8") as it:
        it.write("another\n")
    place.act("uninstall", 0, "files taken away", "uninstall")
    checks.equal(files_in(place.root), {"share/man/man1/other.1": b"another\n"}, "what uninstall leaves")
    checks.equal(folders_in(place.root), ["share", "share/man", "share/man/man1"], "the folders that uninstall leaves")
    place.act("uninstall", 1, "nothing was installed here", "uninstall again")

    # A file that somebody put in the way isn't overwritten, and one that was changed isn't taken away.
    os.makedirs(f"{place.root}/bin")
    with open(f"{place.root}/bin/bdevrun", "w", encoding="utf-8") as it:
        it.write("mine\n")
    before = files_in(away)
    place.act("install", 1, "isn't what an install left; nothing was changed", "a file in the way")
    checks.equal(files_in(away), before, "what is there after a refusal")
    os.remove(f"{place.root}/bin/bdevrun")
    place.act("install --uninstall", 1, "nothing was installed here", "uninstall of nothing")
    place.act("install", 0, "are in", "install a third time")
    with open(f"{place.root}/share/man/man1/bdevrun.1", "a", encoding="utf-8") as it:
        it.write("my note\n")
    place.act("install --uninstall", 1, "bdevrun.1 isn't as it was installed, and stays", "a changed file")
    checks.equal(sorted(files_in(place.root)), sorted([LIST, "share/man/man1/bdevrun.1", "share/man/man1/other.1"]), "what is left of a changed file")
    os.remove(f"{place.root}/share/man/man1/bdevrun.1")
    place.act("uninstall", 0, "0 files taken away", "uninstall once it is gone")
    checks.equal(folders_in(place.root), ["bin", "share", "share/man", "share/man/man1"], "the folder that was there before stays")

    # A place that can't be written, and words.
    with open(f"{away}/file", "w", encoding="utf-8") as it:
        it.write("")
    Place(checks, top, away, "/file").act("install", 3, "can't be made", "a place below a file")
    place.environment["PREFIX"] = "here"
    place.act("install", 2, "has to be an absolute path", "a relative PREFIX")
    place.environment["PREFIX"] = "/"
    place.act("install --all", 2, "./install --uninstall", "other words")
    for name in ("install", "uninstall"):
        ended, out, _ = run(f"{top}/{name}", "--help")
        checks.that(ended == 0 and "PREFIX" in out and "set -u" not in out, f"{name} --help")
    ended, out, _ = run(f"{top}/install", "--list", env={**os.environ, "PREFIX": "/usr", "DESTDIR": ""})
    checks.that(ended == 0 and "docs/bdevrun.1 -> /usr/share/man/man1/bdevrun.1\n" in out, "install --list")


def all_checks(checks, room):
    if os.access(f"{TOP}/tools/executable", os.X_OK):
        check_place(checks, room)
    else:
        checks.skip("tools/executable isn't there: install and uninstall are not tried")
