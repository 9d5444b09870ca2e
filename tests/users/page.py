"""page: checks the manual page against docs/FORMATS.md and the program, and the completions of bash."""

import os
import re

from harness import TOP, program, read, run, there, write

PAGE = "docs/bdevrun.1"
SECTIONS = "NAME SYNOPSIS DESCRIPTION CONFIGURATION SCRIPT REPORT ENVIRONMENT FILES EXIT EXAMPLES LIMITS SEE".split()


def plain(text):
    """The page's text without its macros."""
    lines = []
    for line in text.splitlines():
        if line.startswith('.\\"'):
            continue
        if line.startswith("."):
            line = re.sub(r'^\.\w+ ?|\b(Ar|Li|Cm|Fl|Er|Op|Pa|Sq|Nm) ', "", line)
        lines.append(line.replace("\\&", "").replace("\\ ", " "))
    return " ".join(lines)


def rows(formats, head, place=0):
    """The rows of the table whose line of heads begins so; of several the one at this place."""
    lines = [it.strip() for it in formats.splitlines()]
    at = [number for number, line in enumerate(lines) if line.startswith(head)][place] + 2
    while lines[at].startswith("|"):
        yield lines[at]
        at += 1


def check_page(checks, room):
    page, formats = read(PAGE), read("docs/FORMATS.md")
    text = plain(page)
    if there("mandoc"):
        checks.equal(run("mandoc", "-Tlint", PAGE), (0, "", ""), "mandoc -Tlint")
        status, out, _ = run("mandoc", "-Tascii", PAGE)
        checks.that(status == 0 and "BDEVRUN(1)" in out, "mandoc -Tascii")
    else:
        checks.skip("mandoc isn't there: the page is not checked by it")
    checks.equal([it.split()[0] for it in re.findall(r"(?m)^\.Sh (.+)", page)], SECTIONS, "the sections")
    # Each name of the formats stands on the page.
    names = set()
    for row in rows(formats, "| method | today"):
        names |= set(re.findall(r"`([a-z_]+)`", row.split("|")[1]))
    for head, place in (("| parameter | is | without it", 0), ("| parameter | is | without it", 1), ("| method | parameter | is", 0)):
        for row in rows(formats, head, place):
            names |= set(re.findall(r"`([a-z_]+)`", " ".join(row.split("|")[1:3])))
    for row in rows(formats, "| command | does"):
        name, *words = re.findall(r"`([^`]+)`", row)[0].split()
        checks.that(re.search(rf"(?m)^\.It Cm {name}\b", page), f"{PAGE}: the command {name} is missing")
        for word in words:
            checks.that(word.lower() in page, f"{PAGE}: {word} of {name} is missing")
    for row in rows(formats, "| option | N is"):
        name = re.findall(r"`--([a-z]+)", row)[0]
        checks.that(f".It Fl -{name} Ar n\n" in page, f"{PAGE}: --{name} is missing")
    for row in rows(formats, "| errno | name"):
        number, name = [it.strip() for it in row.split("|")[1:3]]
        names.add(f"{number} {name}")
    for row in rows(formats, "| result | of"):
        names |= set(re.findall(r"[a-z]{3,}\d*|sha256", re.findall(r"`([^`]+)`", row)[0]))
    for row in rows(formats, "| line | status"):
        line, status = re.findall(r"`([^`]+)`", row)[0], row.split("|")[2].strip()
        names.add(re.split(r"\b(?:NAME|N|0|bdevrun)\b", line)[0].strip())
        checks.that(re.search(rf"(?m)^\.It {status}$", page), f"{PAGE}: no exit status {status}")
    for row in rows(formats, "| code | where"):
        names.add(row.split("|")[1].strip())
    names |= {"malloc", "null", "aio", "passthru", "part", "reset", "abort", "sleep", "exclusive", "one", "none", "shared"}
    checks.that(len(names) > 60, f"only {len(names)} names were found in docs/FORMATS.md")
    for name in sorted(names):
        checks.that(re.search(rf"(?<![\w-]){re.escape(name)}(?!\w)", text), f"{PAGE}: {name} is missing")
    # Each limit of the page is one of the formats.
    known = formats.replace(",", "") + " 2^40 2^64 1 GiB " + " ".join(str(2**it) for it in (40, 64))
    for number in re.findall(r"(?<![\w^-])\d{2,}(?![\w^])", text[text.index("DESCRIPTION") : text.index("EXAMPLES")] + text[text.index("LIMITS") :]):
        checks.that(re.search(rf"(?<!\d){number}(?!\d)", known), f"{PAGE}: {number} isn't in docs/FORMATS.md")
    check_words(checks, page)
    check_example(checks, page, room)


def check_words(checks, page):
    """Its synopsis is what the program's help and usage line say."""
    synopsis = page[page.index(".Sh SYNOPSIS") : page.index(".Sh DESCRIPTION")]
    forms = []
    for form in synopsis.split("\n.Nm\n")[1:]:
        words = " ".join(it.replace(".Op ", ".[ ") + (" ]" if it.startswith(".Op") else "") for it in form.splitlines())
        words = re.sub(r"\.?\b(Cm|Ar) |\.", "", words).replace("Fl -", "--").replace("[ ", "[").replace(" ]", "]")
        forms.append(re.sub(r"\b(config|jobs|n)\b", lambda it: it[1].upper(), words))
    status, out, _ = program("--help")
    shown = [" ".join(re.split(r"  +", it.replace("usage:", "").replace("bdevrun", "", 1).strip())[:1]) for it in out.splitlines() if re.match(r"(usage:| {6}) bdevrun", it)]
    checks.equal((status, forms), (0, shown), "the synopsis, and the program's help")


def check_example(checks, page, room):
    """Its first example, run as it stands there."""
    block = page[page.index(".Bd -literal") :]
    block = block[block.index("\n") + 1 : block.index(".Ed")]
    texts, command = {}, None
    for line in block.splitlines():
        if line.startswith("$ "):
            command = line[2:]
            texts[command] = ""
        else:
            texts[command] += line + "\n"
    commands = list(texts)
    write(f"{room}/config.json", texts[commands[0]])
    write(f"{room}/jobs.txt", texts[commands[1]])
    status, out, _ = program("run", "config.json", "jobs.txt", folder=room)
    checks.equal(commands, ["cat config.json", "cat jobs.txt", "bdevrun run config.json jobs.txt | sed -n 4p"], "the page's example")
    checks.equal((status, out.splitlines(True)[3]), (0, texts[commands[2]]), "what the page's example prints")


# What stands on the command line, the last word unfinished, and what may come.
COMPLETIONS = [
    ("bdevrun ''", "--help --version exercise generate run"),
    ("bdevrun e", "exercise"),
    ("bdevrun --v", "--version"),
    ("bdevrun x", ""),
    ("bdevrun run c", "config.json"),
    ("bdevrun run ''", "config.json jobs.txt"),
    ("bdevrun run config.json j", "jobs.txt"),
    ("bdevrun run config.json jobs.txt ''", "--reactors --schedule --threads"),
    ("bdevrun run config.json jobs.txt --t", "--threads"),
    ("bdevrun run config.json jobs.txt --threads 1", "1 10 11 12 13 14 15 16"),
    ("bdevrun run config.json jobs.txt --threads 2 ''", "--reactors --schedule"),
    ("bdevrun run config.json jobs.txt --reactors ''", "1 2 3 4 5 6 7 8"),
    ("bdevrun run config.json jobs.txt --reactors 2 ''", "--threads"),
    ("bdevrun run config.json jobs.txt --schedule ''", ""),
    ("bdevrun run config.json jobs.txt --schedule 7 ''", "--threads"),
    ("bdevrun run config.json jobs.txt --threads 2 --reactors 2 ''", ""),
    ("bdevrun exercise ''", ""),
    ("bdevrun exercise 8 ''", "--reactors --schedule --threads"),
    ("bdevrun generate 8 ''", "--threads"),
    ("bdevrun generate 8 --threads 4 ''", ""),
    ("bdevrun --help ''", ""),
]


def check_completions(checks, room):
    write(f"{room}/config.json", "")
    write(f"{room}/jobs.txt", "")
    script = f"""
source {TOP}/completions/bdevrun.bash
complete -p bdevrun >&2
for words in "$@"; do
  eval "COMP_WORDS=($words)"
  COMP_CWORD=$((${{#COMP_WORDS[@]}} - 1)) COMPREPLY=(left)
  _bdevrun
  printf '%s\\n' "${{COMPREPLY[@]}}" | sort | paste -sd' '
done
"""
    status, out, err = run("bash", "--norc", "-uc", script, "completions", *[it for it, _ in COMPLETIONS], folder=room)
    checks.equal((status, err), (0, "complete -F _bdevrun bdevrun\n"), "the completions are taken")
    found = out.split("\n")
    for (words, wanted), given in zip(COMPLETIONS, found):
        checks.equal(given, wanted, f"what may come in: {words}")
    checks.equal(len(found), len(COMPLETIONS) + 1, "the completions")


def check_scripts(checks):
    if not there("shellcheck"):
        checks.skip("shellcheck isn't there: install, uninstall and the completions are not checked by it")
        return
    for name in ("install", "uninstall", "tools/installed", "completions/bdevrun.bash"):
        checks.equal(run("shellcheck", "-s", "bash", name), (0, "", ""), f"shellcheck {name}")


def all_checks(checks, room):
    os.mkdir(f"{room}/page")
    os.mkdir(f"{room}/completions")
    check_page(checks, f"{room}/page")
    check_completions(checks, f"{room}/completions")
    check_scripts(checks)
