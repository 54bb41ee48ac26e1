#!/usr/bin/env python3
"""Compares the options and their choices in the usage text, the man pages, the README, docs/use/command-line.md and the completions.

    tests/completions.py [CMPH [JUDGE [FILTER [STORE [SHARDS]]]]]   the programs are those below crates/ if they are left out

The usage text may name options and algorithms before the program takes them. CMPH is asked which it takes, and the others are
left out. The programs beside it have no usage text: they are asked for each letter. The completions of bash are asked of bash; those of
zsh are read, and zsh checks their syntax if it is there.
"""
import re
import shutil
import string
import subprocess
import sys
from pathlib import Path

import counting

TOP = Path(__file__).resolve().parent.parent
BASH, ZSH = TOP / "completions" / "cmph.bash", TOP / "completions" / "_cmph"
PROGRAMS = ["cmph", "cmph_judge", "cmph_filter", "cmph_store", "cmph_shards"]

# Of the programs beside cmph: how many files they take, what follows their options in the man page, and their heading in docs/use/command-line.md.
BESIDE = {
    "cmph_judge": (2, ".Ss What is true", "## Checking a report"),
    "cmph_filter": (1, ".Ss Keys", "## Filters"),
    "cmph_store": (1, ".Ss Lines and keys", "## Record stores"),
    "cmph_shards": (1, ".Ss Splits", "## Shards"),
}

# The options without which a program refuses any arguments.
NEEDED = {"cmph_shards": "dm"}


def run(*command):
    return subprocess.run([str(word) for word in command], stdin=subprocess.DEVNULL, stdout=subprocess.PIPE,
                          stderr=subprocess.PIPE, text=True, timeout=60)


def of_usage(program):
    """The options that the program takes, each with whether it has a value; and the algorithms and hash functions."""
    usage = run(program, "-h").stdout
    options = {}
    for letter, value in re.findall(r"[\[ ]-(\w)(?: (\w+))?", usage):
        words = [f"-{letter}", *(["1"] if value else [])]
        asked = words if letter == "h" else [*words, "-h"]
        if run(program, *asked).returncode == 0:
            options[letter] = bool(value)
    names = {kind: re.search(rf"^{kind}: (.*)$", usage, re.MULTILINE)[1].split() for kind in ("algorithms", "hash functions")}
    taken = [name for name in names["algorithms"] if "bad value" not in run(program, "-a", name).stderr]
    return options, taken, names["hash functions"]


def of_man(page="cmph", end=".Ss Arguments"):
    text = (TOP / "man" / f"{page}.1").read_text()
    described = text[text.index("The options are:"):text.index(end)]
    return {letter: bool(value) for letter, value in re.findall(r"^\.It Fl (\w)( Ar \w+)?$", described, re.MULTILINE)}


def listed_in_synopsis(page):
    text = (TOP / "man" / f"{page}.1").read_text()
    synopsis = text[text.index(".Sh SYNOPSIS"):text.index(".Sh DESCRIPTION")]
    return synopsis, {letter: bool(value) for letter, value in re.findall(r"^\.(?:Op )?Fl (\w)( Ar \w+)?$", synopsis, re.MULTILINE)}


def of_synopsis():
    """The options of a build, and those of the usage and the version."""
    synopsis, options = listed_in_synopsis("cmph")
    options.update(dict.fromkeys(re.search(r"^\.Fl (\w \| \w)$", synopsis, re.MULTILINE)[1].split(" | "), False))
    return options


def of_table(page):
    """The options of the first table of a page: those with values have some there."""
    text = (TOP / page).read_text().split("## Checking a report")[0]
    rows = re.findall(r"^\| `-(\w)` \|[^|]*\|([^|]*)\|", text, re.MULTILINE)
    return {letter: bool(values.strip()) and not values.strip().startswith("flag") for letter, values in rows}


def choices_of_man(letter):
    """What the man page lists below an option."""
    text = (TOP / "man" / "cmph.1").read_text()
    below = re.search(rf"^\.It Fl {letter} Ar \w+\n(.*?)^\.It Fl ", text, re.MULTILINE | re.DOTALL)[1]
    return re.findall(r"^\.It Cm (\w+)$", below, re.MULTILINE)


def choices_of_table(page, letter):
    """What the table of a page gives as the values of an option."""
    values = re.search(rf"^\| `-{letter}` \|[^|]*\|([^|]*)\|", (TOP / page).read_text(), re.MULTILINE)[1]
    return re.findall(r"`(\w+)`", values)


def of_bash(*words):
    """What bash offers after these words, of which the last is being typed."""
    script = 'source "$1"; shift; COMP_WORDS=("$@"); COMP_CWORD=$(($# - 1)); _cmph; printf "%s\\n" "${COMPREPLY[@]}"'
    return run("bash", "-c", script, "bash", BASH, "cmph", *words).stdout.split()


def options_of_bash():
    letters = [word[1:] for word in of_bash("-")]
    values = re.search(r"\(\[(\w+)\]\)", BASH.read_text())[1]
    return {letter: letter in values for letter in letters}


def of_zsh(file=ZSH):
    found = re.findall(r"^ +'(?:\([^)]*\))?\*?-(\w)(\+?)\[", file.read_text(), re.MULTILINE)
    return {letter: bool(value) for letter, value in found}


def choices_of_zsh(letter):
    found = re.search(rf"-{letter}\+\[.*:\((.*)\)'", ZSH.read_text())
    return found[1].split() if found else []


def taken_by(program, files, needed):
    """The options that a program without a usage text takes, each with whether it has a value."""
    def takes(letter, *value):
        others = [word for other in needed if other != letter for word in (f"-{other}", "/none/none")]
        return "bad arguments" not in run(program, f"-{letter}", *value, *others, *["/none/none"] * files).stderr

    flags, valued = ([letter for letter in string.ascii_letters if takes(letter, *value)] for value in ([], ["1"]))
    return {**dict.fromkeys(valued, True), **dict.fromkeys(flags, False)}


def of_section(page, heading):
    """The text from a heading of a page to the next."""
    return (TOP / page).read_text().split(f"{heading}\n")[1].split("\n## ")[0]


def of_usage_lines(name):
    """The options of the indented lines of the README that say how a program is called."""
    lines = re.findall(rf"^    {name} (.*)$", (TOP / "README.md").read_text(), re.MULTILINE)
    return {letter: bool(value) for line in lines for letter, value in re.findall(r"(?:^|[\[ ])-(\w)( \w+)?", line.split("#")[0])}


def of_program(name):
    """The options of a program beside cmph, as its man page, the README, docs/use/command-line.md and the completions have them."""
    bash = TOP / "completions" / f"{name}.bash"
    offered = run("bash", "-c", f'source "$1"; COMP_WORDS=({name} -); COMP_CWORD=1; _{name}; printf "%s\\n" "${{COMPREPLY[@]}}"', "bash", bash)
    values = re.search(r"\(\[(\w+)\]\)", bash.read_text())[1]
    _, end, heading = BESIDE[name]
    table = re.findall(r"^\| `-(\w)` \|([^|]*)\|", of_section("docs/use/command-line.md", heading), re.MULTILINE)
    return [
        (f"the options of the man page of {name}", of_man(name, end)),
        (f"the options of the synopsis of {name}", listed_in_synopsis(name)[1]),
        (f"the options of {name} in the README", of_usage_lines(name)),
        (f"the options of {name} in docs/use/command-line.md", {letter: not what.startswith(" flag") for letter, what in table}),
        (f"the options of {name} of bash", {word[1:]: word[1:] in values for word in offered.stdout.split()}),
        (f"the options of {name} of zsh", of_zsh(ZSH.with_name(f"_{name}"))),
    ]


def main():
    programs = {name: Path(sys.argv[number] if len(sys.argv) > number else TOP / "crates" / name / "out" / name).resolve()
                for number, name in enumerate(PROGRAMS, 1)}
    options, algorithms, hashes = of_usage(programs["cmph"])
    compared = [
        ("the options of the man page", of_man(), options),
        ("the options of its synopsis", of_synopsis(), options),
        ("the options of the README", of_usage_lines("cmph"), options),
        ("the options of docs/use/command-line.md", of_table("docs/use/command-line.md"), options),
        ("the options of bash", options_of_bash(), options),
        ("the options of zsh", of_zsh(), options),
        ("the algorithms of the man page", choices_of_man("a"), algorithms),
        ("the algorithms of the README", re.findall(r"^\| [^|]* \| `(\w+)` \|", of_section("README.md", "## Which algorithm to take"), re.MULTILINE), algorithms),
        ("the algorithms of docs/use/command-line.md", choices_of_table("docs/use/command-line.md", "a"), algorithms),
        ("the algorithms of bash", of_bash("-a", ""), algorithms),
        ("the algorithms of bash after flags", of_bash("-gva", ""), algorithms),
        ("the algorithms of zsh", choices_of_zsh("a"), algorithms),
        ("the values of -b of bash by bdz", of_bash("-g", "-a", "bdz", "-b", ""), [str(b) for b in range(3, 11)]),
        ("the values of -b of bash by brz", of_bash("-g", "-a", "brz", "-b", ""), []),
        ("the hash functions of bash", of_bash("-f", ""), hashes),
        ("the hash functions of zsh", choices_of_zsh("f"), hashes),
    ]
    for name, (files, _, _) in BESIDE.items():
        options = taken_by(programs[name], files, NEEDED.get(name, ""))
        compared += [(what, found, options) for what, found in of_program(name)]
    if shutil.which("zsh"):
        compared.append(("the faults that zsh finds", "".join(run("zsh", "-n", ZSH.with_name(f"_{name}")).stderr for name in PROGRAMS), ""))
    else:
        counting.skipped("the faults that zsh finds", "there is no zsh")
    for what, found, wanted in compared:
        counting.case(what, found != wanted and f"{found}, and must be {wanted}")
    return counting.close()


if __name__ == "__main__":
    sys.exit(main())
