#!/usr/bin/env python3
"""Lists the definitions that the clauses of a theorem reach, file by file, in an order in which one can read them.

    bench/reading.py [CRATE MODULE NAME]      cm_tool Runs Runs if they are left out

A definition reaches those that its text names, in its own file or by an import. What the kit's library defines is not followed, and of the code the
types and constants are counted that definitions name. Lemmas are reached by none, so they are not in the list.
"""

import re
import sys
from functools import cache
from pathlib import Path

TOP = Path(__file__).resolve().parent.parent
USE = re.compile(r"^use Rattle\.(\S+?)(?:\.\{([^}]*)\}| as (\S+))$", re.MULTILINE)
BEGIN = re.compile(r"^(?:(?:abbrev |unfoldable )?pub |abbrev |unfoldable )?(?:record |data )?([^\s:(){]+)(?: .*)? ?:(?!:)", re.MULTILINE)
WORD = re.compile(r"[^\s(){}\[\];,λ]+")


def file_of(module: str) -> Path | None:
    """The file of a module of specs, if it is one of this repository's."""
    crate, kind, *rest = module.split(".")
    if kind != "specs" or rest[:1] == ["declared"]:
        return None
    path = TOP / "crates" / crate / "specs" / f"{'/'.join(rest)}.antt"
    return path if path.exists() else None


def declared_in(module: str) -> str | None:
    """The type, or the constants, of the code that a module stands for."""
    crate, _, *rest = module.split(".")
    if rest[:1] != ["declared"] or not (TOP / "crates" / crate).exists():
        return None
    return f"{crate}.{'.'.join(part for part in rest[1:] if part != 'TheVariants')}"


class Specs:
    """A file of definitions: what it imports, and the text of each definition."""

    def __init__(self, path: Path) -> None:
        text = "\n".join(line for line in path.read_text().splitlines() if not line.strip().startswith("--"))
        self.names, self.aliases, self.texts = {}, {}, {}
        for module, names, alias in USE.findall(text):
            if alias:
                self.aliases[alias] = module
            for name in filter(None, (part.strip() for part in names.split(", "))):
                old, _, new = name.partition(" as ")
                self.names[new or old] = (module, old)
        starts = [found for found in BEGIN.finditer(text) if not found[0].startswith(("use ", "ghost "))]
        for found, following in zip(starts, [*starts[1:], None]):
            self.texts[found[1]] = text[found.start():following.start() if following else len(text)].strip()

    def named(self, name: str) -> set[tuple[str, str]]:
        """What the text of a definition names, each by its module, or an empty module if it is of this file."""
        found = set()
        for word in WORD.findall(self.texts[name]):
            first, _, rest = word.partition(".")
            if word in self.names:
                found.add(self.names[word])
            elif first in self.names:
                found.add(self.names[first])
            elif first in self.aliases and rest:
                found.add((self.aliases[first], rest.split(".")[0]))
            elif word in self.texts and word != name:
                found.add(("", word))
        return found


specs_of = cache(Specs)


def reached(path: Path, name: str) -> tuple[dict[Path, set[str]], set[str], dict[Path, set[Path]]]:
    """The definitions that one reaches, by files; the types and constants of the code; and which file names which."""
    found, code, edges, waiting = {}, set(), {}, [(path, name)]
    while waiting:
        path, name = waiting.pop()
        if name in found.setdefault(path, set()) or name not in specs_of(path).texts:
            continue
        found[path].add(name)
        for module, other in specs_of(path).named(name):
            target = file_of(module) if module else path
            if target is not None:
                waiting.append((target, other))
                edges.setdefault(path, set()).add(target)
            elif module and (declared := declared_in(module)):
                code.add(declared)
    return {path: names for path, names in found.items() if names}, code, edges


def in_order(files: dict[Path, set[str]], edges: dict[Path, set[Path]]) -> list[Path]:
    """The files, each after those that it names."""
    done = []

    def visit(path: Path) -> None:
        if path in done or path not in files:
            return
        waiting.add(path)
        for other in sorted(edges.get(path, ())):
            if other not in waiting:
                visit(other)
        done.append(path)

    waiting = set()
    for path in sorted(files):
        visit(path)
    return done


def lines_of(path: Path, names: set[str]) -> int:
    return sum(len(specs_of(path).texts[name].splitlines()) for name in names)


def table(crate: str, module: str, name: str, depth: str = "../../") -> str:
    """The list as a table, with links from a page that is so deep."""
    files, code, edges = reached(TOP / "crates" / crate / "specs" / f"{module}.antt", name)
    rows = [f"| [{path.parent.parent.name}: {path.stem}]({depth}{path.relative_to(TOP)}) | {', '.join(f'`{one}`' for one in sorted(files[path]))} | {lines_of(path, files[path])} |"
            for path in in_order(files, edges)]
    count, lines = sum(map(len, files.values())), sum(lines_of(path, names) for path, names in files.items())
    said = f"`{name}` of `{crate}` reaches {count} definitions in {len(files)} files, {lines} lines in all, and names {len(code)} types and groups of constants of the code.\n"
    return "\n".join([said, "| File | Definitions | Lines |", "|---|---|---|", *rows]) + "\n"


if __name__ == "__main__":
    print(table(*(sys.argv[1:4] or ("cm_tool", "Runs", "Runs"))), end="")
