#!/usr/bin/env python3
"""Checks docs/READING.md: that its rows count the lines of their files, that each further file of specs/ says in its
first line what it is for, and that the list is closed: what the contracts of the headline name, and what these
definitions name in turn, is read. The hour before the list counts its lines too, and is of the list; which of its names
are in several files is in a table. It prints what is to be changed, and nothing where all is well."""

import pathlib
import re
import sys

TOP = pathlib.Path(__file__).resolve().parent.parent
ROW = re.compile(r"^\| `(\w+)`: `(\w+)`(?:, only ([^|]*?))? \| (\d+) \|", re.M)
SPAN = re.compile(r"^\| `(\w+)`: `(\w+)`(?:, from `([^`]+)` to `([^`]+)`)? \| (\d+) \|", re.M)
HOUR = "An hour with the definitions"
DOUBLES = "These names of the hour are in two files of the list, or more:"
MARKS = ("For proofs alone.", "For a law alone.", "For laws alone.", "; for proofs alone.")

# The calls whose contracts are the headline, by their files.
HEADLINE = {
    "crates/compose/src/calls.rt": ["compose"],
    "crates/qo_machine/src/machines.rt": ["start", "step"],
    "crates/qo_machine/src/running.rt": ["run"],
    "crates/qo_machine/src/laws.rt": ["law_lanes", "law_answers", "law_chunks", "law_final_once", "law_cycle", "law_sound", "law_phases"],
}
# How a machine of the code keeps a state: no message depends on it.
KEPT = ("qo_realize", "Representation"), ("qo_realize", "Parts")

USE = re.compile(r"^(?: *ghost |pub )? *use Rattle\.(\w+)\.specs\.(\w+)\.\{([^}]*)\}", re.M)
ALIAS = re.compile(r"^(?: *ghost |pub )? *use Rattle\.(\w+)\.specs\.(\w+) as (\w+)", re.M)
HEAD = re.compile(r"^(?:(?:abbrev|unfoldable|opaque|pub|record|data) )*([^\s:(){]+)")
WORD = re.compile(r"[^\s(){}\[\],;→λ×≡⊎:]+")


class Module:
    """A file of specs/: its definitions by name, each with its text, and where its other names come from."""

    def __init__(self, path):
        lines = path.read_text(encoding="utf-8").splitlines()
        self.first = lines[0]
        self.count = sum(1 for it in lines if it.strip() and not it.startswith("use "))
        self.names, self.aliases = imports("\n".join(lines))
        self.texts, self.sizes = {}, {}
        name, notes = None, 0
        for line in lines:
            if line.startswith("--"):
                name, notes = None, notes + 1
            elif not line.strip() or re.match(r"(pub )?use ", line):
                notes = 0
            elif not HEAD.match(line):
                if name:
                    self.add(name, line, 0)
            elif not line.startswith("unfolding"):
                name = HEAD.match(line)[1]
                self.add(name, line, notes)
                notes = 0

    def add(self, name, line, notes):
        self.texts[name] = self.texts.get(name, "") + "\n" + re.sub(r"\s--\s.*", "", line)
        self.sizes[name] = self.sizes.get(name, 0) + notes + 1


def imports(text):
    """The names that a text uses from modules, each with its module and its name there, and the modules by alias."""
    names = {}
    for crate, module, listed in USE.findall(text):
        for item in listed.split(","):
            there, _, here = item.strip().partition(" as ")
            names[here or there] = ((crate, module), there)
    return names, {alias: (crate, module) for crate, module, alias in ALIAS.findall(text)}


def named(text, names, aliases, own, modules):
    """The definitions that a text names, as pairs of a module and a name."""
    found = set()
    for word in set(WORD.findall(text)):
        head, _, rest = word.partition(".")
        if head in aliases and rest:
            found.add((aliases[head], rest.partition(".")[0]))
        if head in names:
            found.add(names[head])
        elif own:
            found.add((own, head))
    holes = [it for it in names if "◌" in it and all(part in text for part in it.split("◌") if part)]
    found.update(names[it] for it in holes)
    if own:
        found.update((own, it) for it in modules[own].texts if "◌" in it and all(part in text for part in it.split("◌") if part))
    return {(module, name) for module, name in found if module in modules and name in modules[module].texts}


def clauses(path, calls):
    """The clauses of some public calls of a file."""
    text = (TOP / path).read_text(encoding="utf-8")
    for match in re.finditer(r"(?ms)^( *)pub fn (\w+).*?^\1\{", text):
        if match[2] in calls:
            yield "\n".join(re.findall(r"(?m)^ *(?:requires|ensures)[^\n]*$", match[0])), imports(text)


def rested_on(modules):
    """The definitions that the headline rests on."""
    todo = set()
    for path, calls in HEADLINE.items():
        for text, (names, aliases) in clauses(path, calls):
            todo |= named(text, names, aliases, None, modules)
    seen = set()
    while todo:
        module, name = one = todo.pop()
        if one not in seen and module not in KEPT:
            seen.add(one)
            it = modules[module]
            todo |= named(it.texts[name], it.names, it.aliases, module, modules) - seen
    return seen


def between(module, first, last):
    """The definitions of a file from one to another, in their order there; all of them where none is named."""
    names = list(module.texts)
    return names[names.index(first) : names.index(last) + 1] if first else names


def check_hour(text, modules, read):
    """What is wrong in the first part: its counts, and what is not of the list behind it; and the names that it has."""
    wrong, whole, known = [], 0, set()
    for crate, name, first, last, count in SPAN.findall(text):
        module = modules.get((crate, name))
        if module is None or first and not (first in module.texts and last in module.texts):
            wrong.append(f"{HOUR}: {crate}: {name} has no part from {first or 'its begin'} to {last or 'its end'}")
            continue
        names = between(module, first, last)
        size = sum(module.sizes[it] for it in names) if first else module.count
        whole += size
        known.update(names)
        if size != int(count) or not names:
            wrong.append(f"{HOUR}: {crate}: {name} from {names[:1]} to {names[-1:]} has {size} lines, and not {count}")
        wrong += [f"{HOUR}: {crate}: {name}: {it} is not in the list" for it in names if it not in read.get((crate, name), ())]
    if f" {whole:,} lines." not in text:
        wrong.append(f"{HOUR}: {whole:,} lines")
    return wrong, known


def check_doubles(text, known, read):
    """What is wrong in the table of those names of the first part that several files of the list have."""
    files = {name: {it for it, names in read.items() if name in names} for name in known}
    wanted = {name: {file for _, file in those} for name, those in files.items() if len(those) > 1}
    rows = re.findall(r"^\| `([^`]+)` \| (.*)$", text.partition(DOUBLES)[2].partition("\n## ")[0], re.M)
    told = {name: set(re.findall(r"`([A-Z]\w*)`[:,]", row)) for name, row in rows}
    return [f"the table of names: {it} is in {sorted(wanted.get(it, ()))}" for it in sorted(wanted.keys() | told.keys()) if wanted.get(it, set()) != told.get(it)]


def check_rows(text, modules, read):
    """What is wrong in the rows of a part, whose definitions are written to those that are read; and its lines."""
    wrong, whole = [], 0
    for crate, name, only, count in ROW.findall(text):
        module = modules.get((crate, name))
        words = re.findall(r"`([^`]+)`", only) if only else list(module.texts if module else ())
        missing = [it for it in words if module is None or it not in module.texts]
        if module is None or missing:
            wrong.append(f"{crate}: {name} is not there" + "".join(f", nor its {it}" for it in missing))
            continue
        size = sum(module.sizes[it] for it in words) if only else module.count
        whole += size
        read[crate, name] = words
        if size != int(count):
            wrong.append(f"{crate}: {name} has {size} lines, and not {count}")
    if whole and f" {whole:,} lines." not in text:
        wrong.append(f"{text.splitlines()[0]}: {whole:,} lines")
    return wrong, whole


def main():
    """Prints what is wrong, and returns the exit status."""
    paths = [it for it in sorted(TOP.glob("crates/*/specs/*.antt")) if it.stem != "Lib"]
    modules = {(it.parent.parent.name, it.stem): Module(it) for it in paths}
    text = (TOP / "docs/READING.md").read_text(encoding="utf-8")
    wrong, read, whole = [], {}, 0
    parts = text.split("\n## ")[1:]
    for part in parts:
        if not part.startswith(HOUR):
            found, size = check_rows(part, modules, read)
            wrong, whole = wrong + found, whole + size
    found, known = check_hour(next(it for it in parts if it.startswith(HOUR)), modules, read)
    wrong += found + check_doubles(text, known, read)
    if f"The whole is {whole:,} lines in {len(read)} files;" not in text:
        wrong.append(f"the whole is {whole:,} lines in {len(read)} files")
    for (crate, name), module in modules.items():
        if (crate, name) not in read and not any(mark in module.first for mark in MARKS):
            wrong.append(f"{crate}: {name} is not read, and does not say what it is for")
    for (crate, module), name in sorted(rested_on(modules)):
        if name not in read.get((crate, module), ()):
            wrong.append(f"{crate}: {module} has {name}, on which the headline rests, and which is not read")
    print("\n".join(wrong), end="\n" if wrong else "")
    return 1 if wrong else 0


if __name__ == "__main__":
    sys.exit(main())
