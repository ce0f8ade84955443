#!/usr/bin/env python3
"""Brings the repository's own definitions, lemmas and record fields to today's spelling: words in snake case. Run once, right after the toolchain's port script.

    tools/respell.py            rewrites specs/, proofs/, the clauses of src/ and the texts of the edits
    tools/respell.py --list     prints old and new, and changes nothing

Only names that a file of specs/ or proofs/ declares are turned. Names of src/, of the proof files that stand for one function (their goals are named by
the prover), strings and prose keep their spelling. Where a lemma would fall together with a definition it gets `_lem`.
"""
import pathlib
import re
import sys

ROOT = pathlib.Path(__file__).resolve().parents[1] / "crates"
DECLARED = re.compile(r"^\s*(?:(?:abbrev|unfoldable|pub)\s+)*([^\s(){}\[\],;.:]+)\s*(?:\{[^}]*\}\s*|\([^)]*\)\s*)*:(?=\s)")
# A rule of theory/ that falls together with the number that tells of it.
RULES = "after-end bad-field bad-mark long-hyper many-elements many-in-all many-instances many-uses no-task not_after sent-wrong sum-above too_many two-publish"
# A field of one crate that falls together with a definition of another; what keeps its form elsewhere.
OTHERWISE = {"none-held": "nothing_held", "no-task": "no_task", "too_many": "too_many", "not_after": "not_after"}
TOKEN = re.compile(r"[^\s(){}\[\],;.`\"]+")
CAMEL = re.compile(r"[a-z][A-Za-z0-9_']*[A-Z]")
DASHED = re.compile(r"[A-Za-z0-9']-[A-Za-z0-9]")


def snake(name):
    """`holdsAt` and `holds-at` as `holds_at`; a capital that stands alone as a case's or a number's letter keeps its form."""
    name = re.sub(r"(?<=[A-Za-z0-9'])-(?=[A-Za-z0-9])", "_", name)
    if name[:1].islower():
        name = re.sub(r"(?<=[a-z0-9])([A-Z])(?=[a-z])", lambda found: "_" + found.group(1).lower(), name)
        name = re.sub(r"(?<=[a-z])([A-Z])$", lambda found: "_" + found.group(1).lower(), name)
    return name


def of_a_function(path):
    return path.parent.parent.name == "proofs" and path.name == "Proof.antt" or "proofs" in [p.name for p in path.parents][1:]


def declared(paths):
    names = set()
    for path in paths:
        for line in path.read_text().splitlines():
            found = DECLARED.match(line)
            if not found or line.lstrip().startswith("--"):
                continue
            name = found.group(1)
            if of_a_function(path) and not name.endswith("-spec"):
                continue
            names.add(name)
    return names


def library(paths):
    """The names that a file takes from the toolchain's own modules: they keep their spelling."""
    own = "|".join(sorted(folder.name for folder in ROOT.iterdir()))
    names = set()
    for path in paths:
        for module, listed in re.findall(r"^use (\S+?)\.\{([^}]*)\}", path.read_text(), re.M):
            if not re.match(rf"Rattle\.({own})\.", module):
                names |= {word for word in re.split(r"[,\s]+", listed) if word}
    return names


def main():
    made = lambda path: "out" in path.relative_to(ROOT).parts
    antt = sorted(path for path in ROOT.rglob("*.antt") if not made(path))
    rt = sorted(path for path in ROOT.rglob("*.rt") if not made(path))
    every = declared(antt)
    names = {name for name in every if CAMEL.match(name) or DASHED.search(name)} - library(antt)
    words = {path: set(TOKEN.findall(code(path.read_text()))) for path in antt}
    new = {name: snake(name) for name in names}
    new = {name: to for name, to in new.items() if name != to}
    # a dashed name is a lemma or a field: it gives way to a definition
    for name in sorted(new):
        to = new[name]
        others = [other for other in new if other != name and new[other] == to and CAMEL.match(other)]
        taken = any(name in seen and to in seen for seen in words.values())
        both = any(name in seen and other in seen for seen in words.values() for other in others)
        if DASHED.search(name) and (taken or both):
            new[name] = to + "_lem"
        elif taken and to in every:
            new[to] = to + "_lem"
    new |= OTHERWISE
    rules = new | {name: snake(name) + "_rule" for name in RULES.split()}
    if "--list" in sys.argv:
        for name in sorted(new):
            print(name, new[name])
        return
    for path in antt:
        rewrite(path, lambda text: turned(text, rules if path.is_relative_to(ROOT / "theory") else new))
    for path in rt:
        rewrite(path, lambda text: turned_source(text, new))
    for path in sorted(ROOT.glob("*/must-fail/*.edit")):
        rewrite(path, lambda text: turned_edit(text, rules if path.is_relative_to(ROOT / "theory") else new))


def code(text):
    return "\n".join(line for line in text.splitlines() if not line.lstrip().startswith("--"))


def rewrite(path, work):
    text = path.read_text()
    to = work(text)
    if to != text:
        path.write_text(to)


def swap(text, new):
    return TOKEN.sub(lambda found: new.get(found.group(), found.group()), text)


def camels(new):
    return {name: to for name, to in new.items() if CAMEL.match(name)}


def turned(text, new):
    """Code whole; in a remark only what no English word looks like."""
    plain = camels(new)
    return "".join(swap(line, plain if line.lstrip().startswith("--") else new) for line in text.splitlines(True))


def turned_source(text, new):
    """Imports and clauses whole, the rest as in a remark."""
    plain = camels(new)
    out = []
    for line in text.splitlines(True):
        clause = re.match(r"\s*(?:pub )?ghost |\s*(?:requires|ensures)\b", line)
        out.append(swap(line, new if clause else plain))
    return "".join(out)


def turned_edit(text, new):
    """The texts of an edit of specs/ whole, those of src/ as in a remark."""
    specs = bool(re.search(r"^file: (specs|proofs)/", text, re.M))
    out = []
    for line in text.splitlines(True):
        whole = specs and re.match(r"(old|new): ", line)
        out.append(swap(line, new if whole else camels(new)))
    return "".join(out)


main()
