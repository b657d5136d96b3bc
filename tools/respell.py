#!/usr/bin/env python3
"""Gives the repository's own definitions, lemmas and fields the spelling of today's Rattle; run once, right after port.py.

usage: python3 tools/respell.py        at the top of the repository

Words are in snake case, types and modules in camel case. Names from src/ keep their spelling, so a definition of specs/ that mirrors a function now has its name.
Files are rewritten in place, must-fail edits too. Proofs by hand (Proof.antt) keep the names of their own parts.
"""

import os
import re
import sys

# Names that would fall together with another one: (where, old, new).
APART = [
    # lemmas beside the definition that they speak of
    ("", "count-ok", "count_ok_within"),
    ("crates/table/proofs/", "in_use", "in_use_between"),
    ("crates/table/proofs/", "in-use-back", "in_use_back"),
    ("crates/table/proofs/", "head_in", "head_ok_in"),
    ("crates/table/proofs/", "cells-in", "cells_ok_in"),
    ("crates/demands/proofs/", "is-node", "is_node_in"),
    ("crates/demands/proofs/", "is-station", "is_station_in"),
    ("crates/demands/proofs/", "outcome-at", "outcome_at_seats"),
    # fields of the statement on one outcome have the functions' names
    ("crates/demands/specs/OneOutcome.antt", "count-ok", "count_ok"),
    ("crates/demands/proofs/OneOutcome.antt", "count-ok", "count_ok"),
    ("crates/demands/proofs/OneOutcome.antt", "is-station", "is_station"),
]

# The tests and reads of lists, by the names that clauses now have for the same functions.
STD = {"eqb": "nat_eq", "ltb": "nat_lt", "leb": "nat_le", "get_or": "slice_index_or"}

TOKEN = re.compile(r"[^\s(){}\[\],;.`\"]+")
SIGNATURE = re.compile(r"^ *(?:abbrev |unfoldable )?(?:pub )?((?:[^\s:{}()]+ )+): ")
USELESS = "crates/demands/proofs/Useless.antt"


def snake(name):
    if name[0].isupper():
        return name
    return re.sub(r"(?<=[a-z0-9₂])[A-Z]", lambda m: "_" + m.group().lower(), name).replace("-", "_")


def files(root):
    for folder, dirs, names in os.walk(os.path.join(root, "crates")):
        dirs[:] = sorted(d for d in dirs if d != "out")
        for name in sorted(names):
            if name.endswith((".antt", ".rt", ".edit")):
                yield os.path.relpath(os.path.join(folder, name), root)


def own_names(texts):
    found = set()
    for path, text in texts.items():
        if not path.endswith(".antt") or path.endswith("/Proof.antt"):
            continue
        for line in text.split("\n"):
            m = SIGNATURE.match(line)
            if m and not line.lstrip().startswith("--"):
                found |= set(m.group(1).split())
    return found


def table_for(path, names):
    to = {n: snake(n) for n in names if snake(n) != n}
    if path.endswith("/Proof.antt"):
        # a dash may stand in a name that the checker makes
        to = {n: v for n, v in to.items() if "-" not in n}
    for where, old, new in APART:
        if path.startswith(where) and not path.endswith("/Proof.antt"):
            to[old] = new
    return to


def is_spec(path, text):
    return "/specs/" in path or path.endswith(".edit") and "\nfile: specs/" in text


def edit_line(line, names):
    """What port.py does to the text that an edit changes: projections are tight, and a name that it turned is turned here too."""
    line = re.sub(r"(σ \.node \w+) (?=\.)", r"(\1)", line)
    line = re.sub(r"(?<=[\w)]) \.(?=[a-z0-9])", ".", line)
    line = re.sub(r"\((\(σ\.node \w+\)(?:\.\w+)+)\)", r"\1", line)
    line = re.sub(r"\((\w+(?:\.\w+)+)\)", r"\1", line)
    return TOKEN.sub(lambda m: snake(m.group()) if snake(m.group()) in names else m.group(), line)


def respelled(path, text, names):
    to = table_for(path, names)
    if path.endswith(".edit"):
        text = text.replace("Rattle·", "Rattle.")
        text = re.sub(r"(?m)^((?:old|new): .*)$", lambda m: edit_line(m.group(), names), text)
    if is_spec(path, text):
        text = re.sub(r"get_or (\w+) (\w+|\([^()]*\)) 0(?=\))", r"slice_index \1 \2", text)
        to |= STD
    comment = "--" if path.endswith(".antt") else "//"

    def line(it):
        at = it.find(comment) if it.lstrip().startswith(comment) else -1
        if at >= 0 or path.endswith(".edit") and it.startswith(("note:", "file:")):
            return it
        return TOKEN.sub(lambda m: to.get(m.group(), m.group()), it)

    text = "\n".join(line(it) for it in text.split("\n"))
    if path == USELESS:
        # each of these lemmas has the name of the engine that it speaks of
        for engine in ("refuses_all", "says_accepted", "does_nothing", "works_once"):
            text = re.sub(rf"(?m)^{engine} ", f"{engine}_not ", text)
            text = text.replace(f"{engine} = {engine}", f"{engine} = {engine}_not")
    return with_index(path, text)


def with_index(path, text):
    """Adds `slice_index` to the imports of a file that now has it."""
    if "/specs/" not in path or "slice_index " not in text:
        return text
    return re.sub(r"(?m)^(use Rattle\.std\.specs\.Prelude\.\{.*)slice_index_or\}", r"\1slice_index}" if "slice_index_or " not in text else r"\1slice_index, slice_index_or}", text)


def main():
    root = os.getcwd()
    if not os.path.isdir(os.path.join(root, "crates")):
        print("respell: run it at the top of the repository", file=sys.stderr)
        return 2
    texts = {}
    for path in files(root):
        with open(path, encoding="utf-8") as f:
            texts[path] = f.read()
    names = own_names(texts)
    changed = 0
    for path, text in texts.items():
        new = respelled(path, text, names)
        if new != text:
            changed += 1
            with open(path, "w", encoding="utf-8") as f:
                f.write(new)
    print(f"respell: {changed} of {len(texts)} files")
    return 0


if __name__ == "__main__":
    raise SystemExit(main())
