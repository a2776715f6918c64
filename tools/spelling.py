#!/usr/bin/env python3
"""Brings the repository's own definitions and lemmas to the spelling of Rattle's contract style.

usage: python3 tools/spelling.py          rewrites crates/ in place, once, after the kit's own script
       python3 tools/spelling.py --plan   prints the plan and what falls together, and writes nothing

Everything but types, facts and modules is in snake case: `storeLength` becomes `store_length`, and
`rows-ascend` becomes `rows_ascend`. A lemma that would have a definition's name gets `_lem`.
The names of goals and of src/ stay as they are.
"""

import collections
import glob
import os
import re
import sys

WORD = r"[^\W\d_][\w'-]*"
# lemmas in snake case that would have a definition's name, and the files that declare them
BESIDE = {
    "goes_on": "crates/loc_audit/proofs/PassLaws.antt",
    "byte_fits": "crates/loc_calls/proofs/Audited.antt",
    "next_row": "crates/loc_calls/proofs/Gathered.antt",
    "row_list": "crates/loc_calls/proofs/State.antt",
    "end_read": "crates/loc_calls/proofs/Ends.antt",
    "row_number": "crates/loc_leaf/proofs/ValueLaws.antt",
    "body_end": "crates/loc_history/proofs/BookLaws.antt",
    "row_count": "crates/loc_history/proofs/BookLaws.antt",
}
# variables
VARIABLES = "rowLength checkpointLength slotLength slotTo rowTo checkpointTo spanLen isNew orElse readerOf stepArgs".split()


def snake(part):
    """One part of a name: a capital inside it begins a word, but a fact or type keeps its capital."""
    if not part or part[0].isupper():
        return part
    return re.sub(r"(?<=[a-z0-9'])([A-Z])", lambda m: "_" + m.group(1).lower(), part)


def files():
    for pattern in ("crates/*/specs/**/*.antt", "crates/*/proofs/**/*.antt", "crates/*/src/**/*.rt", "crates/*/must-fail/*.edit"):
        yield from sorted(glob.glob(pattern, recursive=True))


def is_lemmas(path):
    """Files of specs/, and files right in proofs/: what lies deeper is the proof of one function."""
    parts = path.split("/")
    return path.endswith(".antt") and (parts[2] == "specs" or (parts[2] == "proofs" and len(parts) == 4))


def declared(text):
    """The names that a file declares: definitions, fields, constructors, and those of a where."""
    found = re.findall(rf"^[ \t]*(?:abbrev |unfoldable |pub )*((?:{WORD} )+):(?=[ \n])", text, re.M)
    return [name for names in found for name in names.split()]


def plan(read):
    where = collections.defaultdict(set)
    for path, text in read.items():
        if is_lemmas(path):
            for name in declared(text):
                where[name].add(path)
    turned = {}
    for name in list(where) + VARIABLES:
        if not name[0].isupper():
            turned[name] = "_".join(snake(part) for part in name.split("-"))
    definitions = {turned[n] for n in turned if "-" not in n and n not in BESIDE}
    for name in turned:
        if "-" in name and turned[name] in definitions:
            turned[name] += "_lem"
    turned = {old: new for old, new in turned.items() if old != new}
    return where, turned


def together(read, where, turned):
    """What falls together: (new name, what it meets)."""
    found = []
    back = collections.defaultdict(set)
    for old, new in turned.items():
        back[new].add(old)
    for new, olds in sorted(back.items()):
        if len(olds) > 1:
            found.append((new, "of " + " and ".join(sorted(olds))))
    for path, text in read.items():
        text = beside(path, text) if path.endswith(".antt") else text
        tokens = set(re.findall(rf"(?<![\w'-]){WORD}", text))
        for old in tokens & turned.keys():
            if turned[old] in tokens:
                found.append((turned[old], f"{old} beside {turned[old]} in {path}"))
    return found


def beside(path, text):
    """Lemmas in snake case that would have a definition's name, in the files that declare or import them."""
    for name, home in BESIDE.items():
        crate, file = home.split("/")[1], os.path.basename(home)[: -len(".antt")]
        use = re.search(rf"use Rattle\.{crate}\.proofs\.{file}\.\{{[^}}]*(?<![\w-]){name}(?![\w-])", text)
        if path == home or use:
            text = re.sub(rf"(?<![\w'.-]){name}(?![\w'.-])", name + "_lem", text)
    return text


def rewrite(path, text, turned, spelled):
    if path.endswith(".edit"):
        # the kit's script turned some names in crates/ and none here; paths and projections too
        text = text.replace("Rattle\u00b7", "Rattle.").replace("\u00b7specs.specs.", ".specs.")
        text = re.sub(r"(?<=[\w')]) \.(?=[a-z]\w*)", ".", text)
    local = set() if is_lemmas(path) or not path.endswith(".antt") else set(declared(text))
    if path.endswith(".antt"):
        text = beside(path, text)

    def one(m):
        name = m.group(0)
        if path.endswith(".edit") and name not in turned and snake(name) in spelled:
            return snake(name)
        if name not in turned or ("-" in name and (name in local or path.endswith(".rt"))):
            return name
        if "-" in name and re.search(r"(?:goal|needs?)\s?\.$", text[: m.start()][-8:]):
            return name
        return turned[name]

    return re.sub(rf"(?<![\w'\"-]){WORD}", one, text)


def main():
    os.chdir(os.path.join(os.path.dirname(os.path.abspath(__file__)), ".."))
    read = {p: open(p, encoding="utf-8").read() for p in files()}
    where, turned = plan(read)
    if "--plan" in sys.argv:
        for old, new in sorted(turned.items()):
            print(f"{old} → {new}")
        for new, what in together(read, where, turned):
            print(f"together: {new}: {what}")
        return
    spelled = set(where) | set(turned.values())
    for path, text in read.items():
        new = rewrite(path, text, turned, spelled)
        if new != text:
            with open(path, "w", encoding="utf-8") as f:
                f.write(new)
    print(f"{len(turned)} names")


if __name__ == "__main__":
    main()
