#!/usr/bin/env python3
"""Brings the repository's own definitions and lemmas to the spelling of today's Rattle: words in snake case.

usage: tools/respell.py [--dry]      at the top of a repository that the kit's port.py has turned, once

Renamed is what a file of specs/ or proofs/ declares in lower camel case or with dashes, wherever the name stands: in
specs/, proofs/, the clauses and imports of src/, the wrong programs and the pages. What only a Proof.antt declares keeps
its name, since these names are those of goals. Functions of src/, types, strings, inputs and outputs keep theirs.
"""
import collections
import glob
import os
import re
import sys

# Names that have a name of the library in them; constructors of link1's questions that would have a definition's name;
# one that stands apart from its definition; and lemmas to which the kit's script gave the name of a definition.
OTHERWISE = {"getD-tab": "get_or-tab"}
QUESTIONS = {"heard-at": "heard_in", "verdict-of": "asked_verdict", "altitude-of": "asked_altitude"}
KEPT = {"kind-named"}
LEMMAS = {"crates/shift/proofs/PlaceLaws.antt": "in_field", "crates/octets/proofs/Equality.antt": "answer_at"}
EDGE = r"\s(){}\[\],.;«»`|*\"“”"
DECLARED = re.compile(
    r"^\s*(?:(?:abbrev|unfoldable|pub|data|record|ruleset) )*([^\s(){}\[\],.;«»:]+)(?:\s*\{[^}]*\})*\s*:(?: |$)"
)


def snake(name):
    if name in OTHERWISE:
        return OTHERWISE[name]
    name = re.sub(r"(?<=[a-z0-9])(?=[A-Z])", "_", name)
    name = re.sub(r"(?<=[a-z0-9'])-(?=[A-Za-z0-9])", "_", name)
    return re.sub(r"[A-Z]+", lambda m: m.group(0).lower(), name)


def files(*patterns):
    return sorted(p for g in patterns for p in glob.glob(g, recursive=True) if os.path.isfile(p) and "/out/" not in p)


def declared():
    names = set()
    for path in files("crates/*/specs/**/*.antt", "crates/*/proofs/**/*.antt"):
        if os.path.basename(path) == "Proof.antt":
            continue
        for line in open(path, encoding="utf-8"):
            m = DECLARED.match(line)
            if m and not line.lstrip().startswith("--"):
                names.add(m.group(1))
    return {n for n in names if re.search(r"[a-z0-9][A-Z]|[a-z0-9']-[A-Za-z0-9]", n) and n[0].islower()}


def main():
    dry = "--dry" in sys.argv
    new = {n: snake(n) for n in declared()}
    new |= {"num-of": "num_of_lem", "bits-of": "bits_of_lem"}
    camel = {s for n, s in new.items() if "-" not in n}
    word = re.compile(rf"(?<![^{EDGE}])([^{EDGE}]+)(?![^{EDGE}])")
    code = files("crates/*/specs/**/*.antt", "crates/*/proofs/**/*.antt", "crates/*/src/**/*.rt")
    pages = files("crates/*/must-fail/*.edit", "README.md", "docs/**/*.md")
    texts = {path: open(path, encoding="utf-8").read() for path in code + pages}
    words = {path: set(word.findall(texts[path])) for path in code}
    # A lemma that would have a definition's name in some file takes `_lem`.
    for n in new:
        if "-" in n and new[n] in camel:
            twin = [m for m in new if "-" not in m and new[m] == new[n]]
            apart = "crates/link1/" if n in KEPT | set(QUESTIONS) else "no crate"
            if any(n in words[p] and (set(twin) | {new[n]}) & words[p] for p in code if not p.startswith(apart)):
                new[n] += "_lem"
    for path in code:
        if not path.endswith(".antt") or os.path.basename(path) == "Proof.antt":
            continue
        for n in sorted(words[path] & set(new)):
            if new[n] in words[path] and LEMMAS.get(path) != new[n]:
                print(f"look: {path}: {n} becomes {new[n]}, which stands there")
    for path in code + pages:
        table = dict(new)
        if path.startswith("crates/link1/"):
            table |= QUESTIONS
        if path in LEMMAS:
            table[LEMMAS[path]] = LEMMAS[path] + "_lem"
        turned = word.sub(lambda m: table.get(m.group(1), m.group(1)), texts[path])
        if turned != texts[path] and not dry:
            with open(path, "w", encoding="utf-8") as f:
                f.write(turned)
    print(f"{len(new)} names, of which {sum(s.endswith('_lem') for s in new.values())} took _lem")


main()
