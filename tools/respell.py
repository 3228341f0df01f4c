#!/usr/bin/env python3
"""Brings this repository's own names in specs, proofs and clauses to the spelling of today's Rattle: words in snake case, types and modules
in camel case. Run once, at the top, after port.py; a second run changes nothing.

A word in camel case becomes one in snake case. A dash stays where each part that it joins is itself a name; otherwise it becomes an
underscore. Functions of src/, exported C names, strings, inputs and outputs keep their names, and so do names of the library and what
proofs/F/Proof.antt declares for itself. Two names that would fall together in one file stop the script before it writes.
"""

import collections
import glob
import os
import re
import sys

KIT = "/opt/rattle"
WORD = re.compile(r"[^\s(){}\[\].,:;\"`|@«»λ∷]+")
DECLARED = re.compile(r"^\s*(?:abbrev |unfoldable )?(?:pub )?(?:abbrev |unfoldable )?(?:record |data )?([^\s(){}\[\].,:;\"]+)(?= :| \()", re.M)
# lemmas that would have the name of the definition that they are of
LEMMAS = {
    ("crates/cases/", "same_bytes"): "same_bytes_lem",
    ("crates/linecode/proofs/WordBytes", "or_bytes"): "or_bytes_lem",
    ("crates/linecode/proofs/crc/load/Proof", "or_bytes"): "or_bytes_lem",
    ("crates/local_decoding/proofs/Promises", "by_row"): "by_row_lem",
}
# words that an older library had, as they stand inside names of ours
OLDER = {"getD": "get_or", "bitXor": "bit_xor", "bitAnd": "bit_and"}


def read(path):
    with open(path, encoding="utf-8") as f:
        return f.read()


def kit_words():
    words = set()
    for folder in ("rattle", "logic_built"):
        for top, _, files in os.walk(os.path.join(KIT, folder)):
            for name in files:
                if name.endswith((".antt", ".md")):
                    words |= set(WORD.findall(read(os.path.join(top, name))))
    return words


def snake(part):
    if part in OLDER:
        return OLDER[part]
    if not part[:1].islower():
        return part
    return re.sub(r"(?<=[a-z0-9'])([A-Z])", lambda m: "_" + m.group(1).lower(), part)


def main():
    antt = sorted(glob.glob("crates/*/specs/**/*.antt", recursive=True) + glob.glob("crates/*/proofs/**/*.antt", recursive=True))
    walks = [p for p in antt if p.endswith("/Proof.antt")]
    plain = [p for p in antt if not p.endswith("/Proof.antt")]
    source = sorted(glob.glob("crates/*/src/**/*.rt", recursive=True))
    kit = kit_words()
    text = {p: read(p) for p in antt + source}

    declared = collections.defaultdict(set)
    for p in plain:
        for m in DECLARED.finditer(text[p]):
            declared[m.group(1)].add(p)
    own = set(declared)
    for p in plain:
        own |= {w for w in WORD.findall(text[p]) if re.search(r"[a-z0-9][A-Z]", w)}
    own = {w for w in own if w not in kit and re.match(r"[A-Za-z]", w) and not w.startswith("Rattle")}
    names = {w for w in declared if "-" not in w} | {snake(w) for w in declared if "-" not in w}

    turned = {}
    for w in sorted(own):
        parts = [snake(x) for x in w.split("-")]
        if len(parts) == 1:
            new = parts[0]
        elif all(x in names or x in kit for x in parts):
            new = "-".join(parts)
        else:
            new = "_".join(parts)
        if new != w:
            turned[w] = new

    # the lemmas' own new names, and then names that would fall together
    for p in antt:
        for (where, w), new in LEMMAS.items():
            if p.startswith(where):
                text[p] = WORD.sub(lambda m: new if m.group(0) == w else m.group(0), text[p])
    before = {p: read(p) for p in antt}
    taken = collections.defaultdict(set)
    for p in plain + walks:
        here = set(WORD.findall(text[p]))
        for w in here:
            if w in turned:
                taken[(p, turned[w])].add(w)
        for w in here:
            if w not in turned and (p, w) in taken:
                taken[(p, w)].add(w)
    for p in source:
        here = set(WORD.findall(text[p]))
        for w in sorted(here):
            if w in turned and turned[w] in here:
                print(f"a name of src/ too: {p}: {w} -> {turned[w]}")
    fallen = {k: v for k, v in taken.items() if len(v) > 1 and not any(f"proofs.{x}." in text[k[0]] or f"{x}.specs" in text[k[0]] or f".{x}.Statement" in text[k[0]] or f".{x}.proofs" in text[k[0]] or f".{x}.{{" in text[k[0]] for x in v)}
    if fallen and "--force" not in sys.argv:
        for (p, new), olds in sorted(fallen.items()):
            print(f"falls together: {p}: {' '.join(sorted(olds))} -> {new}")
        raise SystemExit(1)

    for p in antt:
        new = WORD.sub(lambda m: turned.get(m.group(0), m.group(0)), text[p])
        if new != before[p]:
            with open(p, "w", encoding="utf-8") as f:
                f.write(new)
    clause = re.compile(r"ghost use [^;]*;|(?:requires|ensures)[^{]*\{")
    for p in source:
        old, new, at = text[p], [], 0
        while True:
            m = clause.search(old, at)
            if not m:
                break
            end = m.end()
            if old[m.end() - 1] == "{":
                depth = 1
                while depth:
                    depth += {"{": 1, "}": -1}.get(old[end], 0)
                    end += 1
            new.append(old[at : m.start()])
            new.append(WORD.sub(lambda w: turned.get(w.group(0), w.group(0)), old[m.start() : end]))
            at = end
        new.append(old[at:])
        new = "".join(new)
        if new != old:
            with open(p, "w", encoding="utf-8") as f:
                f.write(new)
    with open("/tmp/respelled.tsv", "w", encoding="utf-8") as f:
        for w, new in sorted(turned.items()):
            f.write(f"{w}\t{new}\n")
    print(f"respelled {len(turned)} names")


main()
