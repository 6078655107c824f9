#!/usr/bin/env python3
"""Brings the repository's own definitions and lemmas to one spelling, once.

usage: python3 tools/spell_names.py [--dry]     at the top of the repository

Definitions, fields, constructors and lemmas of specs/ and proofs/ are in snake case; types, and definitions that are
facts, in upper camel case. A dash stays where it joins the names of two definitions, as in `placed-length`; elsewhere
it becomes `_`. Names of Rust items, and the names that the check gives to goals, keep their spelling. A name that would
fall together with another is reported, and then nothing is written.
"""
import os
import re
import sys

HEAD = re.compile(r"^\s*(?:pub |abbrev |unfoldable )*(?:(?:record|data) )?([^\s(){}:;,.|=]+)((?: [({].*[)}])*) : ?(.*)$")
RECORD = re.compile(r"^\s*(?:pub |abbrev |unfoldable )*(?:record|data) ([^\s(){}:]+)")
TOKEN = re.compile(r"[^\s(){}\[\];,.|\"`λ]+")
# definitions that are facts, written as functions until now
FACTS = {
    "asks": "Asks", "asksEach": "AsksEach", "accepts": "Accepts", "asksKind": "AsksKind", "asksContent": "AsksContent",
    "asksTables": "AsksTables", "asksFeatures": "AsksFeatures", "asksSizes": "AsksSizes", "asksRecord": "AsksRecord",
    "asksRecords": "AsksRecords", "asksBody": "AsksBody", "asksTable": "AsksTable", "asksLinks": "AsksLinks",
    "askValues": "AskValues", "allValues": "AllValues",
}
# names that would fall together with another when spelled alone
CLASHES = {
    "bit-of": "bit_of-base", "call-word": "plain_call_word", "fromStart": "from_start_on", "placeOf": "place_of_link",
    "few-features": "features_at_most", "few-records": "records_at_most",
}
# names of Rust items elsewhere, which no clause can mean
APART = {"bit_table", "column_table", "record_count"}
# lemmas on one definition applied to another
JOINED = {"fields-spaced", "spaced-fields"}
# words of the library that a lemma's name may join to another name by a dash
LIBRARY = {"length", "take", "drop", "append"}
# the definition of "holds of each" is the library's, under the library's own name
LIBRARY_NAMES = {"All": "AllByRecursion"}


def files():
    for folder, dirs, names in os.walk("crates"):
        dirs[:] = sorted(d for d in dirs if d != "out")
        for n in sorted(names):
            if n.endswith((".antt", ".rt")):
                yield os.path.join(folder, n)


def parted(path, text):
    """The text as pieces (written, is a comment or a string)."""
    mark = r"(//[^\n]*|b?\"(?:[^\"\\\\]|\\\\.)*\")" if path.endswith(".rt") else r"(--[^\n]*|\"[^\"]*\")"
    pieces = re.split(mark, text)
    return [(t, k % 2 == 1) for k, t in enumerate(pieces)]


def own_names(texts):
    names, fields = {}, set()
    for path, text in texts.items():
        if not path.endswith(".antt"):
            continue
        for line in text.splitlines():
            m = RECORD.match(line) or HEAD.match(line)
            if not m or line.lstrip().startswith(("use ", "--", "module ", "let ", "λ ", "elim ")):
                continue
            if " : goal." in line:
                continue
            names.setdefault(m.group(1), set()).add(path)
            if re.match(r"^\s+(?:pub )?", line):
                fields.add(m.group(1))
    return names, fields


def snake(word):
    return re.sub(r"(?<=[a-z0-9])([A-Z])", lambda m: "_" + m.group(1).lower(), word)


def spelled(name, defined):
    if name in FACTS:
        return FACTS[name]
    if name in CLASHES:
        return CLASHES[name]
    if not re.search(r"[a-z]", name):
        return name
    parts = [p for p in name.split("-")]
    if any(not p for p in parts):
        return name
    if name[0].isupper():
        return "".join(p[0].upper() + p[1:] for p in parts)
    new = [FACTS.get(p, snake(p)) for p in parts]
    joins = name in JOINED or (len(parts) == 2 and all(p in defined or p in LIBRARY for p in parts) and any(p in LIBRARY for p in parts))
    return ("-" if joins else "_").join(new)


def main():
    texts = {p: open(p, encoding="utf-8").read() for p in files()}
    names, fields = own_names(texts)
    # what a lemma's name may join: definitions, which have no dash
    defined = {n for n in names if "-" not in n and not n[0].isupper() and any("/specs/" in p for p in names[n])}
    turn = {n: spelled(n, defined) for n in names}
    turn = {a: b for a, b in turn.items() if a != b}
    turn.update(LIBRARY_NAMES)
    seen = set()
    for path, text in texts.items():
        for piece, aside in parted(path, text):
            if not aside:
                seen |= set(TOKEN.findall(piece))
    bad = False
    for a, b in sorted(turn.items()):
        if b in seen and a not in LIBRARY_NAMES and b not in APART:
            print(f"falls together: {a} and {b}")
            bad = True
    if len(set(turn.values())) != len(turn):
        print("two names get one spelling")
        bad = True
    if "--dry" in sys.argv:
        for a, b in sorted(turn.items()):
            print(f"{a} -> {b}")
    if bad or "--dry" in sys.argv:
        return 1
    changed = 0
    for path, text in texts.items():
        def turned(piece):
            return TOKEN.sub(lambda m: turn.get(m.group(0), m.group(0)), piece)

        new = "".join(t if aside else "".join(l if " : goal." in l else turned(l) for l in t.splitlines(keepends=True)) for t, aside in parted(path, text))
        new = new.replace("AllByRecursion as AllByRecursion", "AllByRecursion")
        # the labels of clauses are Rust's
        new = new.replace("requires.records_at_most", "requires.few_records").replace("record { features_at_most =", "record { few_features =").replace("; records_at_most =", "; few_records =")
        if new != text:
            with open(path, "w", encoding="utf-8") as f:
                f.write(new)
            changed += 1
    print(f"{len(turn)} names, {changed} files")
    return 0


if __name__ == "__main__":
    raise SystemExit(main())
