#!/usr/bin/env python3
"""Brings the repository's own definitions and lemmas to the spelling of today's Rattle: words in snake case.

usage: tools/respell.py         at the top, after port.py ran: rewrites crates/, once
       tools/respell.py -n      lists the names, and those that would fall together, and changes nothing
       tools/respell.py pages FILE..   the same names where pages have them between backticks

A name that begins with a capital is a type's or a module's and stays. A dash stays between two names of definitions, as in
`address-fits`, and is an underscore beside any other word, as in `first_by_length`. What Rattle source declares keeps its name, and so
do the answers in Proof.antt. specs/Contracts.antt of model gets another name, since Rattle makes a module of that one.
"""

import glob
import os
import re
import sys

HEAD = re.compile(r"^\s*(?:(?:unfoldable|abbrev|pub|data|record|ruleset)\s+)*([^\s:(){}λ.,]+)\s+:(?:\s|$)")
TOKEN = re.compile(r"[^\s(){}\[\],;.:«»`\"]+")
LIBRARY = set("length map append set take drop reverse replicate filter get_or eqb ltb leb nat_eq zero suc cond and or not sets sum mem".split())
MOVED = ("crates/model/specs/Contracts.antt", "crates/model/specs/Agreements.antt")
# Lemmas that would get the name of a definition that one of their files has.
CHOSEN = {
    n: n.replace("-", "_") + "_lem"
    for n in """as-tuple by-kind cell-leads collects-to field-cell first-of is-no-room loads-raw never-damaged never-shape no-root object-form
    on-field on-object on-pieces on-roots same-record says-of-code sets-to tuple-pieces""".split()
}
IN_FILE = {
    "demands/proofs/Demand1.antt": "fresh_keeps",
    "reader_placing/proofs/Digits.antt": "is_digit",
    "writer_measuring/proofs/Leads.antt": "no_fields",
    "writer_measuring/proofs/Fields.antt": "no_fields",
    "demands/proofs/Rivals.antt": "no_room",
    "demands/proofs/RivalsOfCounts.antt": "no_room",
    "demands/proofs/RivalsOfTexts.antt": "no_room",
    "demands/proofs/CallWrite.antt": "plain_form",
    "crossing/proofs/Apart.antt": "seen_value",
    "crossing/proofs/Crosses.antt": "sent_back",
}


def texts():
    for f in sorted(glob.glob("crates/*/*/**/*.antt", recursive=True)):
        if "/out/" not in f:
            yield f


def sources():
    return sorted(glob.glob("crates/*/src/**/*.rt", recursive=True))


def read(path):
    with open(path, encoding="utf-8") as f:
        return f.read()


def declared():
    """Each name that a file of specs/ or of lemmas declares, with the files; and the names among them that records have as fields."""
    names, defined = {}, set()
    for path in texts():
        if "/proofs/" in path and os.path.basename(path) in ("Proof.antt", "Answers.antt", "Invariants.antt"):
            continue
        for line in read(path).split("\n"):
            m = HEAD.match(line)
            if m and not line.lstrip().startswith("--"):
                names.setdefault(m.group(1), set()).add(path)
                if "/specs/" in path:
                    defined.add(m.group(1))
    return names, defined


def snake(word):
    if word[:1].isupper():
        return word
    return re.sub(r"(?<=[a-z0-9])([A-Z])", lambda m: "_" + m.group(1).lower(), word)


def respelled(name, known):
    if name in CHOSEN:
        return CHOSEN[name]
    parts = [snake(p) for p in name.split("-")]
    if "" in parts:
        return name
    out = parts[0]
    for before, part in zip(parts, parts[1:]):
        out += ("-" if before in known and part in known else "_") + part
    return out


def renames():
    names, defined = declared()
    known = {snake(n) for n in defined if "-" not in n} | LIBRARY
    change = {n: respelled(n, known) for n in names}
    return names, {n: t for n, t in change.items() if n != t}


def turned(text, change, fields):
    def one(m):
        word, at = m.group(0), m.start()
        if word not in change:
            return word
        if at and text[at - 1] == ".":
            before = re.search(r"([^\s(){}\[\],;.:«»]+)\.$", text[:at][-80:])
            whole = before and before.group(1)[:1].isupper()
            if not whole and word not in fields:
                return word
        return change[word]

    return TOKEN.sub(one, text)


def record_fields():
    """The names that stand indented below a record's or a data's head: what may follow a dot that no module stands before."""
    found = set()
    for path in texts():
        inside = False
        for line in read(path).split("\n"):
            if re.match(r"^\s*(?:pub\s+)?(?:record|data)\s", line):
                inside = True
            elif line and not line[0].isspace() and not line.startswith("--"):
                inside = False
            m = HEAD.match(line)
            if inside and m and line[:1].isspace():
                found.add(m.group(1))
    return found


def clashes(names, change):
    """New names that something else has already, where both stand in one file."""
    meet = {}
    for old, new in change.items():
        meet.setdefault(new, []).append(old)
    for new, olds in sorted(meet.items()):
        if len(olds) > 1 or new in names:
            yield f"together: {new}: {' '.join(olds)}" + (f" {new}" if new in names else "")
    for path in list(texts()) + sources():
        words = set(TOKEN.findall(read(path)))
        for old, new in change.items():
            if old in words and new in words and new not in names:
                yield f"also there: {new}, of {old}: {path}"


def pages(files):
    names, change = {}, {}
    names, _ = declared()
    known = {n for n in names if "-" not in n} | LIBRARY
    for path in files:
        text = read(path)

        def quoted(m):
            def one(w):
                word = w.group(0)
                if word in names or not re.match(r"^[a-z]", word):
                    return word
                for to in (respelled(word, known), respelled(word, set()), snake(word)):
                    if to in names:
                        return to
                return word

            return "`" + TOKEN.sub(one, m.group(1)) + "`"

        new = re.sub(r"`([^`\n]+)`", quoted, text)
        if new != text:
            with open(path, "w", encoding="utf-8") as f:
                f.write(new)


def main(words):
    if words[:1] == ["pages"]:
        return pages(words[1:])
    names, change = renames()
    if words == ["-n"]:
        for old, new in sorted(change.items()):
            print(old, new)
        for line in clashes(names, change):
            print(line)
        return
    fields = record_fields()
    for path in list(texts()) + sources():
        text = read(path)
        alone = IN_FILE.get(path[len("crates/") :])
        new = turned(text, change | ({alone: alone + "_lem"} if alone else {}), fields)
        if path.endswith(".rt"):
            new = new.replace("Rattle.model.specs.Contracts", "Rattle.model.specs.Agreements")
        else:
            new = re.sub(r"(specs\.|pub mod )Contracts\b", r"\1Agreements", new)
        if new != text:
            with open(path, "w", encoding="utf-8") as f:
                f.write(new)
    if os.path.exists(MOVED[0]):
        os.rename(*MOVED)


main(sys.argv[1:])
