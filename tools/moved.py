#!/usr/bin/env python3
"""What moved between two commits, by name: how many definitions, functions, theorems and lemmas of each crate are new,
moved there, changed, gone and the same. One table in Markdown, a row a crate.

    tools/moved.py [--names] BASE [HEAD]    HEAD is the commit HEAD if not given; --names also lists what moved

definitions   in specs/ every declaration; in src/ each struct, enum, const and type, and each function's contract
functions     in src/ each function's body
theorems      in proofs/ the last pub declaration of each Proof.antt, as older commits have them; of other files what
              docs/PROMISES.md of the same commit names in backquotes, as `Module.name`, or as `name` if that has a
              hyphen, an underscore or a digit and no other of these files declares it (a single word is too often a
              field, a call or a crate)
lemmas        in proofs/ every other declaration

Texts are compared without comments and, but for strings, white space; a declaration's has its `where` and the headers
of the modules around it. One that stands in another file or crate than before, its own name and its text the same,
is moved, and counted where it stands now; one that is renamed is one gone and one new, and so is a lemma that
PROMISES.md begins to name. Files are read in the layout of `rt fmt`: a line that cannot be placed is told by file and
line, with exit status 2, so that nothing is counted in part.
"""
import itertools
import re
import subprocess
import sys
from collections import Counter, namedtuple
from types import SimpleNamespace as Entry

KINDS = ["definitions", "functions", "theorems", "lemmas"]
SIGNS = {"new": "+", "moved": ">", "changed": "~", "gone": "-", "same": "="}
CRATES, PROMISES = "crates.txt", "docs/PROMISES.md"
SOURCE = re.compile(r"crates/([^/]+)/(specs|proofs|src)/(.+)\.(?:antt|rt)")
Line = namedtuple("Line", "place indent text")

STRING = r'("(?:\\.|[^"\\])*")'
COMMENT = {"src": r"//.*", "specs": r"(?:^|\s)--.*", "proofs": r"(?:^|\s)--.*"}
# Of a text with single spaces. What has `=` before its `:` is an equation, and a `const fn` would be no const.
NO_ENTRY = re.compile(r"(ghost )?(pub(\(\w+\))? )?(use |mod \w+;?$)")
MODULE = re.compile(r"(?:pub )?module (\S+)")
DECLARED = re.compile(r"((?:(?:abbrev|unfoldable|pub) )*)"
                      r"(?:(?:record|data|ruleset) (\S+)|((?:(?!= )[^\s(){}:]+ )+)(?:\{\S+\} )*: )")
ITEM = re.compile(r"(?:#\[[^]]*\] )*(?:pub(?:\(\w+\))? )?(?:extern \S+ )?"
                  r"(?:(fn|struct|enum|const|type)|impl(?:<[^>]*>)?(?: [^{;]* for)?) (?!fn\b)(\w+)")


def fail(line, why):
    print(f"{line.place}: {why}: {line.text}", file=sys.stderr)
    sys.exit(2)


def spaced(chunk):
    return " ".join(word for line in chunk for word in line.text.split())


def squeezed(chunk):
    return re.sub(STRING + r"|\s+", r"\1", "".join(line.text for line in chunk))


def chunks(lines):
    """Splits lines before each that starts as far left as the first, unless with a bracket or below an attribute."""
    found = []
    for line in lines:
        if line.indent < lines[0].indent:
            fail(line, "stands left of what it is in")
        goes_on = line.indent > lines[0].indent or line.text[0] in ")]}{"
        if found and (goes_on or found[-1][-1].text.startswith("#[")):
            found[-1].append(line)
        else:
            found.append([line])
    return [chunk for chunk in found if not NO_ENTRY.match(spaced(chunk))]


def opened(chunk, opens):
    """A chunk up to the line that opens its block, and the block."""
    at = next((i for i, line in enumerate(chunk, 1) if opens(line)), None)
    return (chunk[:at], chunk[at:]) if at else fail(chunk[0], "opens no block")


def owners(chunk, here, last):
    """Whose lines these are that begin no declaration: an equation has its name first, or around its operands."""
    words = re.findall(r"[^\s(){}]+", spaced(chunk).split(" = ")[0])
    infix = [name for name in here if "◌" in name or re.search("^_.|._$", name)]
    infix = [name for name in infix if set(filter(None, re.split("[_◌]", name))) <= set(words)]
    found = last if words[:1] == ["unfolding"] else [here[name] for name in words[:1] + infix if name in here][:1]
    return found or fail(chunk[0], "belongs to no declaration")


def declarations(lines, kind, path, around=""):
    """The declarations of a file or module; `around` are the headers of the modules that it stands in."""
    found, here, last = [], {}, []
    for chunk in chunks(lines):
        module, declared = MODULE.match(spaced(chunk)), DECLARED.match(spaced(chunk))
        if module:
            header, inner = opened(chunk, lambda line: line.text.split()[-1] == "where")
            inner_path, last = path + [module[1]] * (module[1] != "_"), []
            found += declarations(inner, kind, inner_path, around + squeezed(header))
            continue
        if declared:
            names, pub = (declared[2] or declared[3]).split(), "pub" in declared[1]
            last = [Entry(kind=kind, name=".".join(path + [name]), text=around, pub=pub) for name in names]
            here.update(zip(names, last))
            found += last
        for entry in last if declared else owners(chunk, here, last):
            entry.text += squeezed(chunk)
    return found


def items(lines, path, around=""):
    """The items of a file of code, or of an `impl` that begins with `around`."""
    found = []
    for chunk in chunks(lines):
        item = ITEM.match(spaced(chunk)) or fail(chunk[0], "begins no item")
        word, name, head, body = *item.groups(), chunk, []
        if word in ("fn", None):
            head, body = opened(chunk, lambda line: line.indent == chunk[0].indent and line.text[-1] == "{")
        full, said = "::".join(path + [name]), around + squeezed(head)
        found += [Entry(kind="definitions", name=full, text=said)] if word else items(body[:-1], path + [name], said)
        found += [Entry(kind="functions", name=full, text=squeezed(body))] if word == "fn" else []
    return found


def entries_of_file(file, text, folder, path):
    lines = [re.sub(f"{STRING}|{COMMENT[folder]}", r"\1", line).rstrip() for line in text.split("\n")]
    lines = [Line(f"{file}:{i}", len(x) - len(x.lstrip()), x.lstrip()) for i, x in enumerate(lines, 1)
             if x and not x.startswith("#![")]
    if folder == "src":
        return items(lines, [part for part in path if part not in ("lib", "main", "mod")])
    return declarations(lines, "definitions" if folder == "specs" else "lemmas", path)


def theorems(proofs, promises):
    """Those of the declarations in proof files; `proofs` has each file's name with what it declares."""
    named = set(re.findall("`([^`\n]+)`", promises))
    laws = [entry for file, inside in proofs if file != "Proof" for entry in inside]
    often = Counter(entry.name.split(".")[-1] for entry in laws)
    plain = {name for name in named if often[name] == 1 and re.search(r"[-_\d]", name)}
    closing = [entry for file, inside in proofs if file == "Proof" for entry in [x for x in inside if x.pub][-1:]]
    return closing + [x for x in laws if ".".join(x.name.split(".")[-2:]) in named or x.name.split(".")[-1] in plain]


def entries(texts):
    """The text of each entry, by crate, kind and name."""
    found, proofs, by_name = [], [], {}
    for file in filter(SOURCE.fullmatch, texts):
        crate, folder, module = SOURCE.fullmatch(file).groups()
        inside = entries_of_file(file, texts[file], folder, module.split("/"))
        found += [(crate, entry) for entry in inside]
        proofs += [(module.split("/")[-1], inside)] if folder == "proofs" else []
    for entry in theorems(proofs, texts.get(PROMISES, "")):
        entry.kind = "theorems"
    for crate, entry in found:
        if (crate, entry.kind, entry.name) in by_name:
            fail(Line(f"crates/{crate}", 0, entry.name), f"two of the {entry.kind} have one name")
        by_name[crate, entry.kind, entry.name] = entry.text
    return by_name


def git(*words, given=""):
    done = subprocess.run(["git", *words], input=given.encode(), stdout=subprocess.PIPE)
    return done.stdout if done.returncode == 0 else sys.exit(2)


def files_of(commit):
    """Path and text of each file that has entries, or says what is one."""
    rows = [row.partition("\t") for row in git("ls-tree", "-rz", "--full-tree", commit).decode().split("\0")]
    blobs = {path: meta.split()[2] for meta, _, path in rows if SOURCE.fullmatch(path) or path in (PROMISES, CRATES)}
    output, at, texts = git("cat-file", "--batch", given="".join(f"{blob}\n" for blob in blobs.values())), 0, {}
    for path in blobs:
        start = output.index(b"\n", at) + 1
        at = start + int(output[at:start].split()[2]) + 1
        texts[path] = output[start:at - 1].decode()
    return texts


def fates_of(old, new):
    """What became of each entry, by crate, kind and name."""
    fates, left = {x: "gone" for x in old}, {}
    fates.update({x: "same" if old.get(x) == new[x] else "changed" if x in old else "new" for x in new})

    def without_place(entry, text):
        return entry[1], re.split(r"\.|::", entry[2])[-1], text

    for entry in [x for x in old if fates[x] == "gone"]:
        left.setdefault(without_place(entry, old[entry]), []).append(entry)
    for entry in [x for x in new if fates[x] == "new"]:
        before = left.get(without_place(entry, new[entry]))
        if before:
            fates[entry] = "moved"
            del fates[before.pop(0)]
    return fates


def table(fates, crates):
    yield from ["+ new, > moved here, ~ changed, - gone, = the same.", "", f"| crate | {' | '.join(KINDS)} |", "|---" * 5 + "|"]
    count = Counter((row, kind, fate) for (crate, kind, _), fate in fates.items() for row in (f"`{crate}`", "all"))
    for row in [*(f"`{crate}`" for crate in crates), "all"]:
        signed = [[f"{SIGNS[x]}{count[row, kind, x]}" for x in SIGNS if count[row, kind, x]] for kind in KINDS]
        yield " | ".join(["| " + row, *map(" ".join, signed)]) + " |"


def moved_names(fates, crates):
    for crate, kind, fate in itertools.product(crates, KINDS, ["new", "moved", "changed", "gone"]):
        those = sorted(key[2] for key, became in fates.items() if (*key[:2], became) == (crate, kind, fate))
        if those:
            yield f"- `{crate}`, {kind}, {fate}: " + ", ".join(f"`{name}`" for name in those)


def main():
    commits = [word for word in sys.argv[1:] if word != "--names"]
    if len(commits) not in (1, 2):
        fail(Line("tools/moved.py", 0, "[--names] BASE [HEAD]"), "one commit or two")
    base, head = [files_of(commit) for commit in (commits + ["HEAD"])[:2]]
    fates = fates_of(entries(base), entries(head))
    listed = re.findall(r"^(\w+):", head.get(CRATES, ""), re.M)
    crates = listed + sorted({crate for crate, _, _ in fates} - set(listed))
    sys.stdout.reconfigure(encoding="utf-8")
    print(*table(fates, crates), *(["", *moved_names(fates, crates)] if "--names" in sys.argv else []), sep="\n")


main()
