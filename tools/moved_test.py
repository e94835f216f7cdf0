#!/usr/bin/env python3
"""Tests tools/moved.py: commits two small trees to a repository in a temporary directory, and compares what is printed
of them with what must be; then one with a line that belongs nowhere, which must be told. Exit status 0 if all is as it
must be, else 1 and the lines that differ.

The crates `meanings`, `code` and `laws` have of each kind one new, one changed, one gone and one that is the same;
`layout` has what only seems to change, or changes for a reason that stands elsewhere; `attic` is gone, and one of its
two definitions, as it was, is in `meanings`.
"""
import difflib
import os
import re
import subprocess
import sys
import tempfile

TOOL = os.path.join(os.path.dirname(os.path.abspath(__file__)), "moved.py")

BASE = '''
=== crates.txt
# in this order
meanings:
code: meanings
laws:
attic:
layout: laws
=== docs/PROMISES.md
Theorems `Sums.adds` and `sum-is`; `moves` is a field; two files have `twice-told`.
=== crates/attic/specs/Old.antt
abbrev pub old : ℕ
old = 0

abbrev pub kept : ℕ
kept = 7
=== crates/meanings/specs/Steps.antt
use Prim.Native.Nat.{ℕ}

abbrev pub first : ℕ
first = 1

pub record Pair {ℓ} (A : Type ℓ) : Type ℓ where
  pub left : A
  pub right : A

unfoldable pub last : ℕ → ℕ
unfolding first
last n = first
=== crates/code/src/lib.rt
ghost use mathlib.Core.Path.{_≡_};
pub mod inner;

pub fn stays(n: u32) -> u32
    requires { ⌜ n < 4 ⌝ }
    ensures same { λ r. ⌜ record { a = r } ≡ record { a = n } ⌝ }
{
    n
}

pub fn goes() {
    stays(1);
}
=== crates/code/src/inner.rt
#[repr(C)]
pub struct Box {
    pub n: u32,
}

impl Box {
    pub(crate) fn turned(
        n: u32,
    ) -> u32
        ensures { λ r. ⌜ r ≡ n ⌝ }
    {
        n
    }
}
=== crates/laws/proofs/Sums.antt
pub adds : ℕ
adds = 1

pub sum-is : ℕ
sum-is = 2

leaves : ℕ
leaves = 3
=== crates/laws/proofs/inner/walk/Proof.antt
start : ℕ
start = 1

pub returns : (n : ℕ)
    → ℕ
returns zero = 1
returns (suc n) = record {
  n = n;
} .n

pub walk-spec : {M : Type 1} → statement M
walk-spec = close start
=== crates/layout/specs/Shapes.antt
module _ (Y : ℕ) where
  abbrev pub flat : ℕ
  flat = Y

  module _ (s : ℕ)
      (t : ℕ)
    where
      deep : ℕ
      deep = s

  module Named where
    pub data Tree : Type 0 where
      leaf : Tree

abbrev pub roomy {ℓ} : {A : Type ℓ} → A → A
roomy n = n

_⟦_⟧ : ℕ → ℕ → ℕ
(n) ⟦ zero ⟧ = n
=== crates/layout/src/lib.rt
pub const MOST: [u32; 2] = [1, 2];

pub fn promised(n: u32) -> u32
    ensures { λ r. ⌜ record { a = r } ≡ record {
        a = n;
    } ⌝ }
{
    n
}

pub fn worked(n: u32) -> u32
    ensures { λ r. ⌜ r ≡ n ⌝ }
{
    n
}

#[no_mangle]
pub extern "C" fn quiet(n: u32) -> u32 {
    n
}

fn said() {
    show::text(b"one // two");
}
=== crates/layout/proofs/Again.antt
pub twice-told : ℕ
twice-told = 1
=== crates/layout/proofs/Twice.antt
pub twice-told : ℕ
twice-told = 1

helped : ℕ
helped = go 1
  where
    go : ℕ → ℕ
    go n = n

opens : ℕ
unfolding first
opens = first

ruleset sorting = (first, second)

moves : ℕ
moves = 1
'''

# What the second tree has in place of what stands once in the first.
CHANGES = [
    # meanings: a definition goes, one changes, one comes
    ("use Prim.Native.Nat.{ℕ}\n", "use Prim.Native.Nat.{ℕ, _+_}\n"),
    ("  pub right : A\n", "  pub right : ℕ\n"),
    ("unfoldable pub last : ℕ → ℕ\nunfolding first\nlast n = first\n",
     "abbrev pub next : ℕ → ℕ\nnext n = n + first\n"),
    # code: the same of functions
    ("ghost use mathlib.Core.Path.{_≡_};\n", ""),
    ("pub fn goes() {", "pub fn comes() {"),
    ("    {\n        n\n    }\n", "    {\n        n + 0\n    }\n"),
    # laws: the same of theorems and lemmas
    ("`Sums.adds`", "`Sums.comes`"),
    ("pub adds : ℕ\nadds = 1", "pub comes : ℕ\ncomes = 1"),
    ("leaves : ℕ\nleaves = 3", "follows : ℕ\nfollows = 3"),
    ("  n = n;\n} .n", "  n = n + 1;\n} .n"),
    ("walk-spec = close start", "walk-spec = close start start"),
    # layout: a parameter, comments and spaces, a contract alone, a body alone, a string, a helper, a move
    ("module _ (Y : ℕ) where", "module _ (Y : List ℕ) where"),
    ("abbrev pub roomy {ℓ} : {A : Type ℓ} → A → A\nroomy n = n\n",
     "-- as it came\nabbrev  pub roomy {ℓ}\n    : {A : Type ℓ} → A → A -- of any size\nroomy n =\n    n\n"),
    ("(n) ⟦ zero ⟧ = n", "(n) ⟦ zero ⟧ = zero"),
    ("[1, 2];", "[1, 3];"),
    ("        a = n;\n", "        a = n + 0;\n"),
    ("worked(n: u32) -> u32\n    ensures { λ r. ⌜ r ≡ n ⌝ }\n{\n    n\n}",
     "worked(n: u32) -> u32\n    ensures { λ r. ⌜ r ≡ n ⌝ }\n{\n    n + 0\n}"),
    ('#[no_mangle]\npub extern "C" fn quiet(n: u32) -> u32 {\n    n\n}',
     '// Quiet.\n#[no_mangle]\n// Still.\npub extern "C" fn quiet(\n    n: u32\n) -> u32 {\n    n // as it came\n}'),
    ("one // two", "one // three"),
    ("    go n = n\n", "    go n = zero\n"),
    ("unfolding first\nopens", "unfolding first second\nopens"),
    ("ruleset sorting = (first, second)", "ruleset sorting = (first, third)"),
    ("\nmoves : ℕ\nmoves = 1\n", ""),
    ("Again.antt\npub twice-told : ℕ\ntwice-told = 1\n",
     "Again.antt\npub twice-told : ℕ\ntwice-told = 1\n\nmoves : ℕ\nmoves = 1\n"),
    # attic
    ("attic:\n", ""),
    ("=== crates/attic/specs/Old.antt\nabbrev pub old : ℕ\nold = 0\n\nabbrev pub kept : ℕ\nkept = 7\n", ""),
    ("abbrev pub first : ℕ\nfirst = 1\n",
     "abbrev pub first : ℕ\nfirst = 1\n\nabbrev pub kept : ℕ\nkept = 7\n\nabbrev pub old : ℕ\nold = 1\n"),
]


def changed(tree):
    for old, new in CHANGES:
        assert tree.count(old) == 1, f"{old!r} stands {tree.count(old)} times in the first tree"
        tree = tree.replace(old, new)
    return tree


HEAD = changed(BASE)

EXPECTED = '''+ new, > moved here, ~ changed, - gone, = the same.

| crate | definitions | functions | theorems | lemmas |
|---|---|---|---|---|
| `meanings` | +2 >1 ~1 -1 =1 |  |  |  |
| `code` | +1 -1 =3 | +1 ~1 -1 =1 |  |  |
| `laws` |  |  | +1 ~1 -1 =1 | +1 ~1 -1 =1 |
| `layout` | ~6 =4 | ~2 =2 |  | >1 ~3 =2 |
| `attic` | -1 |  |  |  |
| all | +3 >1 ~7 -3 =8 | +1 ~3 -1 =3 | +1 ~1 -1 =1 | +1 >1 ~4 -1 =3 |

- `meanings`, definitions, new: `Steps.next`, `Steps.old`
- `meanings`, definitions, moved: `Steps.kept`
- `meanings`, definitions, changed: `Steps.Pair`
- `meanings`, definitions, gone: `Steps.last`
- `code`, definitions, new: `comes`
- `code`, definitions, gone: `goes`
- `code`, functions, new: `comes`
- `code`, functions, changed: `inner::Box::turned`
- `code`, functions, gone: `goes`
- `laws`, theorems, new: `Sums.comes`
- `laws`, theorems, changed: `inner.walk.Proof.walk-spec`
- `laws`, theorems, gone: `Sums.adds`
- `laws`, lemmas, new: `Sums.follows`
- `laws`, lemmas, changed: `inner.walk.Proof.returns`
- `laws`, lemmas, gone: `Sums.leaves`
- `layout`, definitions, changed: `MOST`, `Shapes.Named.Tree`, `Shapes._⟦_⟧`, `Shapes.deep`, `Shapes.flat`, `promised`
- `layout`, functions, changed: `said`, `worked`
- `layout`, lemmas, moved: `Again.moves`
- `layout`, lemmas, changed: `Twice.helped`, `Twice.opens`, `Twice.sorting`
- `attic`, definitions, gone: `Old.old`
exit status 0
crates/attic/specs/Old.antt:3: belongs to no declaration: older = 1
exit status 2
'''

STRAY = BASE.replace("old = 0\n", "old = 0\nolder = 1\n")

# Nothing of the user's settings, nor of a repository that the gate may stand in, is to be seen.
ENVIRONMENT = {name: value for name, value in os.environ.items() if not name.startswith("GIT_")}
ENVIRONMENT.update(GIT_CONFIG_GLOBAL=os.devnull, GIT_CONFIG_NOSYSTEM="1", LC_ALL="C")


def run(folder, *words):
    return subprocess.run(words, cwd=folder, env=ENVIRONMENT, stdout=subprocess.PIPE, stderr=subprocess.STDOUT)


def git(folder, *words):
    done = run(folder, "git", "-c", "user.name=test", "-c", "user.email=test@example.org", *words)
    return done.stdout.decode().strip() if done.returncode == 0 else sys.exit(f"git: {done.stdout.decode()}")


def commit(folder, name, tree):
    """Writes the tree to a folder of its own, and gives the commit of it."""
    work = os.path.join(folder, name)
    for file, text in re.findall(r"^=== (.*)\n((?:(?!=== ).*\n)*)", tree, re.M):
        path = os.path.join(work, file)
        os.makedirs(os.path.dirname(path), exist_ok=True)
        with open(path, "w", encoding="utf-8") as out:
            out.write(text)
    git(folder, f"--work-tree={work}", "add", "--all")
    git(folder, "commit", "--quiet", "--message", name)
    return git(folder, "rev-parse", "HEAD")


def said(folder, *words):
    done = run(folder, sys.executable, TOOL, *words)
    return f"{done.stdout.decode()}exit status {done.returncode}\n"


def main():
    os.umask(0o022)
    with tempfile.TemporaryDirectory() as folder:
        git(folder, "init", "--quiet", "--template=")
        stray, base, _ = [commit(folder, *tree) for tree in [("stray", STRAY), ("base", BASE), ("head", HEAD)]]
        printed = said(folder, "--names", base) + said(folder, base, stray)
    lines = [text.splitlines(True) for text in (EXPECTED, printed)]
    sys.stdout.reconfigure(encoding="utf-8")
    sys.stdout.writelines(difflib.unified_diff(*lines, "expected of tools/moved.py", "printed"))
    sys.exit(0 if printed == EXPECTED else 1)


main()
