#!/usr/bin/env python3
"""Counts, in crates/*/src of a checkout, the places of each point of docs/DESIGN-PASS.md and lists them.

    tools/forms.py [CHECKOUT]        counts and places
    tools/forms.py -q [CHECKOUT]     counts alone
"""
import collections
import itertools
import pathlib
import re
import sys

args = [a for a in sys.argv[1:] if a != "-q"]
quiet = "-q" in sys.argv
root = pathlib.Path(args[0] if args else ".")
files = {p.relative_to(root / "crates"): p.read_text() for p in sorted(root.glob("crates/*/src/*.rt"))}
# programs and exports, which have no callers among the crates
edge = re.compile(r"_rows$|_vectors$|_c$|^replay$|^plan$")


def crate(p):
    return p.parts[0]


def line(text, at):
    return text.count("\n", 0, at) + 1


def places(pattern, keep=lambda p, m: True):
    for p, s in files.items():
        for m in re.finditer(pattern, s, re.M):
            if keep(p, m):
                yield f"{p}:{line(s, m.start())} {m.group(0).strip().splitlines()[0]}"


def functions():
    """name, parameters, result and body of each function"""
    for p, s in files.items():
        for m in re.finditer(r"^( *)(?:pub(?:\([a-z]+\))? )?(?:extern \"C\" )?fn (\w+)(?:<[^>]*>)?\(([^)]*)\)([^{]*)", s, re.M):
            end = s.find(f"\n{m.group(1)}}}", m.end())
            names = [x.strip() for x in m.group(3).split(",") if x.strip()]
            yield p, line(s, m.start()), m.group(2), names, s[m.end() : end]


def show(name, found):
    found = list(found)
    print(f"{name}: {len(found)}")
    if not quiet:
        for f in found:
            print(f"    {f}")


enums = [
    f"{p}:{line(s, m.start())} {m.group(1)}"
    for p, s in files.items()
    for m in re.finditer(r"enum (\w+) \{(.*?)\n\}", s, re.S)
    if re.search(r"^    (Refused|Nothing|None|Other|NotOne|Unknown)\b", m.group(2), re.M)
]
show("1a own enums of the shape of Option or Result", enums)
flags = [
    f"{p}:{line(s, m.start())} {m.group(1)}.{f}"
    for p, s in files.items()
    for m in re.finditer(r"struct (\w+)[^{;]*\{(.*?)\n\}", s, re.S)
    for f in re.findall(r"^    (?:pub(?:\([a-z]+\))? )?(\w+): bool,", m.group(2), re.M)
]
show("1b flags in a struct", flags)
show("1c kinds and versions as numbers, in parameters and fields", places(r"\b(kind: u32|version: u16)\b"))
show("1d functions that answer a refusal by its number", (
    f"{p}:{n} {f}" for p, n, f, ps, b in functions() if "said: &mut [u64; 4]" in ps or "said: &mut u32" in ps or (f == "number" and crate(p) == "reasons")))

show("2a functions that a width tells apart", places(r"fn [a-z_]+(?:8|16|32|64)\("))
same = collections.defaultdict(list)
for p, n, f, ps, b in functions():
    if not edge.search(crate(p)) and f not in ("main", "from", "new"):
        same[f].append(f"{p}:{n}")
show("2b library functions of one name in several modules", (
    f"{f}: {', '.join(w)}" for f, w in sorted(same.items()) if len(w) > 1))

show("3 loops by while", places(r"^ *while .*"))
show("3 of these, with an index that goes up or down by one", (
    f"{p}:{line(s, m.start())} {m.group(0).strip().splitlines()[0]}"
    for p, s in files.items()
    for m in re.finditer(r"^( *)while [^{]*\{\n.*?^\1\}", s, re.M | re.S)
    if re.search(r"^\s+(\w+) [+-]= 1;", m.group(0), re.M)))

show("4a refusals turned to numbers by `told`", places(r"fn told\("))
by_hand = "is_uuid|same32|is_at|alike|comes_before|is_smaller|is_below|greater_key|smaller|larger|clamp|both|at_lsn|ceil_div|pick|choose|siblings_of"
show("4b equality, order, copies and choices by hand, by name", places(rf"fn (?:{by_hand})\("))
show("4c fields written `x: x`", places(r"^\s+(\w+): \1,$"))

facts = collections.Counter()
for p, s in files.items():
    for m in re.finditer(r"requires\s*(?:[a-z_]+\s*)?\{(.*?)\}\n", s, re.S):
        for fact in re.split(r"\s×\s", " ".join(m.group(1).split())):
            facts[fact.strip().strip("()")] += 1
show("5a facts that three contracts or more require", (f"{n} × {f}" for f, n in facts.most_common() if n >= 3))
packs = collections.defaultdict(set)
for p, n, f, ps, b in functions():
    if not edge.search(crate(p)):
        for some in itertools.combinations([x for x in ps if x not in ("self", "&self")], 3):
            packs[crate(p), some].add(f"{p}:{n}")
best = {}
for (c, some), w in packs.items():
    if len(w) >= 4:
        best.setdefault((c, frozenset(w)), set()).update(some)
show("5b three parameters or more that four functions of a crate take alike", (
    f"{c}: {', '.join(sorted(v))} in {len(w)}" for (c, w), v in sorted(best.items(), key=lambda x: (x[0][0], -len(x[0][1])))))

show("6a a slice and how much of it counts", (
    f"{p}:{n} {f}" for p, n, f, ps, b in functions()
    for a, z in zip(ps, ps[1:]) if re.match(r"\w+: &(mut )?\[", a) and re.match(r"n: usize", z)))
show("6b searches by halves", places(r"low \+ \(high - low\) / 2"))
show("6c arrays side by side", places(r"let mut \w+ = \[[A-Z_0-9a-z]+; 9\];"))

show("7 matches on what to do", places(r"match (how|e|self) \{", lambda p, m: crate(p) in ("lists", "groups") and (m.group(1) != "self" or "carried" in p.name)))

answers = [p for p in root.glob("crates/*/proofs/**/Answers.antt")]
goals = sum(len(re.findall(r"^pub [^ ]+ : goal\.", p.read_text(), re.M)) for p in answers)
print(f"8 answered goals: {goals}, in {len(answers)} files")
