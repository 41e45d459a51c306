#!/usr/bin/env python3
"""Brings the repository's own names to Rattle's spelling: words in snake case, types and facts in camel case.

usage: tools/spelling.py [--look]     at the top of the repository, once, right after the kit's port.py
--look writes nothing and lists names that would fall together with another name of a file.

A name is turned word by word between its dashes: 'beOf-beBytes-lt' becomes 'be_of-be_bytes-lt'. Names that begin with a capital, and all names of Rust's own, are in
their spelling already. The names that no rule gives stand in OWN.
"""

import collections
import glob
import os
import re
import subprocess
import sys

OWN = {
    # facts
    "besideBy": "BesideBy",
    # definitions of several words
    "ask-equal": "ask_equal",
    "ask-most": "ask_most",
    "first-call": "first_call",
    "fourth-call": "fourth_call",
    "free-at": "free_at",
    "none-held": "none_held",
    "first-lists": "first_lists",
    "shared-lists": "shared_lists",
    "last-lists": "last_lists",
    "map-lent": "map_lent",
    "counts-lent": "counts_lent",
    "none-hit": "none_hit",
    "leaf-blocks": "leaf_blocks",
    "root-block": "root_block",
    "pair-counts": "pair_counts",
    "by-block": "by_block",
    # fields of records
    "agno-fits": "agno_fits",
    "agblocks-fits": "agblocks_fits",
    "uuid-long": "uuid_long",
    "uuid-bytes": "uuid_bytes",
    "lsn-fits": "lsn_fits",
    "counts-are": "counts_are",
    "free-are": "free_are",
    "map-bytes": "map_bytes",
    "counts-bytes": "counts_bytes",
    "map-order": "map_order",
    "counts-order": "counts_order",
    "room-left": "room_left",
    "map-returned": "map_returned",
    "counts-returned": "counts_returned",
    "free-now": "free_now",
    "still-held": "still_held",
    "takes-held": "takes_held",
    "answers-are": "answers_are",
    "list-bytes": "list_bytes",
    "part-is": "part_is",
    "said-is": "said_is",
    "block-lists": "block_lists",
    "record-lists": "record_lists",
    "scratch-is": "scratch_is",
    "blocks-are": "blocks_are",
    "records-are": "records_are",
    "header-fits": "header_fits",
    "record-some": "record_some",
    "leaf-some": "leaf_some",
    "node-some": "node_some",
    "keys-long": "keys_long",
    "stamp-long": "stamp_long",
    "level-fits": "level_fits",
    "left-fits": "left_fits",
    "right-fits": "right_fits",
    "are-bytes": "are_bytes",
    "keys-bytes": "keys_bytes",
    "stamp-body": "stamp_body",
    "stamp-passes": "stamp_passes",
    "stamp-left": "stamp_left",
    "stamp-right": "stamp_right",
    "no-file": "no_file",
    "later-below": "later_below",
    "name-held": "name_held",
    "record-length": "record_length",
    # letters of a text
    "lC": "letter_c",
    "lI": "letter_i",
    "lM": "letter_m",
    "lN": "letter_n",
    "lU": "letter_u",
    "lZ": "letter_z",
}
# facts, which keep their capital within a longer name
FACTS = {"isBytes": "IsBytes"}

# names of a few files that would fall together with a turned one, or that mean a fact there: file, old, new
HERE = [
    ("crates/trees/proofs/LeafWalk.antt", "by_level", "visits_by_level"),
    ("crates/trees/proofs/LevelWalk.antt", "by_level", "visits_by_level"),
    ("crates/trees/proofs/WalkedBack.antt", "by_level", "visits_by_level"),
    ("crates/trees/proofs/BuiltReturned.antt", "by_level", "visits_by_level"),
    ("crates/lists/proofs/CountJoins.antt", "goes_on", "goes_on_lem"),
    ("crates/lists/proofs/Raising.antt", "full_at", "full_at_lem"),
    ("crates/lists/proofs/Changes.antt", "full_at", "full_at_lem"),
    ("crates/free/proofs/Ordered.antt", "in_order", "in_order_lem"),
    ("crates/walks/specs/inner/WalkState.antt", "left", "Leaves"),
]
# the fact `left` of WalkState, where 'left' is also a field and a variable
LEFT = [("WalkState.{left}", "WalkState.{Leaves}"), ("{ left result.walked", "{ Leaves result.walked"), (" left x (", " Leaves x ("), ("→ left (Read", "→ Leaves (Read")]

# the SCSI of networks is no name of this repository
TOKEN = re.compile(r"(?<![\w'-])(?!iSCSI)[^\W\d][\w'₀-₉-]*")
STRING = re.compile(r'b?"(?:[^"\\\n]|\\.)*"')
LOWER_CAMEL = re.compile(r"[a-z0-9][A-Z]")


def snake(word):
    if word in FACTS:
        return FACTS[word]
    if not word or not word[0].islower() or not LOWER_CAMEL.search(word):
        return word
    return re.sub(r"(?<=[a-z0-9])([A-Z])", lambda m: "_" + m[1].lower(), word)


def turned(name):
    if name in OWN:
        return OWN[name]
    return "-".join(OWN.get(part, snake(part)) for part in name.split("-"))


def sources():
    for p in sorted(glob.glob("crates/*/src/**/*.rt", recursive=True)):
        yield p
    for folder in ("specs", "proofs"):
        for p in sorted(glob.glob(f"crates/*/{folder}/**/*.antt", recursive=True)):
            yield p
    for p in sorted(glob.glob("crates/*/must-fail/*.edit")):
        yield p


def papers():
    # CHANGES.md keeps the names of its time
    return [p for p in ["README.md", *sorted(glob.glob("docs/*.md"))] if os.path.basename(p) not in ("CHANGES.md", "PORT.md")]


def outside_strings(turn, text):
    """turn of the text between strings, which keep what they have"""
    out, at = [], 0
    for m in STRING.finditer(text):
        out += [turn(text[at : m.start()]), m[0]]
        at = m.end()
    return "".join(out) + turn(text[at:])


def modules():
    """The module 'inner' of specs/ is 'Inner'."""
    for p in sorted(glob.glob("crates/*/specs/inner.antt")):
        subprocess.run(["git", "mv", p, p[: -len("inner.antt")] + "Inner.antt"], check=True)
    for p in sorted(glob.glob("crates/*/specs/inner")):
        subprocess.run(["git", "mv", p, p[: -len("inner")] + "Inner"], check=True)
    paths = [*sources(), *papers()]
    for p in paths:
        with open(p, encoding="utf-8") as f:
            text = f.read()
        new = re.sub(r"\bspecs([./])inner\b", r"specs\1Inner", text)
        new = re.sub(r"(?m)^pub mod inner$", "pub mod Inner", new)
        new = new.replace("`inner`", "`Inner`")
        if new != text:
            with open(p, "w", encoding="utf-8") as f:
                f.write(new)


def first():
    for p, old, new in HERE:
        with open(p, encoding="utf-8") as f:
            text = f.read()
        with open(p, "w", encoding="utf-8") as f:
            f.write(TOKEN.sub(lambda m: new if m[0] == old else m[0], text))
    for p in sorted(glob.glob("crates/walks/**/*.*", recursive=True)):
        if not p.endswith((".rt", ".antt")):
            continue
        with open(p, encoding="utf-8") as f:
            text = f.read()
        if "WalkState.{left}" not in text:
            continue
        for old, new in LEFT:
            text = text.replace(old, new)
        with open(p, "w", encoding="utf-8") as f:
            f.write(text)


def main(look):
    if not look:
        first()
    together = collections.Counter()
    for p in sources():
        with open(p, encoding="utf-8") as f:
            text = f.read()
        tokens = set(TOKEN.findall(text))
        moves = {t: turned(t) for t in tokens if turned(t) != t}
        for old, new in sorted(moves.items()):
            if new in tokens:
                together[(old, new)] += 1
                if look:
                    print(f"together: {p}: {old} {new}")
        if not look and moves:
            with open(p, "w", encoding="utf-8") as f:
                f.write(outside_strings(lambda part: TOKEN.sub(lambda m: moves.get(m[0], m[0]), part), text))
    for p in papers():
        with open(p, encoding="utf-8") as f:
            text = f.read()

        def code(m):
            return TOKEN.sub(lambda t: turned(t[0]), m[0])

        new = re.sub(r"`[^`\n]+`", code, text)
        if new != text and not look:
            with open(p, "w", encoding="utf-8") as f:
                f.write(new)
    if not look:
        modules()
    print(f"spelling: {len(together)} names fall together with another of a file")


if __name__ == "__main__":
    main("--look" in sys.argv[1:])
