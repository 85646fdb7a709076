#!/usr/bin/env python3
"""Brings the names of definitions, lemmas, ghost members and record fields to snake case, and those of
statements to camel case. Run once at the top of a checkout, after port.py, with everything committed.

Functions of src/, exported names, strings, inputs and outputs keep their names. Prints the renamings and each
pair of names that falls together in one file.
"""
import collections
import glob
import re
import subprocess
import sys

GENERATED = re.compile(r"/proofs/.*/(Answers|Invariants|Proof)\.antt$")
WORD = r"[\w'\-◌]"
NAME = re.compile(r"[A-Za-z][A-Za-z0-9_'\-]*$")

antt = sorted(glob.glob("crates/*/specs/**/*.antt", recursive=True) + glob.glob("crates/*/proofs/**/*.antt", recursive=True))
sources = sorted(glob.glob("crates/*/src/**/*.rt", recursive=True))
edits = sorted(glob.glob("crates/*/must-fail/*.edit"))


def respelled(name):
    """The name in snake case, or in camel case where it begins with a capital."""
    if name[0].isupper():
        return "".join(part[0].upper() + part[1:] for part in name.split("-"))
    name = name.replace("-", "_")
    name = re.sub(r"(?<=[a-z0-9])([A-Z])", lambda m: "_" + m.group(1).lower(), name)
    return name.lower()


def defined(text):
    """The names that a file of specs/ or proofs/ defines, fields among them."""
    names = set()
    for line in text.split("\n"):
        if line.lstrip().startswith(("--", "use ", "let ")):
            continue
        found = re.match(r"\s*(?:abbrev |unfoldable |pub )*([^\s:(){}]+) :(?= |$)", line)
        found = found or re.match(r"\s*(?:pub )?(?:data|record|ruleset) ([^\s:(){}]+)", line)
        if found and NAME.match(found.group(1)):
            names.add(found.group(1))
    return names


texts = {path: open(path, encoding="utf-8").read() for path in antt + sources + edits}
names = set()
for path in antt:
    if not GENERATED.search("/" + path):
        names |= defined(texts[path])
for path in sources:
    names |= set(re.findall(r"\bghost ([a-z]\w*)(?:: \{| = \{)", texts[path]))
mapping = {name: respelled(name) for name in names if respelled(name) != name}
# Lemmas that are named before a definition was respelled, without its inner capital.
mapping.update({k: v for k, v in {"totalwhere-same": "total_where_same"}.items() if k in names})
if "--list" in sys.argv:
    for old, new in sorted(mapping.items()):
        print(old, "->", new)
# Lemmas that would fall together with the definition that they speak of.
APART = {
    "crates/points/proofs": {"point_at": "point_at_is"},
    "crates/readings/proofs": {"on-channel": "on_channel_small"},
    "crates/shares/proofs": {"monitors-net": "monitors_net_is", "way_up": "way_up_is"},
}
pattern = re.compile(rf"(?<!{WORD})(?:" + "|".join(sorted(map(re.escape, mapping), key=len, reverse=True)) + rf")(?!{WORD})")


def turned(text, path=""):
    for folder, apart in APART.items():
        if path.startswith(folder + "/"):
            for old, new in apart.items():
                text = re.sub(rf"(?<!{WORD}){re.escape(old)}(?!{WORD})", new, text)
    return pattern.sub(lambda m: mapping[m.group(0)], text)


def ghost_parts_turned(text):
    """A source file with its ghost lines and clauses turned: no name of the program is in camel case without
    a capital, nor has a dash, so that only strings have to be kept."""
    pieces = re.split(r'("(?:[^"\\\n]|\\.)*")', text)
    return "".join(piece if k % 2 else turned(piece) for k, piece in enumerate(pieces))


def words(text):
    """The names that are brought in or defined at a file's top."""
    found = []
    for group in re.findall(r"use [^\s{]+\.\{([^}]*)\}", text):
        found += [item.split(" as ")[-1].strip() for item in group.split(",")]
    found += re.findall(r"(?m)^(?:abbrev |unfoldable |pub )*([A-Za-z][\w'\-]*) :(?= |$)", text)
    return [word for word in found if NAME.match(word)]


for path, text in texts.items():
    new = ghost_parts_turned(text) if path.endswith(".rt") else turned(text, path)
    if path.endswith((".antt", ".rt")):
        before, after = collections.Counter(words(text)), collections.Counter(words(new))
        for word, count in after.items():
            if count > 1 and sum(before[w] > 1 for w in before if mapping.get(w, w) == word) == 0:
                print(f"look: {path}: {word} falls together")
    if new != text:
        open(path, "w", encoding="utf-8").write(new)
print(len(mapping), "names respelled")
subprocess.run(["git", "diff", "--stat"], check=False, stdout=subprocess.DEVNULL)
