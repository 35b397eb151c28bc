#!/usr/bin/env python3
"""Brings the repository's own definitions and lemmas to snake case, and the crate `hex` to the name `hex_chars`.

Ran once, at the top, right after the toolchain's port.py. A word that the repository declares and that has a capital inside is spelled
with underscores everywhere; one of a crate's specs/ that has a dash too. In a lemma's name a dash stays: it joins two names. Functions of
src/, types, modules, exported C names, strings, inputs and outputs keep their names. Names that would fall together stop it before
anything is written; four lemmas end in `_lem`, since their old name is now a definition's.
"""
import collections
import glob
import os
import re
import sys

TOKEN = re.compile(r"[^\s(){}\[\].,;:◌`\"|×]+")
# lemmas whose name a definition gets
LEMMAS = {"told_of": "told_of_lem", "told_in": "told_in_lem", "by_code": "by_code_lem", "after_items": "after_items_lem"}
# fine beside each other: no file sees both
APART = {"goes_on", "one_doubled", "one_lost"}
MODIFIERS = r"(?:(?:abbrev|unfoldable|pub|private)\s+)*"
DECLARED = re.compile(r"^\s*" + MODIFIERS + r"((?:[^\s(){}.,;:]+)(?:\s+[^\s(){}.,;:=]+)*)\s*(?:[({].*)?:\s")
TYPE = re.compile(r"^\s*" + MODIFIERS + r"(?:record|data)\s")


def spelled(name, is_word):
    if name in LEMMAS:
        return LEMMAS[name]
    name = re.sub(r"(?<=[a-z0-9])([A-Z])(?=[a-z])", lambda m: "_" + m.group(1).lower(), name)
    return name.replace("-", "_") if is_word else name


def files(*patterns):
    return sorted(f for p in patterns for f in glob.glob(p, recursive=True))


def is_walk(path):
    return os.path.basename(path) in ("Proof.antt", "Answers.antt", "Invariants.antt")


def declared_in(text):
    for line in text.split("\n"):
        line = line.split("--")[0]
        if TYPE.match(line) or re.match(r"\s*(use|mod|pub mod|let|in|λ|case)\b", line):
            continue
        m = DECLARED.match(line)
        for name in m.group(1).split() if m else []:
            yield name.strip("◌")


def main():
    antt = files("crates/*/specs/**/*.antt", "crates/*/proofs/**/*.antt")
    texts = {f: open(f).read() for f in antt}
    words = set()
    every = collections.defaultdict(set)
    for f in antt:
        for name in declared_in(texts[f]):
            every[name].add(f)
            if not is_walk(f):
                words.add(name)
        for alias in re.findall(r" as ([a-z]\w*)", texts[f]):
            every[alias].add(f)
            words.add(alias)
    for f in files("crates/*/src/**/*.rt"):
        for line in re.findall(r"ghost use .*", open(f).read()):
            for alias in re.findall(r" as ([a-z]\w*)", line):
                every[alias].add(f)
                words.add(alias)
    renamed = {}
    for name in sorted(words):
        if not re.fullmatch(r"[a-z][A-Za-z0-9_'-]*", name):
            continue
        to = spelled(name, any("/specs/" in f for f in every[name]))
        if to != name:
            renamed[name] = to
    together = collections.defaultdict(set)
    for name in words:
        together[renamed.get(name, name)].add(name)
    clash = {k: sorted(v) for k, v in together.items() if len(v) > 1 and k not in APART}
    for k, v in sorted(clash.items()):
        print("falls together:", k, v, [sorted(every[n])[:3] for n in v])
    if "--list" in sys.argv:
        for k, v in renamed.items():
            print(k, v)
        return
    if clash:
        sys.exit(1)

    def turn(text, kept, only_capitals=False):
        def one(m):
            t = m.group(0)
            if t in renamed and t not in kept and not (only_capitals and not re.search("[A-Z]", t)):
                return renamed[t]
            return t
        return TOKEN.sub(one, text)

    def turn_antt(path, text):
        kept = set(declared_in(text)) if is_walk(path) else set()
        out = []
        for line in text.split("\n"):
            code, dashes, comment = line.partition("--")
            out.append(turn(code, kept) + dashes + turn(comment, kept, True))
        text = "\n".join(out)
        return re.sub(r"\bRattle\.hex\.", "Rattle.hex_chars.", text)

    def turn_rt(text):
        out = []
        for line in text.split("\n"):
            clause = re.search(r"\b(ghost|requires|ensures|invariant)\b", line)
            out.append(turn(line, set(), not clause))
        text = "\n".join(out)
        text = re.sub(r"\bRattle\.hex\.", "Rattle.hex_chars.", text)
        return re.sub(r"\bhex::", "hex_chars::", text)

    for f in antt:
        new = turn_antt(f, texts[f])
        if new != texts[f]:
            open(f, "w").write(new)
    for f in files("crates/*/src/**/*.rt", "crates/*/must-fail/*.edit"):
        text = open(f).read()
        new = turn_rt(text)
        if new != text:
            open(f, "w").write(new)
    listed = open("crates.txt").read()
    listed = "\n".join(
        line if line.startswith("#") else re.sub(r"\bhex\b", "hex_chars", line) for line in listed.split("\n")
    )
    open("crates.txt", "w").write(listed)
    if os.path.isdir("crates/hex"):
        os.rename("crates/hex", "crates/hex_chars")
    print(len(renamed), "names")


main()
