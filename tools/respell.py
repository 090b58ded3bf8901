#!/usr/bin/env python3
"""Respells this repository's own definitions and lemmas: words in snake case, facts and types in camel case.

usage: python3 tools/respell.py [-n]     at the top of the repository; -n only says what it would do

A name is taken from where specs/ or proofs/ define it. It is left in a file that brings the same spelling in from the
library, and a goal's answer (`: goal.NAME`) keeps its name. Code, strings and comments of src/ are not touched.
"""
import collections
import os
import re
import sys

HEAD = re.compile(r"^(\s*)((?:abbrev |unfoldable |pub |record |data )*)([^\s:(){},]+)(?=[\s({:])(.*)$")
TYPED = re.compile(r"\s*(\{[^}]*\}\s*|\([^)]*\)\s*)*:(\s|$)")
TOKEN = re.compile(r"[A-Za-zℕ≤<+*∈×][A-Za-z0-9_'ℕ≤<+*∈×-]*")
NO_NAME = {"use", "mod", "module", "--", "let", "in", "elim", "|", "λ", "unfolding", "where"}
# Facts that were spelled as words.
FACTS = {
    "side-rows": "SideRows", "source-rows": "SourceRows", "next-rows": "NextRows", "value-rows": "ValueRows",
    "marks-by": "MarksBy",
}
# Lemmas that a word of the library would hide.
OTHERS = {"bit-and": "bit_of_and", "bit-or": "bit_of_or"}
# Words of the library that the kit's script left in two spellings: file, old, new.
LEFT = [("crates/chains/specs/Sets.antt", r"(?<![\w-])(bit-and|bitAnd)(?![\w-])", "bit_and")]


def spelled(name):
    if name in FACTS:
        return FACTS[name]
    if name in OTHERS:
        return OTHERS[name]
    if name[0].isupper():
        return "".join(w[:1].upper() + w[1:] for w in name.split("-"))
    name = name.replace("-", "_").replace("′", "'")
    return re.sub(r"(?<=[a-z0-9])([A-Z])", lambda m: "_" + m.group(1).lower(), name)


def files(ending):
    for folder, dirs, names in os.walk("crates"):
        dirs[:] = sorted(d for d in dirs if d != "out")
        for name in sorted(names):
            if name.endswith(ending):
                yield os.path.join(folder, name)


def defined():
    found = collections.defaultdict(set)
    for path in files(".antt"):
        with open(path, encoding="utf-8") as f:
            for line in f:
                m = HEAD.match(line)
                if not m:
                    continue
                _, words, name, rest = m.groups()
                if name in NO_NAME:
                    continue
                if not ("record " in words or "data " in words) and not TYPED.match(rest):
                    continue
                if re.match(r"\s*:\s*(goal|given)\.", rest):
                    continue
                found[name].add(path)
    return found


def brought(text):
    """The names that a file brings in from the library, and from where the repository is not."""
    names = set()
    for m in re.finditer(r"use\s+((?:Rattle\.std|borrow|mathlib|native|lib|Prim)[\w.«»+-]*)\.\{([^}]*)\}", text):
        for part in m.group(2).split(","):
            words = part.split(" as ")
            names.add(words[-1].strip())
            names.add(words[0].strip())
    return names


def respelled(text, names, held):
    def one(m):
        t = m.group(0)
        return names[t] if t in names and t not in held else t
    return TOKEN.sub(one, text)


def ghost_lines(text, turn):
    """Turns the ghost lines and the clauses of a source file."""
    out, deep = [], 0
    for line in text.split("\n"):
        start = re.match(r"\s*(pub )?(ghost|requires|ensures)\b", line)
        if deep or start:
            head, mark, note = line.partition("//")
            line = turn(head) + mark + note
            deep += head.count("{") - head.count("}")
            deep = max(deep, 0)
        out.append(line)
    return "\n".join(out)


def main():
    dry = "-n" in sys.argv[1:]
    names = {n: spelled(n) for n in defined() if spelled(n) != n}
    back = collections.defaultdict(set)
    for n in defined():
        back[spelled(n)].add(n)
    for new, olds in sorted(back.items()):
        if len(olds) > 1:
            print("falls together:", new, sorted(olds))
    for path, old, new in LEFT:
        with open(path, encoding="utf-8") as f:
            text = f.read()
        if not dry:
            with open(path, "w", encoding="utf-8") as f:
                f.write(re.sub(old, new, text))
    for ending in (".antt", ".rt"):
        for path in files(ending):
            with open(path, encoding="utf-8") as f:
                text = f.read()
            lib = brought(text)
            held = {n for n in lib if n in names}
            if held:
                print("left:", path, sorted(held))
            new = respelled(text, names, held) if ending == ".antt" else ghost_lines(text, lambda s: respelled(s, names, held))
            there = {t for t in TOKEN.findall(text)}
            for t in sorted(there):
                if t in names and t not in held and (names[t] in there or names[t] in lib):
                    print("meets:", path, t, names[t])
            if new != text and not dry:
                with open(path, "w", encoding="utf-8") as f:
                    f.write(new)
    print("respelled", len(names), "names")


main()
