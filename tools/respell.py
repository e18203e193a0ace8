#!/usr/bin/env python3
"""Respells the repository's own definitions and lemmas as today's Rattle does.

usage: tools/respell.py [--dry]      at the top of the repository, once, after the toolchain's own script

Definitions are in snake case, facts and types in camel case. In a lemma's name a dash joins two names that are
defined; a plain word is added by an underscore. Names that the check makes (goals, steps, arms) keep their dashes.
"""
import os
import re
import sys

ROOT = os.path.join(os.path.dirname(os.path.abspath(__file__)), "..", "crates")
TOKEN = re.compile(r"(?<![^\s(){}\[\],;.⌜⌝:λ\"→×≡∷∙])[^\s(){}\[\],;.⌜⌝:λ\"→×≡∷∙]+")
HEAD = re.compile(r"^(?P<indent>[ \t]*)(?P<words>(?:(?:abbrev|unfoldable|pub|data|record)[ \t]+)*)(?P<name>[^\s(){}\[\],;.⌜⌝:λ\"]+)(?P<rest>[^\n]*)$", re.M)
# words of the library that stand in lemmas' names
LIBRARY = {"length", "take", "drop", "append", "map", "cond", "sum", "max", "get_or", "ltb", "leb", "eqb", "items", "All"}
NOT_NAMES = {"use", "where", "let", "in", "elim", "module", "open", "rw", "pub", "abbrev", "mutual", "unfolding", "|", "_"}


def files(*endings):
    for folder, dirs, names in os.walk(ROOT):
        dirs[:] = sorted(d for d in dirs if d != "out")
        for n in sorted(names):
            if n.endswith(endings):
                yield os.path.join(folder, n)


def read(path):
    with open(path, encoding="utf-8") as f:
        return f.read()


def declared():
    """Each own name with a dash, or a capital and a dash, and whether it is a definition."""
    found = {}
    for path in files(".antt"):
        for m in HEAD.finditer(read(path)):
            name, rest, words = m["name"], m["rest"], m["words"]
            # a signature: a colon outside of brackets follows the name, perhaps after parameters of a type
            if name in NOT_NAMES or name.startswith("--"):
                continue
            if not re.match(r"\s*:(?!\s*goal\.)", rest) and not ("data" in words or "record" in words):
                continue
            if re.match(r"\s*:\s*goal\.", rest):
                continue
            definition = bool(re.search(r"abbrev|unfoldable|data|record", words)) or name[0].isupper()
            found[name] = found.get(name, False) or definition
    return found


def camel(name):
    return "".join(p[:1].upper() + p[1:] for p in re.split(r"[-_]", name))


def respelled(found, fields):
    defined = {n.replace("-", "_") for n, d in found.items() if d and not n[0].isupper()} | LIBRARY
    out = {}
    for name, definition in found.items():
        new = name.replace("′", "'")
        if "-" not in new:
            if new != name:
                out[name] = new
            continue
        if new[0].isupper() and definition:
            out[name] = camel(new)
            continue
        if definition or name in fields:
            out[name] = new.replace("-", "_")
            continue
        out[name] = lemma(new.split("-"), defined)
    return out


def lemma(parts, defined):
    """The parts joined to the longest defined names, by a dash between two of them and else by an underscore."""
    chunks, i = [], 0
    while i < len(parts):
        for j in range(len(parts), i, -1):
            word = "_".join(parts[i:j])
            if word in defined or j == i + 1:
                chunks.append((word, word in defined))
                i = j
                break
    text = chunks[0][0]
    for (_, a), (word, b) in zip(chunks, chunks[1:]):
        text += ("-" if a and b else "_") + word
    return text


def from_library(text, own):
    """What a file imports from elsewhere than this repository's crates."""
    out = set()
    for m in re.finditer(r"use (\S+?)\.\{([^}]*)\}", text):
        parts = m[1].split(".")
        if not (parts[0] == "Rattle" and len(parts) > 1 and parts[1] in own):
            out |= {w.strip().split(" as ")[0] for w in m[2].split(",")}
    return out


def turned(text, names, fields, made):
    def by(m):
        word = m[0]
        if word not in names:
            return word
        before = text[m.start() - 1] if m.start() else ""
        if before == "." and re.search(r"(?:^|[\s(\[{,])(?:goal|c|w|given|l)(?:\.[^\s(){}\[\],;]+)*\.$", text[max(0, m.start() - 200):m.start()]) and word not in fields:
            made.add(word)
            return word
        return names[word]

    return TOKEN.sub(by, text)


def record_fields():
    """The names declared one level inside a record or a data type."""
    out = set()
    for path in files(".antt"):
        inside = None
        for line in read(path).split("\n"):
            if not line.strip():
                inside = None
                continue
            m = re.match(r"([ \t]*)(?:abbrev |unfoldable |pub )*(data|record) .*where\s*$", line)
            if m:
                inside = len(m[1])
                continue
            if inside is not None and len(line) - len(line.lstrip()) > inside:
                f = re.match(r"\s*(?:pub )?([^\s(){}:]+)\s*:", line)
                if f:
                    out.add(f[1])
    return out


def main():
    found = declared()
    fields = record_fields()
    names = respelled(found, fields)
    taken = {}
    for old, new in names.items():
        taken.setdefault(new, []).append(old)
    others = {}
    for path in files(".antt", ".rt"):
        for m in TOKEN.finditer(read(path)):
            others.setdefault(m[0], path)
    for new, olds in sorted(taken.items()):
        if len(olds) > 1:
            print("together:", new, olds)
        if new in others:
            print("stands already:", new, olds, os.path.relpath(others[new], ROOT))
    own = set(os.listdir(ROOT))
    made = set()
    count = 0
    for path in files(".antt", ".rt"):
        text = read(path)
        kept = from_library(text, own)
        new = turned(text, {k: v for k, v in names.items() if k not in kept}, fields, made)
        if new != text:
            count += 1
            if "--dry" not in sys.argv:
                with open(path, "w", encoding="utf-8") as f:
                    f.write(new)
    print("left behind a step:", sorted(made))
    print(len(names), "names,", count, "files")
    if "--list" in sys.argv:
        for old, new in sorted(names.items()):
            print(old, new)


if __name__ == "__main__":
    main()
