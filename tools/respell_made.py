#!/usr/bin/env python3
"""Respells, in proof files, the names that the check makes from names of the code: `is-term` in a goal or a step is
`is_term` now, as the code writes it.

usage: tools/respell_made.py CRATE..      at the top of the repository
"""
import os
import re
import sys

ROOT = os.path.join(os.path.dirname(os.path.abspath(__file__)), "..", "crates")
IDENT = re.compile(r"[A-Za-z_][A-Za-z0-9_]*")
TOKEN = re.compile(r"[^\s(){}\[\],;.⌜⌝:λ\"→×≡∷∙]+")


def identifiers():
    out = set()
    for folder, dirs, names in os.walk(ROOT):
        dirs[:] = [d for d in dirs if d != "out"]
        for n in names:
            if n.endswith(".rt"):
                with open(os.path.join(folder, n), encoding="utf-8") as f:
                    out |= {w for w in IDENT.findall(f.read()) if "_" in w.strip("_")}
    # the library's names that calls in proofs are named by
    out |= {"as_slice", "is_some", "is_none", "write_str", "write_fmt", "from_str", "or_insert", "to_vec"}
    return sorted(out, key=lambda w: (-w.count("_"), -len(w)))


def main():
    idents = [(w, re.compile(r"(?<![A-Za-z0-9_])" + re.escape(w.replace("_", "-")) + r"(?![A-Za-z0-9_])")) for w in identifiers()]
    for crate in sys.argv[1:]:
        for folder, dirs, names in os.walk(os.path.join(ROOT, crate, "proofs")):
            for n in names:
                if n not in ("Answers.antt", "Invariants.antt", "Choices.antt"):
                    continue
                path = os.path.join(folder, n)
                with open(path, encoding="utf-8") as f:
                    text = f.read()
                # names of lemmas stay: those imported other than from the goals, and those declared here
                kept = set()
                for m in re.finditer(r"^use (\S+)\.\{([^}]*)\}", text, re.M):
                    if not m[1].endswith((".Goals", ".Given")):
                        kept |= {w.strip().split(" as ")[0] for w in m[2].split(",")} | {w.strip().split(" as ")[-1] for w in m[2].split(",")}
                for m in re.finditer(r"^[ \t]*(?:pub )?([^\s(){}:]+) :(?! goal\.)", text, re.M):
                    kept.add(m[1])

                def by(m):
                    word = m[0]
                    before = text[m.start() - 1] if m.start() else ""
                    if "-" not in word or (word in kept and before != "."):
                        return word
                    for w, pattern in idents:
                        word = pattern.sub(w, word)
                    return word.replace("in-ok-", "in_ok-").replace("in-err-", "in_err-").replace("in-default", "in_default").replace("from-residual", "from_residual")

                new = TOKEN.sub(by, text)
                for a, b in [("overflow-", "overflow_"), ("offset-bounds-", "offset_bounds-"), ("slice-bounds-", "slice_bounds-"), ("invariant-of-", "invariant_of-")]:
                    new = re.sub(r"(?<![A-Za-z0-9_-])" + a, b, new)
                if new != text:
                    with open(path, "w", encoding="utf-8") as f:
                        f.write(new)


main()
