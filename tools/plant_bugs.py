#!/usr/bin/env python3
"""Plants bugs in a crate's code, and says of each whether the prover refuses it.

usage: tools/plant_bugs.py CRATE [--max N] [--seed S] [--jobs J] [--copy FOLDER] [--list]

It works on a copy of the repository, never in place; --copy names a folder in which the copy is kept for the next run.
Plants go round the crate's functions and constants, at most N (24, or one for each, if N is not given), in an order
that the seed (1) fixes. A function is proved from the contracts of those that it calls, not from their code; so one
check carries a plant in each of several functions, and what is not proved is told at its function. A function without a
contract shares no check with its callers. With what passes, unit tests and the program are run, and it is checked once
more without the others. J (1) is how many processes a check may use.

A line for each plant: file:line, its function, the old and the new text, and
  refused  with the first fact that is not proved
  tested   the crate is proved with it, but a unit test fails, or the program writes something else
  unfit    refused only since a proof file names what the plant took away
  PASSES   the crate is proved with it, and writes what it should
A plant that does not compile is not counted: another is taken. --list prints the plants, and tries none.
"""
import argparse
import os
import random
import re
import shutil
import subprocess
import tempfile

ROOT = os.path.dirname(os.path.dirname(os.path.abspath(__file__)))
PAIRS = "< <=  > >=  == !=  && ||  + -  += -=  true false  min max  all any"
OTHER = {a: b for one, other in map(str.split, PAIRS.split("  ")) for a, b in ((one, other), (other, one))}
NUMBERS = ["usize", "u64", "u32", "u16", "u8"]
EARLY = {"bool": ["false", "true"], "()": [""], **{it: ["0"] for it in NUMBERS}}
GONE = re.compile(r"(\./)?proofs/\S+ error: .*(has no field|is not in scope|has no `|was not admitted)")
# What the prover says of code that is never right to run, such as a value that is moved twice or may not be let go.
NO_CODE = re.compile(r"error: rattle does not read .* since the borrow checker")


def read(path):
    with open(path, encoding="utf-8") as it:
        return it.read()


def sources(folder):
    """The files of Rattle code in a folder, but for what checks have made."""
    return sorted(os.path.join(at, n) for at, _, names in os.walk(folder) for n in names
                  if n.endswith(".rt") and "out" not in at.split(os.sep))


# ---- Reading the code.

def closing(code, at):
    """The place behind the bracket that closes the one at this place."""
    depth = 0
    for i in range(at, len(code)):
        depth += (code[i] in "([{") - (code[i] in ")]}")
        if depth == 0:
            return i + 1
    return len(code)


def blanked(text):
    """The text with blanks for comments, literals, contracts, ghost items, imports, attributes and tests."""
    def blank(start, end):
        nonlocal text
        text = text[:start] + re.sub(r"[^\n]", " ", text[start:end]) + text[end:]

    for m in re.finditer(r'//[^\n]*|b?"(?:\\.|[^"\\])*"|b?\'(?:\\.|[^\'\\])\'', text):
        blank(*m.span())
    while m := re.search(r"#\[cfg\(test\)\]\s*mod \w+ ", text):
        blank(m.start(), closing(text, m.end()))
    for m in re.finditer(r"#!?\[.*|(?m:^) *(?:(?:pub(?:\(crate\))? )?(?:use|mod) |prove!)[^;]*;", text):
        blank(*m.span())
    while m := re.search(r"\b(ensures|requires|invariant)\b[^{};]*(?={)|\bghost\b[^{};]*(?=[{;])", text):
        end = closing(text, m.end()) if text[m.end()] == "{" else m.end()
        while by := re.match(r"\s*by\s*(?={)", text[end:]):
            end = closing(text, end + by.end())
        blank(m.start(), end)
    return text


class Function:
    """A function with its body, or a constant with its value."""

    def __init__(self, file, text, code, start, body, end, name):
        self.file, self.text, self.code, self.name = file, text, code, name
        self.start, self.body, self.end = start, body, end
        owners = [m[1] for m in re.finditer(r"(?m)^(?:impl|trait|pub enum|enum)\b([^{]*){", code)
                  if m.start() < start < closing(code, m.end() - 1)]
        self.owner = re.sub(r".*\bfor\b|<.*", "", owners[0]).strip() if owners else ""
        # A trait's method has its contract there.
        self.has_contract = "ensures" in text[start:body] or bool(owners) and " for " in owners[0]
        gives = re.search(r"->\s*(.*?)\s*$", code[start:body], re.S)
        self.gives = gives[1] if gives else "()"
        # What is told of a function with attributes is told at the first of them.
        first = re.search(r"(?m)(?:^ *#\[.*\n)*.*\Z", text[:start]).start()
        self.lines = text.count("\n", 0, first) + 1, text.count("\n", 0, end) + 1
        self.area = {self}

    def stands_at(self, file, line):
        return file == self.file and self.lines[0] <= line <= self.lines[1]

    def is_proved_by(self, parts):
        return self.name in parts and any(it.startswith(self.owner) for it in parts)


def functions(folder):
    found, files = [], sources(folder)
    # Tests in a file of their own.
    apart = {os.path.join(os.path.dirname(file), f"{it}.rt") for file in files
             for it in re.findall(r"#\[cfg\(test\)\]\s*mod (\w+);", read(file))}
    for file in (it for it in files if it not in apart):
        text = read(file)
        code = blanked(text)
        for m in re.finditer(r"\bfn (\w+)", code):
            # The semicolons of array types stand in brackets.
            at = m.end()
            while code[at] not in "{;":
                at = closing(code, at) if code[at] in "([" else at + 1
            if code[at] == "{":
                found.append(Function(file, text, code, m.start(), at, closing(code, at), m[1]))
        for m in re.finditer(r"(?m)^(?:pub(?:\(crate\))? )?const (\w+): .*? = |^ +(\w+) = (?=\d+,$)", code):
            end = re.compile(r"[;,\n]").search(code, m.end()).start()
            found.append(Function(file, text, code, m.start(), m.end(), end, m[1] or m[2]))
    # What is told at those who call a function without a contract may be its fault.
    for _ in range(3):
        for f in found:
            if not f.has_contract:
                # A variant's number is used where its type is cast.
                uses = re.compile(rf"\b{f.name}\b" + r"|\*self as " * (f.name[0].isupper() and f.owner != ""))
                callers = {g for g in found if g is not f and uses.search(g.code, g.body, g.end)}
                f.area = {f}.union(*(g.area for g in callers))
    return found


def variants():
    """For each variant of the repository's enums the others that hold the same."""
    found = {}
    for code in map(blanked, map(read, sources(os.path.join(ROOT, "crates")))):
        for m in re.finditer(r"\benum (\w+)[^{;]*{", code):
            items = re.findall(r"(?m)^\s*(\w+)(\(.*\))?,", code[m.end():closing(code, m.end() - 1)])
            for one, held in items:
                found[m[1], one] = [it for it, other in items if it != one and other == held]
    return found


def fields(folder):
    """For each field of a crate's structs the others of its type."""
    found, code = {}, "\n".join(map(blanked, map(read, sources(folder))))
    for m in re.finditer(r"\bstruct \w+[^{;]*{", code):
        items = re.findall(r"(?m)^\s*(?:pub(?:\(crate\))? )?(\w+): (.*?),$", code[m.end():closing(code, m.end() - 1)])
        found.update({one: [it for it, other in items if it != one and other == kind] for one, kind in items})
    return found


def arguments(code, at):
    """The arguments of the call whose bracket stands at this place, as pairs of places."""
    end, start, found, i = closing(code, at) - 1, at + 1, [], at + 1
    while i < end:
        if code[i] == ",":
            found.append((start, i))
            start = i + 1
        i = closing(code, i) if code[i] in "([{" else i + 1
    return [(s + len(code[s:e]) - len(code[s:e].lstrip()), e) for s, e in [*found, (start, end)] if code[s:e].strip()]


# ---- Planting.

def places(f, others):
    """Where bugs can be planted in a function: the kind, two places, and the text to put between them."""
    code, text = f.code, f.text

    def each(pattern):
        return [(m, *m.span(1)) for m in re.compile(pattern, re.M).finditer(code, f.body, f.end)]

    for kind, pattern in (("comparison", r" (<|<=|==|!=|>|>=) "), ("sum", r" (\+|-|\+=|-=) "),
                          ("and-or", r" (&&|\|\|) "), ("constant", r"\b(true|false)\b"),
                          ("method", r"\.(min|max|all|any)\(")):
        for m, s, e in each(pattern):
            yield kind, s, e, OTHER[m[1]]
    for m, s, e in each(r"(?<![\w.])(\d[\d_]*)(?=(?:u8|u16|u32|u64|usize)?\b)"):
        number = int(m[1].replace("_", ""))
        for other in {number + 1, max(number - 1, 0)} - {number}:
            yield "constant", s, e, str(other)
    for m, s, e in each(r"\.\.(?!=)([\w.()]+?)(?=\]|\)| \{)"):
        yield "bound", s, e, f"{m[1]} - 1"
        yield "bound", s, e, f"{m[1]} + 1"
    for m, s, e in each(r"\w\[([a-z_][\w.]*)\]"):
        yield "index", s, e, f"{m[1]} + 1"
    for m, s, e in each(r"\.(?:len|amount|number|size|count|free)(\(\))(?!\.)"):
        yield "number", s, e, "().saturating_sub(1)"
    parameters = re.findall(r"\b(\w+): ([^,()]+|\([^()]*\))", code[f.start:f.body])
    for one, kind in parameters:
        for m, s, e in each(rf"(?<![\w.|])({one})\b(?![:(!.])"):
            if kind in NUMBERS:
                yield "number", s, e, f"{one}.saturating_add(1)"
            for other in (it for it, same in parameters if same == kind and it != one):
                yield "name", s, e, other
    for m, s, e in each(r"\b(?:if|while) (?!let )([^{]*?) \{"):
        yield "condition", s, e, f"!({text[s:e]})"
    for m, s, e in each(r"\.is_\w+(\(\))(?=[^\w(])"):
        # The name stays, since proofs may use it.
        yield "condition", s, e, "() == false"
    for m, s, e in each(r"^ +((?!let |use )[a-z*(][^\n{}]*;)$"):
        if code[s:e].count("(") == code[s:e].count(")"):
            yield "dropped", s, e, ""
    for m, s, e in each(r"(\.rev\(\))"):
        yield "order", s, e, ""
    for m, s, e in each(r"\bSome(\()"):
        behind = code[closing(code, s):]
        if not re.match(r"\)* (=|=>|if) ", behind):
            yield "variant", s - 4, closing(code, s), "None"
    for m, s, e in each(r"\b([A-Z]\w*::[A-Z]\w*)\b"):
        enum, one = m[1].split("::")
        for other in others["variants"].get((f.owner if enum == "Self" else enum, one), []):
            yield "variant", s, e, f"{enum}::{other}"
    for m, s, e in each(r"\b[a-z_]\w*(\()"):
        at = arguments(code, s)
        for (a, b), (c, d) in zip(at, at[1:]):
            if "|" not in code[a:d] and code[a:b] != code[c:d]:
                yield "swapped", a, d, text[c:d] + text[b:c] + text[a:b]
    for kind, arms in (("arms", each(r"^ +[^\n]* => ([^\n{]*),$")), ("fields", each(r"^ +\w+: ([^\n{:]+),$"))):
        for (m, a, b), (n, c, d) in zip(arms, arms[1:]):
            if m.end() + 1 == n.start() and m[1] != n[1]:
                yield kind, a, d, text[c:d] + text[b:c] + text[a:b]
    for m, s, e in each(r"\bself\.(\w+)\b(?!\()"):
        for other in others["fields"].get(m[1], []):
            yield "field", s, e, other
    given = {"Option<": ["None"], "Result<(),": ["Ok(())"], "&[": ["&[]"], "&'a [": ["&[]"]}
    values = EARLY.get(f.gives) or next((it for head, it in given.items() if f.gives.startswith(head)), [])
    # Where it can be told by a parameter, only for some calls, so that the code behind it counts.
    tests = [f"if {one} == 2 " if kind in NUMBERS else f"if {one}.len() == 2 " for one, kind in parameters
             if kind in NUMBERS or re.match(r"&('a )?\[[^;]*$", kind)]
    for m, s, e in each(r"(?<=[;{}]\n)( +)(?=[a-z*&])(?!return)"):
        for value in values:
            leave = f"return {value};".replace(" ;", ";")
            yield "early", e, e, f"{tests[0]}{{ {leave} }} " if tests else f"{leave} "


class Plant:
    def __init__(self, f, kind, start, end, new):
        self.f, self.kind, self.start, self.end = f, kind, start, end
        # Lines keep their numbers.
        self.new = new + "\n" * (f.text.count("\n", start, end) - new.count("\n"))
        self.verdict, self.why, self.is_proved = "", "", False

    def told(self):
        text, first = self.f.text, self.f.text.rfind("\n", 0, self.start) + 1
        last = text.find("\n", self.end)
        old, new = text[first:last], text[first:self.start] + self.new + text[self.end:last]
        place = f"{os.path.relpath(self.f.file, ROOT)}:{text.count(chr(10), 0, self.start) + 1}"
        return f"{place} {self.f.name}: {' '.join(old.split())} -> {' '.join(new.split())}"


def queues(crate, seed):
    """The plants of each function, in an order in which no kind comes again before the others have come."""
    folder, found = os.path.join(ROOT, "crates", crate, "src"), {}
    others = {"variants": variants(), "fields": fields(folder)}
    for f in functions(folder):
        left = list(dict.fromkeys(places(f, others)))
        random.Random(f"{seed} {os.path.relpath(f.file, ROOT)} {f.start}").shuffle(left)
        order, times = [], {}
        while left:
            one = min(left, key=lambda it: times.get(it[0], 0))
            left.remove(one)
            times[one[0]] = times.get(one[0], 0) + 1
            order.append(Plant(f, *one))
        if order:
            found[f] = order
    return found


# ---- Trying.

class Copy:
    """A copy of the repository, in which a crate is checked."""

    def __init__(self, crate, root, jobs):
        self.crate, self.root, self.jobs, self.checks = crate, root, jobs, 0
        self.folder, self.real = (os.path.join(it, "crates", crate) for it in (root, ROOT))
        self.has_tests = any("#[test]" in read(it) for it in sources(os.path.join(self.real, "src")))
        is_program = os.path.exists(os.path.join(self.real, "src", "main.rt"))
        stdin, stdout = (os.path.join(self.real, it) for it in ("stdin", "stdout"))
        self.given = stdin if os.path.exists(stdin) else os.devnull
        self.writes = None if not is_program else read(stdout) if os.path.exists(stdout) else ""
        shutil.copytree(os.path.join(ROOT, "crates"), os.path.join(root, "crates"), dirs_exist_ok=True,
                        ignore=shutil.ignore_patterns("out", "must-fail"))
        shutil.copy2(os.path.join(ROOT, "crates.txt"), root)

    def write(self, planted):
        for file in sources(os.path.join(self.real, "src")):
            text = read(file)
            for p in sorted((p for p in planted if p.f.file == file), key=lambda p: -p.start):
                text = text[:p.start] + p.new + text[p.end:]
            to = os.path.join(self.root, os.path.relpath(file, ROOT))
            if read(to) != text:
                with open(to, "w", encoding="utf-8") as it:
                    it.write(text)

    def check(self, planted):
        self.write(planted)
        self.checks += 1
        ran = subprocess.run(["rt", "check", "--jobs", str(self.jobs)], cwd=self.folder, stdin=subprocess.DEVNULL,
                             stdout=subprocess.PIPE, stderr=subprocess.STDOUT, errors="replace")
        return ran.returncode, ran.stdout.split("\n")

    def fails(self, plant):
        """Whether a unit test fails with this plant, or a program writes something else than it should."""
        self.write([plant])
        if self.has_tests and self.try_out("--test", given=os.devnull).returncode:
            return True
        data = os.path.join(self.real, "data")
        files = [f"{it}={os.path.join(data, it)}" for it in os.listdir(data)] if os.path.isdir(data) else []
        options = [word for it in files for word in ("--data", it)]
        return self.writes is not None and self.try_out(*options, given=self.given).stdout != self.writes

    def try_out(self, *options, given):
        with open(given, "rb") as stdin:
            words = ["rt", "try", "--seconds", "60", *options]
            return subprocess.run(words, cwd=self.folder, stdin=stdin, capture_output=True, errors="replace")


def told_at(lines, plants, folder):
    """What is told of each plant: at its function and at those that stand on its code, and of names in proof files."""
    facts, answers, gone = {}, {}, {}
    for line in lines:
        code = re.match(r"(?:note: )?(?:\./)?(src/\S+?\.rt):(\d+):\d+: ", line)
        proof = re.match(r"(?:\./)?proofs/(\S+?)\.antt:\S+ error", line)
        for p in plants:
            if code and any(f.stands_at(os.path.join(folder, code[1]), int(code[2])) for f in p.f.area):
                facts.setdefault(p, line)
            if proof and any(f.is_proved_by(proof[1].split("/")) for f in p.f.area):
                (gone if GONE.match(line) else answers).setdefault(p, line)
    return {**answers, **facts}, gone


def try_together(copy, plants, another=lambda f: None):
    """Checks the crate with these plants, each in the place of one that does not compile, and gives verdicts; those of
    which nothing is told get none. Gives the plants that compile."""
    while plants:
        status, lines = copy.check(plants)
        facts, gone = told_at(lines, plants, copy.real) if status else ({}, {})
        if status != 1 or any(line.startswith("logic=") for line in lines):
            break
        broken = list(facts) or plants[:1]
        plants = [other for p in plants if (other := another(p.f) if p in broken else p)]
    for p in plants:
        p.why = facts.get(p, gone.get(p, ""))
        p.verdict, p.is_proved = "refused" if p in facts else "unfit" if p in gone else "", status == 0
        if NO_CODE.search(p.why):
            p.verdict = "does not compile"
    if len(plants) == 1 and status and not plants[0].verdict:
        errors = [it for it in lines if ": error" in it or it.startswith("note: ")]
        plants[0].verdict, plants[0].why = "refused", (errors or lines[-2:])[0]
    return [p for p in plants if p.verdict != "does not compile"]


def try_all(copy, waiting, most):
    """Tries plants, round and round the functions, until there are so many verdicts, and yields them."""
    given, count = {f: 0 for f in waiting}, 0
    while count < most and any(waiting.values()):
        group, taken = [], set()
        for f in sorted(waiting, key=lambda f: given[f]):
            if waiting[f] and not f.area & taken and count + len(group) < most:
                taken |= f.area
                group.append(waiting[f].pop(0))
        for p in try_together(copy, group, lambda f: waiting[f].pop(0) if waiting[f] else None):
            if p.is_proved and copy.fails(p):
                p.verdict = "tested"
            if p.verdict or try_together(copy, [p]):
                # Not told of, while others were refused: it is tried alone before it counts as proved.
                if not p.verdict and copy.fails(p):
                    p.verdict = "tested"
                given[p.f] += 1
                count += 1
                p.verdict = p.verdict or "PASSES"
                yield p


def main():
    parser = argparse.ArgumentParser(description=__doc__.split("\n")[0])
    parser.add_argument("crate")
    parser.add_argument("--max", type=int)
    parser.add_argument("--seed", type=int, default=1)
    parser.add_argument("--jobs", type=int, default=1)
    parser.add_argument("--copy")
    parser.add_argument("--list", action="store_true")
    given = parser.parse_args()
    waiting = queues(given.crate, given.seed)
    if given.list:
        print(*(f"{p.kind}: {p.told()}" for order in waiting.values() for p in order), sep="\n")
        return
    with tempfile.TemporaryDirectory(prefix="plants-") as room:
        copy = Copy(given.crate, given.copy or room, given.jobs)
        if copy.check([])[0]:
            raise SystemExit(f"{given.crate} is not proved as it stands")
        counts = {"refused": 0, "tested": 0, "unfit": 0, "PASSES": 0}
        for p in try_all(copy, waiting, given.max or max(24, len(waiting))):
            counts[p.verdict] += 1
            print(f"{p.told()}\n    {p.verdict}{': ' if p.why else ''}{p.why[:180]}", flush=True)
    print(f"{given.crate}: {sum(counts.values())} plants in {copy.checks} checks:",
          *(f"{n} {it}" for it, n in counts.items()))


if __name__ == "__main__":
    main()
