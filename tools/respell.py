#!/usr/bin/env python3
"""Spells the repository's own definitions and lemmas as the library does: words in snake case, types and modules in camel case.

usage: tools/respell.py [--check] [ROOT]

It goes by the names that the texts of crates/*/specs and crates/*/proofs declare: top-level definitions, fields, constructors, parameters and local
names. It turns them in those texts, in the clauses of crates/*/src and in must-fail edits, and in the code spans of the pages of docs/ and of README.md.
Names of functions of src/, exported names, strings, inputs and outputs stay. --check writes nothing, and prints the names that would meet another.
It is for the text as the toolchain's port.py leaves it: once, before any proof is turned to answers, whose goals have names with dashes.
"""

import collections
import os
import re
import sys

WORD = re.compile(r'[^\s(){}.;,@"«»\[\]`:]+')
DECLARED = re.compile(r"(?m)^ *(?:(?:pub|abbrev|unfoldable|private|opaque) +)*([^\s(){}.;,@\"«»\[\]`:]+)(?: +[({][^\n]*?[)}])* :(?= |$)")
HEAD = re.compile(r"(?m)^ *(?:(?:pub|abbrev|unfoldable) +)*(?:record|data) +([^\s(){}.;,@\"«»]+)")
BOUND = re.compile(r"[({] *((?:[^\s(){}.;,@\"«»\[\]`:]+ +)+): ")
LET = re.compile(r"\blet +([^\s(){}.;,@\"«»\[\]`:]+)")
LAMBDA = re.compile(r"λ((?: +[^\s(){}.;,@\"«»\[\]`:]+)+)\.")
USE = re.compile(r"(?m)^ *(?:pub +)?(?:ghost +)?use +([^\s;{]+?)(?:\.\{([^}]*)\})?(?: as ([^\s;]+))?;?$")
# A word that stands behind no dot.
FREE = re.compile(r'(?<![.])(?<![^\s(){}.;,@"«»\[\]`:])[^\s(){}.;,@"«»\[\]`:]+')
# Rattle makes these of the source's names: they are left to the one who turns a function's proof.
MADE = re.compile(r"^(?:invariant|decreases)-loop|-spec$|-requires(?:-\d+)?$|^returns(?:-\d+)?$|^loop\d*-(?:init|preserved|smaller)$|^(?:the-|overflow-)")
# Where the plain spelling would meet another name, this one.
INSTEAD = {"oneByte": "one_byte_item", "twoByte": "two_byte_item"}


def antt_files(root):
    for folder, dirs, files in os.walk(os.path.join(root, "crates")):
        dirs[:] = sorted(d for d in dirs if d != "out")
        for f in sorted(files):
            if f.endswith(".antt"):
                yield os.path.join(folder, f)


def code_only(text):
    return re.sub(r"--[^\n]*", "", text)


def snake(name):
    if name in INSTEAD:
        return INSTEAD[name]
    if not re.search(r"[A-Za-z]", name):
        return name
    if re.match(r"^[A-Z][A-Z0-9]*(-[A-Z0-9]+)+$", name):
        return name.replace("-", "_")
    if re.match(r"^[A-Z]", name):
        return name
    name = re.sub(r"(?<=[a-z0-9'])([A-Z]+)", lambda m: "_" + m[1].lower(), name)
    return name.replace("-", "_")


def declared_in(code):
    names = set(DECLARED.findall(code)) | set(HEAD.findall(code)) | set(LET.findall(code))
    for it in BOUND.findall(code) + LAMBDA.findall(code):
        names |= set(it.split())
    return names


def imported_in(code):
    """The names that a text imports from a library, not from this repository."""
    names = set()
    for path, items, alias in USE.findall(code):
        if own_path(path):
            continue
        for it in (items or "").split(","):
            words = it.split(" as ")
            if words[0].strip():
                names.add(words[-1].strip().strip("«»"))
    return names


CRATES = set()


def own_path(path):
    steps = path.split(".")
    return steps[0] == "Rattle" and len(steps) > 1 and steps[1] in CRATES


def table(root):
    """Each declared name and its new spelling. A lemma that would have its function's name gets _lem."""
    declared, together = set(), collections.defaultdict(set)
    for path in antt_files(root):
        code = code_only(open(path, encoding="utf-8").read())
        here = {n for n in declared_in(code) if "◌" not in n and re.match(r"^[A-Za-z]", n) and not MADE.search(n)}
        declared |= here
        for w in set(FREE.findall(code)):
            together[path].add(w)
    names = {n: snake(n) for n in declared}
    for words in together.values():
        by = collections.defaultdict(set)
        for w in words & declared:
            by[snake(w)].add(w)
        for new, olds in by.items():
            camel = [o for o in olds if re.search(r"[a-z0-9][A-Z]", o)]
            dashed = {o for o in olds if "-" in o}
            if len(olds) > 1:
                for o in olds - set(camel) if camel else dashed if len(dashed) < len(olds) else ():
                    names[o] = new + "_lem"
    return {old: new for old, new in names.items() if old != new}


def turn_code(text, names, keep):
    return WORD.sub(lambda m: names[m[0]] if m[0] in names and m[0] not in keep else m[0], text)


def turn_spans(text, names, keep=frozenset()):
    return re.sub(r"`[^`\n]+`", lambda m: turn_code(m[0], names, keep), text)


def with_earlier(names, words, text):
    """Edits and pages also have names that were turned in the crates before this script ran: those whose new spelling is declared."""
    more = {w: snake(w) for w in set(WORD.findall(text)) if w not in names and snake(w) != w and snake(w) in words and re.match(r"^[a-z]", w)}
    return names | more


def turn_antt(text, names):
    keep = imported_in(text)
    out = []
    for line in text.split("\n"):
        at = line.find("--")
        while at > 0 and not re.match(r"[\s(]", line[at - 1]):
            at = line.find("--", at + 1)
        code, comment = (line, "") if at < 0 else (line[:at], line[at:])
        camel = {k: v for k, v in names.items() if re.search(r"[a-z0-9][A-Z]", k)}
        out.append(turn_code(code, names, keep) + turn_code(turn_spans(comment, names, keep), camel, keep))
    return "\n".join(out)


CLAUSE = re.compile(r"(?:\b(?:requires|ensures)\s*\w*\s*\{|\bghost\s+use\b)")


def turn_rt(text, names):
    keep = set()
    for path, items, alias in re.findall(r"ghost use ([^\s;{]+?)(?:\.\{([^}]*)\})?(?: as ([^\s;]+))?;", text):
        if not own_path(path):
            keep |= {it.split(" as ")[-1].strip() for it in items.split(",")}
    out, at = [], 0
    for m in CLAUSE.finditer(text):
        if m.start() < at:
            continue
        out.append(text[at : m.start()])
        if m[0].startswith("ghost"):
            end = text.index(";", m.start())
        else:
            depth, end = 0, m.end() - 1
            while True:
                depth += {"{": 1, "}": -1}.get(text[end], 0)
                if depth == 0:
                    break
                end += 1
        out.append(turn_code(text[m.start() : end], names, keep))
        at = end
    out.append(text[at:])
    return re.sub(r"(?m)//[^\n]*", lambda m: turn_spans(m[0], names, keep), "".join(out))


def turn_edit(text, names):
    of_source = re.search(r"(?m)^file: src/", text)
    lines = []
    for line in text.split("\n"):
        if line.startswith(("old: ", "new: ")) and not of_source:
            head, rest = line[:5], line[5:]
            line = head + turn_code(rest, names, set())
        elif line.startswith("#"):
            line = turn_spans(line, names)
        lines.append(line)
    return "\n".join(lines)


def main(argv):
    check = "--check" in argv
    argv = [a for a in argv if a != "--check"]
    root = argv[0] if argv else "."
    CRATES.update(c for c in os.listdir(os.path.join(root, "crates")) if os.path.isdir(os.path.join(root, "crates", c)))
    names = table(root)
    met = collections.defaultdict(set)
    for path in antt_files(root):
        text = open(path, encoding="utf-8").read()
        words = set(FREE.findall(code_only(text)))
        keep = imported_in(text)
        by = collections.defaultdict(set)
        for w in words:
            by[names[w] if w in names and w not in keep else w].add(w)
        for new, olds in by.items():
            if len(olds) > 1:
                met[new, tuple(sorted(olds))].add(os.path.relpath(path, root))
    for (new, olds), paths in sorted(met.items()):
        print(f"meets: {new}: {' '.join(olds)} in {' '.join(sorted(paths)[:4])}")
    print(f"{len(names)} names")
    if check:
        for old, new in sorted(names.items()):
            print(f"{old}\t{new}")
        return
    jobs = [(p, turn_antt) for p in antt_files(root)]
    words = set()
    for path in antt_files(root):
        words |= {names.get(n, n) for n in declared_in(code_only(open(path, encoding="utf-8").read()))}
    for folder, dirs, files in os.walk(root):
        dirs[:] = [d for d in dirs if d not in ("out", "target", ".git")]
        for f in files:
            path = os.path.join(folder, f)
            if f.endswith(".rt"):
                jobs.append((path, turn_rt))
            elif f.endswith(".edit"):
                jobs.append((path, turn_edit))
            elif f.endswith(".md") and "PORT" not in f:
                jobs.append((path, turn_spans))
    for path, turn in jobs:
        text = open(path, encoding="utf-8").read()
        new = turn(text, with_earlier(names, words, text) if path.endswith((".edit", ".md")) else names)
        if new != text:
            with open(path, "w", encoding="utf-8") as f:
                f.write(new)


main(sys.argv[1:])
