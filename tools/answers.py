#!/usr/bin/env python3
"""Turns a function's Proof.antt of an older form, `tie.close (tie.spec ..)`, into Invariants.antt and Answers.antt.

usage: rt check --generated NAMES --old-names      in the crate's folder: NAMES/names.json lists each goal's and step's earlier and present name
       tools/answers.py NAMES CRATE_FOLDER [F..]   F as in proofs/F; all that have such a Proof.antt where none is named

It goes by text. A goal that the old proof left to `search rules` gets no answer, since the check tries that by itself. A path along `before` becomes the
step's name at `c`. Lemmas of the file go along. What it cannot read it prints, in lines that begin 'left:'. Proof.antt is removed where both files could be written.
A path that stays as it was, since no step has such a name today, is printed in a line that begins 'look:'.
"""

import json
import os
import re
import sys

NAME = r"[^\s(){}.;,@\"«»\[\]`:]+"
START = "args requires ranges lifetimes well_formed measure before".split()


def clauses_of(root):
    """By a function's last names, as put::put_unit: the names of its clauses, of each kind, where there are several."""
    out = {}
    for folder, dirs, files in os.walk(root):
        dirs[:] = [d for d in dirs if d != "out"]
        for f in files:
            if not f.endswith(".rt"):
                continue
            text = re.sub(r"//[^\n]*", "", open(os.path.join(folder, f), encoding="utf-8").read())
            crate = os.path.relpath(folder, root).split("/")[0]
            owner = None
            for m in re.finditer(r"(?m)^impl(?:<[^>]*>)? (?:\w+ for )?(\w+)|\bfn (\w+)", text):
                if m[1]:
                    owner = m[1]
                    continue
                indent = text.rfind("\n", 0, m.start()) + 1
                inside = text[indent] == " "
                end = re.compile(r"(?m)^ *\{$|\{ *$").search(text, m.end())
                body = text[m.end() : end.start() if end else m.end() + 3000]
                names = {k: re.findall(r"(?m)^ *%s (\w+) \{" % k, body) for k in ("requires", "ensures")}
                out[(crate, (owner + "::" if inside and owner else "") + m[2])] = names
    return out


CLAUSES = {}


def clause_names(path, kind):
    """Of a path as nal::buffers::finish."""
    steps = path.split("::")
    for n in (2, 1):
        got = CLAUSES.get((steps[0], "::".join(steps[-n:])))
        if got:
            return got[kind]
    return []


def as_record(body, names):
    """A term whose result is a tuple, as a record of these names."""
    depth, at = 0, 0
    for m in re.finditer(r"[([{]|[)\]}]|(?<!\S)in(?!\S)", body):
        if m[0] == "in":
            at = m.end() if depth == 0 else at
        else:
            depth += 1 if m[0] in "([{" else -1
    rest = body[at:].strip()
    if not (rest.startswith("(") and close_of(rest, 0) == len(rest) - 1):
        return body
    parts, depth, here = [], 0, ""
    for ch in rest[1:-1]:
        depth += {"(": 1, "[": 1, "{": 1, ")": -1, "]": -1, "}": -1}.get(ch, 0)
        if ch == "," and depth == 0:
            parts.append(here)
            here = ""
        else:
            here += ch
    if here.strip():
        parts.append(here)
    if len(parts) != len(names):
        return body
    lines = [f"{n} = {p.strip()}" for n, p in zip(names, parts)]
    return body[:at].rstrip() + " record {\n      " + ";\n      ".join(lines) + ";\n    }"


def norm(s):
    return s.replace("-", "_")


class Function:
    def __init__(self, info):
        self.info = info
        self.fields = {}
        self.place_new = {}
        self.callee = {}
        news = info["places_by_name"]
        for k, p in enumerate(info["places"]):
            old, parent, (old_field, new_field), callee = p[0], p[1], p[2], p[3]
            self.place_new[norm(old)] = news[k]
            if old_field:
                self.fields[norm(old_field)] = new_field
                if callee:
                    self.callee[norm(old_field)] = callee
        # what an arm tells, by the earlier step and the path below it
        self.told = {}
        for arm in info["arms"]:
            for new, step, sub in arm[2] if arm else []:
                if not new.endswith("-own"):
                    self.told[(norm(step), *map(norm, sub))] = [arm[0], new]
        self.loops = [(old[1], names) for old, names in info["loops"]]
        self.loop_old = [norm(old[0]) for old, _ in info["loops"]]
        self.needs = info["needs"]

    def goal_of(self, old):
        for o, n in self.needs:
            if norm(o) == norm(old):
                return n
        return None


def blocks(text):
    """The top-level declarations: each a list of lines, comments above it included."""
    lines = text.split("\n")
    out, here, pending = [], [], []
    name = None
    for line in lines:
        if not line.strip():
            (here if here else pending).append(line)
            continue
        if line.startswith("--"):
            if here and here[-1] == "":
                out.append((name, here))
                here, name = [], None
            (pending if not here else here).append(line)
            continue
        if line[0] in " \t)" or line.startswith("unfolding"):
            here.append(line)
            continue
        m = re.match(r"(?:(?:pub|abbrev|unfoldable) +)*(?:record +|data +|module +)?(%s)" % NAME, line)
        word = m[1] if m else None
        if here and word == name and not re.match(r"(?:pub|abbrev|unfoldable|record|data|module|use)\b", line):
            here.append(line)
            continue
        if here:
            out.append((name, here))
        here, name = pending + [line], word
        pending = []
    if here:
        out.append((name, here))
    return [(n, "\n".join(ls).strip("\n")) for n, ls in out]


def split_args(text):
    """The arguments of an application, by parentheses."""
    args, depth, here = [], 0, ""
    for ch in text:
        if ch in "([{":
            depth += 1
        if ch in ")]}":
            depth -= 1
        if ch.isspace() and depth == 0:
            if here:
                args.append(here)
            here = ""
        else:
            here += ch
    if here:
        args.append(here)
    return args


def strip_parens(s):
    s = s.strip()
    while s.startswith("(") and s.endswith(")"):
        depth = 0
        for i, ch in enumerate(s):
            depth += {"(": 1, ")": -1}.get(ch, 0)
            if depth == 0 and i < len(s) - 1:
                return s
        s = s[1:-1].strip()
    return s


def close_of(text, at):
    depth = 0
    for i in range(at, len(text)):
        depth += {"(": 1, "[": 1, "{": 1, ")": -1, "]": -1, "}": -1}.get(text[i], 0)
        if depth == 0:
            return i
    return len(text)


class Turner:
    def __init__(self, fn, where, path):
        self.fn, self.where, self.path = fn, where, path
        self.said = []

    def field(self, segs):
        """The segments after the variable, without `before`: with the step's present name."""
        f = segs[0]
        key = norm(f)
        if key in ("pre", "requires"):
            rest = segs[1:]
            names = clause_names(self.path, "requires")
            if rest and rest[0].isdigit() and len(names) > int(rest[0]):
                rest = [names[int(rest[0])]] + rest[1:]
            return ["requires"] + rest
        if key == "well_formed":
            return ["well_formed"] + segs[1:]
        if key in START or key in ("type_inv", "utf8"):
            return segs
        for k in range(len(segs), 1, -1):
            arm = self.fn.told.get(tuple(map(norm, segs[:k])))
            if arm:
                return arm + segs[k:]
        new = self.fn.fields.get(key)
        if new is None:
            self.said.append(f"look: {self.where}: no step for .{'.'.join(segs)}")
            return segs
        rest = segs[1:]
        if new.startswith(("then-", "else-")) and rest and rest[0] in ("true", "false"):
            new = "if-" + new[5:]
        callee = self.fn.callee.get(key)
        if callee and len(rest) > 1 and rest[0] == "ensures" and rest[1].isdigit():
            names = clause_names(callee, "ensures")
            if len(names) > int(rest[1]):
                rest = ["ensures", names[int(rest[1])]] + rest[2:]
        if callee and len(rest) > 1 and rest[0] in ("new", "auto"):
            k = 0
            while 1 + k < len(rest) and rest[1 + k] == "1":
                k += 1
            names = self.fn.info["params"].get(callee) or []
            if 1 + k < len(rest) and rest[1 + k] == "0" and k < len(names):
                rest = [rest[0], names[k]] + rest[2 + k :]
        return [new] + rest

    def body(self, text, root):
        """A term in which `root` stands for the record of what is known."""
        alias = {root}
        # the lets that only name a place
        while True:
            m = None
            for m in re.finditer(r"\blet (%s)(?: : [^=\n]*?)?\s+=\s+(%s)((?:\.before)*)\s+in\b" % (NAME, NAME), text):
                if m[2] in alias:
                    break
                m = None
            if not m:
                break
            alias.add(m[1])
            text = text[: m.start()] + text[m.end() :].lstrip()
        out, at = [], 0
        for m in re.finditer(r"(?<![^\s(){};,@«»\[\]])(%s)((?:\.%s)*)" % (NAME, NAME), text):
            if m[1] not in alias:
                continue
            segs = [s for s in m[2].split(".") if s]
            if not segs and re.match(r"\s*=(?!=)", text[m.end() :]):
                continue
            bare = segs
            while bare and bare[0] == "before":
                bare = bare[1:]
            out.append(text[at : m.start()])
            if bare:
                out.append(".".join([root] + self.field(bare)))
            else:
                out.append("@@PLACE@@")
            at = m.end()
        out.append(text[at:])
        return "".join(out)


def turn_use(text):
    uses = [l for l in re.findall(r"(?m)^use [^\n]*(?:\n[ ][^\n]*)*", text)]
    return [u for u in uses if not re.search(r"\.(Statement\.\{statement\}|Tie as tie)$", u)]


def turn(path, info, called):
    """Writes the files of the function `called`, as nal::buffers::finish, beside its Proof.antt. What is left is returned, a line each."""
    where = os.path.dirname(path)
    text = open(path, encoding="utf-8").read()
    fn = Function(info)
    said = []
    m = re.search(r"use (Rattle\.\S+)\.Tie as tie", text)
    module = m[1]
    head = []
    for line in text.split("\n"):
        if line.startswith("--"):
            head.append(line)
        else:
            break
    rest = text.split("\n", len(head))[-1] if head else text
    uses = turn_use(rest)
    decls = [(n, b) for n, b in blocks(re.sub(r"(?m)^use [^\n]*(?:\n[ ][^\n]*)*\n?", "", rest)) if n]
    last = [(n, b) for n, b in decls if "tie.close" in b]
    if len(last) != 1:
        return [f"left: {where}: no tie.close"]
    spec = last[0][1]
    at = spec.index("tie.spec")
    open_at = spec.rfind("(", 0, at)
    inner = spec[open_at + 1 : close_of(spec, open_at)] if open_at > spec.index("tie.close") - 1 and open_at >= 0 and spec[open_at + 1 : at].strip() == "" else spec[at:]
    args = split_args(inner)[1:]
    n_loops = len(fn.loops)
    needs = [n for n in fn.needs]
    by_name = {n: b for n, b in decls}
    goal_of_decl, inline = {}, {}
    own = args[2 * n_loops :] if n_loops else args
    if len(own) != len(needs):
        said.append(f"look: {where}: {len(own)} answers to {len(needs)} goals; only named ones are placed")
        for n, b in decls:
            m = re.search(r"tie\.Need-(%s)" % NAME, b)
            if m and fn.goal_of(m[1]):
                goal_of_decl.setdefault(n, []).append(fn.goal_of(m[1]))
            elif m:
                said.append(f"left: {where}: no goal for Need-{m[1]}")
    else:
        for (old, new), a in zip(needs, own):
            a = strip_parens(a)
            if a in by_name:
                goal_of_decl.setdefault(a, []).append(new)
                continue
            mm = re.match(r"λ ((?:%s ?)+)\. *(.*)$" % NAME, a, re.S)
            if not mm:
                said.append(f"left: {where}: {new}: {a[:80]}")
                continue
            if mm[2].strip() == "search rules":
                continue
            inline[new] = (mm[1].split(), mm[2])
    t = Turner(fn, where, called)
    inv_out, ans_out = [], []
    used_places = set()

    # helper lemmas over a place: their record's place, by name
    helper_place = {}
    for n, b in decls:
        b = re.sub(r"(?m)^--[^\n]*\n", "", b)
        m = re.search(r"\((%s) : tie\.([A-Z]%s)[^)]*\)" % (NAME, NAME), b.split("\n" + n + " ")[0]) or re.search(r"^(?:pub |abbrev |unfoldable )*%s : tie\.([A-Z]%s)[^→\n]*→" % (re.escape(n), NAME), b, re.M)
        if m and "tie.Need" not in b:
            old_place = m[m.lastindex]
            helper_place[n] = fn.place_new.get(norm(old_place))
            if helper_place[n] is None:
                said.append(f"left: {where}: {n}: no place {old_place}")

    def apply_places(body, goal, self_place=None):
        """A helper that takes a place gets the goal's way back to it."""
        def sub(m):
            p = helper_place.get(m[1])
            if p is None:
                said.append(f"look: {where}: {m[1]} takes a place")
                return m[1] + " c"
            used_places.add(p)
            if goal is None:
                return f"{m[1]} c" if p == self_place else f"{m[1]} (c.before)"
            return f"{m[1]} (goal.at.{goal} c).{p}"
        body = re.sub(r"(%s) @@PLACE@@" % NAME, sub, body)
        if "@@PLACE@@" in body:
            said.append(f"look: {where}: a place stands alone in {goal}")
            body = body.replace("@@PLACE@@", "c")
        return body

    for n, b in decls:
        if "tie.close" in b:
            continue
        comment = "\n".join(l for l in b.split("\n") if l.startswith("--"))
        code = "\n".join(l for l in b.split("\n") if not l.startswith("--"))
        m = re.match(r"abbrev(?: pub)? (invariant|decreases)-(loop\d*) : tie\.\S+\n\S+ ((?:%s ?)+?)= *(.*)$" % NAME, code, re.S)
        if m:
            k = fn.loop_old.index(m[2]) if m[2] in fn.loop_old else None
            if k is None:
                said.append(f"left: {where}: no loop {m[2]}")
                continue
            label, names = fn.loops[k]
            params = m[3].split()
            changed = info["changed"][k]
            mapping = {}
            vars_first = params[: len(names)]
            later = params[len(names) :]
            chs = [x for x, c in zip(names, changed) if c]
            for p, x, c in zip(vars_first, names, changed):
                mapping[p] = f"l.initial.{x}" if c else f"l.{x}"
            for p, x in zip(later, chs):
                mapping[p] = f"l.{x}"
            if len(params) != len(names) + len(chs):
                said.append(f"look: {where}: {m[1]}-{m[2]}: {len(params)} names for {names} {changed}")
            body = re.sub(r"(?<![^\s(){};,@«»\[\]])(%s)((?:\.%s)*)" % (NAME, NAME), lambda w: mapping[w[1]] + w[2] if w[1] in mapping and w[1] != "_" else w[0], m[4])
            inv_out.append((comment + "\n" if comment else "") + f"abbrev pub {m[1]}-{label} : goal.{m[1]}-{label}\n{m[1]}-{label} l = {body.strip()}")
            continue
        if n in goal_of_decl:
            for g in goal_of_decl[n]:
                unf = re.findall(r"(?m)^unfolding [^\n]*", code)
                mm = re.search(r"(?m)^%s((?: %s)*?) =(.*)$" % (re.escape(n), NAME), code, re.S)
                if not mm:
                    mm = re.search(r"(?m)^%s((?: %s)*?) =(.*)\Z" % (re.escape(n), NAME), code, re.S | re.M)
                if not mm:
                    said.append(f"left: {where}: {n} has no clause")
                    continue
                names = mm[1].split()
                body = mm[2]
                if body.strip() == "search rules" and not unf:
                    continue
                root = names[0] if names else "c"
                body = apply_places(t.body(body, root), g)
                if root != "c":
                    body = re.sub(r"(?<![^\s(){};,@«»\[\]])%s(?=[.\s)])" % re.escape(root), "c", body)
                if g.startswith("returns"):
                    body = as_record(body, clause_names(called, "ensures"))
                ans_out.append((comment + "\n" if comment else "") + f"pub {g} : goal.{g}\n" + "".join(u + "\n" for u in unf) + f"{g} c ={body.rstrip()}")
            continue
        # a lemma of the file
        if n in helper_place:
            p = helper_place[n]
            sig, _, clause = re.sub(r"(?m)^--[^\n]*\n", "", b).partition("\n" + n + " ")
            sig = (comment + "\n" if comment else "") + sig
            sig = re.sub(r"\((%s) : tie\.[A-Z][^)]*\)" % NAME, rf"(\1 : {p})", sig)
            sig = re.sub(r": tie\.[A-Z]%s(?: invariant-loop%s decreases-loop%s)*(?: (?:invariant|decreases)-loop\d*)* *→" % (NAME, r"\d*", r"\d*"), f": {p} →", sig)
            if p:
                used_places.add(p)
            sig = apply_places(t.body(sig, "c"), None, p)
            mm = re.match(r"((?:%s ?)*?)=(.*)$" % NAME, clause, re.S)
            if mm:
                clause = mm[1] + "=" + apply_places(t.body(mm[2], (mm[1].split() or ["c"])[0]), None, p)
            ans_out.append(sig + "\n" + n + " " + clause)
            continue
        if "tie." in code:
            said.append(f"left: {where}: {n} is of `tie`")
        ans_out.append(b) if "invariant" not in n else inv_out.append(b)
    for g, (names, body) in inline.items():
        body = apply_places(t.body(body, names[0]), g)
        if names[0] != "c":
            body = re.sub(r"(?<![^\s(){};,@«»\[\]])%s(?=[.\s)])" % re.escape(names[0]), "c", body)
        if g.startswith("returns"):
            body = as_record(body, clause_names(called, "ensures"))
        ans_out.append(f"pub {g} : goal.{g}\n{g} c = {body.strip()}")
    said += t.said
    # records that an invariant is of stand with it
    texts_inv, texts_ans = "\n\n".join(inv_out), "\n\n".join(ans_out)
    moved, names_moved = [], []
    if inv_out:
        for b in list(ans_out):
            m = re.match(r"(?:--[^\n]*\n)*(?:pub )?(?:abbrev |unfoldable )?(?:pub )?(?:record |data )?(%s)" % NAME, b)
            if m and re.match(r"(?:--[^\n]*\n)*(?:pub )?(?:abbrev |unfoldable )?(?:pub )?(?:record|data|%s(?: \{[^}]*\})* :.*Type)" % re.escape(m[1]), b):
                ans_out.remove(b)
                if "pub" not in re.sub(r"--[^\n]*", "", b).split(m[1])[0]:
                    b = re.sub(r"(?m)^(record|data) ", r"pub \1 ", b, count=1)
                    b = re.sub(r"(?m)^(abbrev|unfoldable) ", r"\1 pub ", b, count=1)
                    if not re.search(r"(?m)^(?:pub|abbrev|unfoldable) ", b):
                        b = re.sub(r"(?m)^%s " % re.escape(m[1]), f"pub {m[1]} ", b, count=1)
                b = re.sub(r"(?m)^  (?=%s(?: \{[^}]*\})* :)" % NAME, "  pub ", b) if re.search(r"(?m)^pub record", b) else b
                moved.append(b)
                names_moved.append(m[1])
        inv_out = moved + inv_out
    has_answers = any(re.search(r": goal\.", b) for b in ans_out)

    def file_of(heading, items, tail):
        body = "\n\n".join(items)
        words = set(re.findall(r"[^\s(){}.;,@\"«»\[\]`]+|\[\]", re.sub(r"--[^\n]*", "", body)))
        keep = []
        for u in uses:
            m = re.match(r"use (\S+?)\.\{(.*)\}$", u.replace("\n", " "))
            if m:
                got = []
                for it in m[2].split(","):
                    it = it.strip()
                    called = it.split(" as ")[-1]
                    parts = [x for x in re.split("◌", called) if x]
                    if "◌" in called and all(x in words for x in parts) or called in words or called == "[]" and "[" in body:
                        got.append(it)
                if got:
                    keep.append(f"use {m[1]}.{{{', '.join(got)}}}")
            else:
                m = re.match(r"use (\S+)(?: as (\S+))?$", u)
                alias = m[2] or m[1].split(".")[-1]
                if re.search(r"(?<![^\s(){};,])%s\." % re.escape(alias), body):
                    keep.append(u)
        return "\n".join(heading + keep + tail) + "\n\n" + body + "\n"

    inv_path, ans_path = os.path.join(where, "Invariants.antt"), os.path.join(where, "Answers.antt")
    if inv_out:
        open(inv_path, "w", encoding="utf-8").write(file_of(head, inv_out, [f"use {module}.Given as goal"]))
    if has_answers:
        tail = []
        if moved:
            body = "\n".join(ans_out)
            recs = [r for r in names_moved if re.search(r"(?<![^\s(){};,.])%s(?![^\s(){};,.])" % re.escape(r), body)]
            if recs:
                tail.append(f"use {module}.Invariants.{{{', '.join(recs)}}}")
        if used_places:
            tail.append(f"use {module}.Goals.{{{', '.join(sorted(used_places))}}}")
        open(ans_path, "w", encoding="utf-8").write(file_of(head if not inv_out else [], ans_out, [f"use {module}.Goals as goal"] + tail))
    os.remove(path)
    return said


def main(argv):
    names, crate = argv[0], argv[1].rstrip("/")
    CLAUSES.update(clauses_of(os.path.dirname(os.path.realpath(crate))))
    with open(os.path.join(names, "names.json")) as f:
        d = json.load(f)
    if not any(k.endswith(".Lts") for k in d):
        sys.exit("answers: no names")
    for folder, dirs, files in os.walk(os.path.join(crate, "proofs")):
        if "Proof.antt" not in files:
            continue
        rel = os.path.relpath(folder, os.path.join(crate, "proofs")).replace("/", ".")
        if argv[2:] and rel.replace(".", "/") not in argv[2:] and rel not in argv[2:]:
            continue
        path = os.path.join(folder, "Proof.antt")
        if "tie.close" not in open(path, encoding="utf-8").read():
            print(f"left: {folder}: walks by hand")
            continue
        key = [k for k in d if re.match(r"Rattle-\w+-proofs\.%s\.Lts$" % re.escape(rel), k)]
        if not key:
            print(f"left: {folder}: no names for {rel}")
            continue
        called = os.path.basename(os.path.realpath(crate)) + "::" + rel.replace(".", "::")
        for line in turn(path, d[key[0]], called):
            print(line)


main(sys.argv[1:])
