#!/usr/bin/env python3
"""Turns old proofs, Proof.antt files that walk the code, to Invariants.antt and Answers.antt.

usage: tools/answers.py NAMES LANDED CRATE..     at the top, after port.py and tools/respell.py

NAMES is the folder that `rt names` writes, LANDED a checkout of what had landed, by whose proofs the goals' old names are known. A proof that it can't
turn stays as it is, with a line on why. What it writes is a beginning: the check decides.
"""
import glob
import json
import os
import re
import sys

IDENT = r"[A-Za-z_ℕμκ][\w'₀-₉-]*"
WORDS = {"holds": "init", "less": "smaller", "again": "preserved"}
CHAIN = re.compile(rf"(?<![\w'.₀-₉-])({IDENT})((?:\.(?:{IDENT}|\d+|«[^»]*»))*)")


def norm(name):
    return name.replace("_", "-")


def landed_goal(name):
    for old, new in WORDS.items():
        name = re.sub(rf"^(loop\d*)-{old}(?=$|-)", rf"\1-{new}", name)
    return name


def split_decls(text):
    """The file's parts: (head, use lines, declarations), each declaration a block of lines."""
    head, uses, decls, block = [], [], [], []
    lines = text.split("\n")
    i = 0
    while i < len(lines) and (lines[i].startswith("--") or not lines[i].strip()):
        head.append(lines[i])
        i += 1
    current, pending = None, []
    while i < len(lines):
        line = lines[i]
        i += 1
        if line.startswith("use "):
            uses.append(line)
            continue
        if line.startswith("--"):
            pending.append(line)
            continue
        if not line.strip():
            if current is not None:
                current.append(line)
            continue
        starts = re.match(rf"(?:abbrev |unfoldable |pub )*({IDENT}|◌[^ ]*|«[^»]*») :(?: |$)", line) or re.match(r"(abbrev |unfoldable |pub )*(module|record|data|ruleset|infix\w*|open)\b", line)
        if starts and not line.startswith(" "):
            current = pending + [line]
            pending = []
            decls.append(current)
        else:
            if pending and current is not None:
                current += pending
                pending = []
            current.append(line)
    return head, uses, [("\n".join(d)).rstrip() for d in decls]


def match_paren(text, at):
    """The index of the parenthesis that closes the one at `at`."""
    pairs = {"(": ")", "[": "]", "{": "}"}
    stack = []
    i = at
    while i < len(text):
        ch = text[i]
        if text.startswith("--", i) and (i == 0 or text[i - 1] in " \n"):
            i = text.find("\n", i)
            if i < 0:
                return -1
        elif ch in pairs:
            stack.append(pairs[ch])
        elif ch in ")]}":
            if not stack or stack.pop() != ch:
                return -1
            if not stack:
                return i
        i += 1
    return -1


def top_commas(text):
    parts, depth, last = [], 0, 0
    for i, ch in enumerate(text):
        if ch in "([{":
            depth += 1
        elif ch in ")]}":
            depth -= 1
        elif ch == "," and depth == 0:
            parts.append(text[last:i])
            last = i + 1
    parts.append(text[last:])
    return [p.strip() for p in parts if p.strip()]


def tuple_parts(term, n):
    term = term.strip()
    if n == 1:
        return [term]
    if not term.startswith("(") or match_paren(term, 0) != len(term) - 1:
        return None
    parts = top_commas(term[1:-1])
    if len(parts) == n:
        return parts
    if len(parts) == 2:
        rest = tuple_parts(parts[1], n - 1)
        return rest and [parts[0]] + rest
    return None


def as_record(body, fields):
    """The body, which ends in nested pairs, with a record in their place; None if it ends in something else."""
    body = body.rstrip()
    if not body.endswith(")"):
        return None
    # the opening parenthesis of the last tuple: at the start, or after a `let .. in`
    starts = [0] if body.lstrip().startswith("(") else []
    starts = [len(body) - len(body.lstrip())] if starts else []
    starts += [m.end() for m in re.finditer(r"(?<![\w-])in\s+(?=\()", body)]
    for at in starts:
        if match_paren(body, at) == len(body) - 1:
            parts = tuple_parts(body[at:], len(fields))
            if parts:
                inner = "\n".join(f"      {f} = {p};" for f, p in zip(fields, parts))
                return body[:at] + "record {\n" + inner + "\n    }"
    return None


def references(callee):
    """The parameters of a function that are references, by its path."""
    if not callee:
        return []
    crate, name = callee.split("::")[0], callee.split("::")[-1]
    for f in sorted(glob.glob(f"crates/{crate}/src/**/*.rt", recursive=True)):
        with open(f, encoding="utf-8") as it:
            m = re.search(rf"fn {name}(?:<[^>]*>)?\(([^)]*)\)", it.read())
        if m:
            params = [p.strip() for p in m[1].replace("\n", " ").split(",") if ":" in p]
            return [p.split(":")[0].replace("mut ", "").strip() for p in params if "&" in p]
    return []


class Function:
    def __init__(self, names):
        self.v = names
        self.place = {}
        for i, p in enumerate(names["places"]):
            self.place.setdefault(norm(p[0]), i)
        self.flags = []

    def up(self, i):
        parent = self.v["places"][i][1]
        return None if parent is None else self.place[norm(parent)]

    def path(self, i):
        while i is not None:
            yield i
            i = self.up(i)

    def own(self, i):
        return self.v["places"][i][2]

    def find(self, i, step):
        """The place on the way up from i whose own step this is, by its old name."""
        for q in self.path(i):
            if norm(self.own(q)[0]) == norm(step):
                return q
        return None

    def clause_fields(self, q):
        c = self.v["clauses"][q]
        return c["fields"] if c else None

    def clause(self, fields, rest):
        """The named clause that a path of digits into nested pairs stands for, and what is left of the path."""
        k = 0
        while k < len(rest) and rest[k] == "1" and k < len(fields) - 1:
            k += 1
        if k == len(fields) - 1:
            return fields[k], rest[k:]
        if k < len(rest) and rest[k] == "0":
            return fields[k], rest[k + 1 :]
        if k == len(rest):
            return fields[k:], []
        return None, rest

    def turn_chain(self, at, fields):
        """The new chain for the old one from the record at place `at`; None where there is nothing to turn."""
        q = at
        i = 0
        while i < len(fields) and fields[i] == "before":
            up = self.up(q)
            if up is None:
                break
            q = up
            i += 1
        rest = list(fields[i:])
        while rest and rest[0] == "before":
            rest = rest[1:]
        if not rest:
            return "c", q
        step = rest[0]
        if step in ("args", "lifetimes", "ranges", "auto", "type_inv", "well-formed"):
            rest = [rest[0]] + [norm_field(r) for r in rest[1:2]] + rest[2:]
            text = "." + ".".join(rest)
            for old, new in self.v["args"]:
                text = re.sub(re.escape(old.replace(" ", "")) + r"(?![\w-])", new.replace(" ", ""), text)
            return "c" + text, None
        if step == "requires":
            pre = self.v["pre"]
            rest = rest[1:]
            if pre and rest:
                name, rest = self.clause(pre["fields"], rest)
                if isinstance(name, list):
                    return "c.requires", ("clauses", name)
                return ".".join(["c.requires"] + ([name] if name else []) + rest), None
            return ".".join(["c.requires"] + rest), ("clauses", pre["fields"]) if pre else None
        found = self.find(at, step)
        if found is None:
            found = self.find(at, re.sub(r"-\d+$", "", step))
        if found is None:
            self.flags.append(f"no step {step}")
            return ".".join(["c"] + rest), None
        for p in self.path(at):
            arms = self.v["arms"][p]
            if not arms:
                continue
            for name, old, path in arms[2]:
                if path and norm(old) == norm(step) and rest[1 : 1 + len(path)] == path:
                    tail = rest[1 + len(path) :]
                    if name == "ensures":
                        cf = self.clause_fields(found)
                        if cf and tail:
                            named, tail = self.clause(cf, tail)
                            tail = ([named] if named else []) + tail
                    return ".".join(["c", arms[0], name] + tail), None
        for name, old in self.v["typed"][at]:
            if norm(old) == norm(step) and rest[1:2] == ["given"]:
                return ".".join(["c", "type_inv", name] + rest[2:]), None
        new = self.own(found)[1]
        if len(rest) == 1:
            return ".".join(["c", new]), ("step", found)
        tail, left = self.turn_step(found, rest[1:])
        return ".".join(["c", new] + tail), left

    def turn_step(self, found, rest):
        """The fields behind a step's name, turned, and what a `let` of them would stand for."""
        callee = self.v["places"][found][3]
        if self.own(found)[1].startswith("loop"):
            rest = [norm_field(rest[0])] + rest[1:]
        if len(rest) > 1 and rest[0] in ("new", "auto"):
            given = references(callee)
            # nested pairs, one part for each reference
            k = 0
            while 1 + k < len(rest) and rest[1 + k] == "1" and k < len(given) - 1:
                k += 1
            if rest[1].isdigit() and given:
                rest = [rest[0], given[k]] + rest[1 + k + (1 + k < len(rest) and rest[1 + k] == "0") :]
            rest = [rest[0], norm_field(rest[1])] + rest[2:]
        for old, now in self.v["places"][found][4]:
            if rest[0] == old:
                rest = [now] + rest[1:]
                break
        cf = self.clause_fields(found) if rest[0] == "ensures" else None
        if cf:
            if len(rest) == 1:
                return rest, ("clauses", cf)
            name, tail = self.clause(cf, rest[1:])
            if isinstance(name, list):
                return ["ensures"], ("clauses", name)
            return ["ensures"] + ([name] if name else []) + tail, None
        return rest, None

    def turn(self, body, at, record):
        """The body of an answer, turned; `record` is the name of its argument."""
        aliases = {record: at}
        clauses, steps, args = {}, {}, set()

        def chain(m):
            name, fields = m[1], [f for f in m[2].split(".") if f]
            if name in clauses and fields:
                named, rest = self.clause(clauses[name], fields)
                if isinstance(named, list):
                    self.flags.append(f"the clauses from {named[0]} on")
                    return m[0]
                return ".".join([name] + ([named] if named else []) + rest)
            if name in steps and fields:
                tail, _ = self.turn_step(steps[name], fields)
                return ".".join([name] + tail)
            if name in args and fields:
                return ".".join([name, norm_field(fields[0])] + fields[1:])
            if name not in aliases:
                return m[0]
            if name == record and not fields:
                return "c"
            new, left = self.turn_chain(aliases[name], fields)
            return new

        # a `let` that names a record or clauses, found in order
        out, last = [], 0
        for m in re.finditer(rf"let ({IDENT}) = ({IDENT})((?:\.(?:{IDENT}|\d+))*) in", body):
            out.append(CHAIN.sub(chain, body[last : m.start()]))
            name, base, fields = m[1], m[2], [f for f in m[3].split(".") if f]
            if base in aliases:
                new, left = self.turn_chain(aliases[base], fields)
                if isinstance(left, int):
                    aliases[name] = left
                    out.append("")
                    last = m.end()
                    # the alias goes: every use of it is turned to `c`
                    continue
                if isinstance(left, tuple):
                    (clauses if left[0] == "clauses" else steps)[name] = left[1]
                if new == "c.args":
                    args.add(name)
                out.append(f"let {name} = {new} in")
            elif base in steps and fields:
                tail, left = self.turn_step(steps[base], fields)
                if isinstance(left, tuple):
                    clauses[name] = left[1]
                out.append(f"let {name} = {'.'.join([base] + tail)} in")
            elif base in clauses and fields:
                named, rest = self.clause(clauses[base], fields)
                if isinstance(named, list):
                    clauses[name] = named
                    out.append(f"let {name} = {base} in")
                else:
                    out.append(f"let {name} = {'.'.join([base] + ([named] if named else []) + rest)} in")
            else:
                out.append(m[0])
            last = m.end()
        out.append(CHAIN.sub(chain, body[last:]))
        return "".join(out)


def norm_field(name):
    return name.replace("-", "_")


def names_of(root):
    found = {}
    for f in glob.glob(os.path.join(root, "crates/*/names.json")):
        crate = f.split("/")[-2]
        with open(f, encoding="utf-8") as it:
            listed = json.load(it)
        for key, v in listed.items():
            m = re.fullmatch(rf"Rattle-{crate}-proofs\.(.*)\.Lts", key)
            if m:
                found[crate, m[1].replace(".", "/")] = v
    return found


def turn_invariant(fn, number, params, body, loop_vars, changed):
    """The invariant's or measure's body over `l`."""
    order = [(v, False) for v in loop_vars] + [(v, True) for v, c in zip(loop_vars, changed) if c]
    if len(params) != len(order):
        return None
    new = {}
    for p, (v, again) in zip(params, order):
        is_changed = changed[loop_vars.index(v)]
        new[p] = f"l.{v}" if again or not is_changed else f"l.initial.{v}"
    new.pop("_", None)

    def one(m):
        if m[1] in new:
            return new[m[1]] + m[2]
        return m[0]

    return CHAIN.sub(one, body)


def turn_file(path, landed, names, crate, folder):
    with open(path, encoding="utf-8") as f:
        head, uses, decls = split_decls(f.read())
    with open(landed, encoding="utf-8") as f:
        _, _, old_decls = split_decls(f.read())
    if len(decls) != len(old_decls):
        return f"{len(decls)} declarations, {len(old_decls)} in what had landed"
    fn = Function(names)
    goals = {norm(a): (b, i) for i, (a, b) in enumerate(names["needs"])}
    invariants, answers, helpers, flags, lost = [], [], [], [], []
    module = ".".join(["Rattle", crate, "proofs"] + folder.split("/"))
    for decl, old in zip(decls, old_decls):
        first = decl.split("\n")
        while first and first[0].startswith("--"):
            first = first[1:]
        m = re.match(rf"(?:abbrev )?(?:pub )?({IDENT}) : tie\.(invariant|decreases)-([\w'-]+)", first[0])
        if m:
            kind, oldloop = m[2], m[3]
            which = next((k for k, l in enumerate(names["loops"]) if norm(l[0][0]) == norm(oldloop)), None)
            if which is None:
                return f"no loop {oldloop}"
            loop, loop_vars = names["loops"][which]
            text = "\n".join(first[1:])
            unfold = re.match(r"(unfolding [^\n]*\n)", text)
            text = text[unfold.end() :] if unfold else text
            d = re.match(rf"{re.escape(m[1])}((?:\s+[^\s=]+)*)\s*=", text)
            if not d:
                return "an invariant by clauses"
            body = turn_invariant(fn, which, d[1].split(), text[d.end() :], loop_vars, names["changed"][which])
            if body is None:
                return f"the invariant of {oldloop} has {len(d[1].split())} arguments"
            new = f"{kind}-{loop[1]}"
            invariants.append(f"abbrev pub {new} : goal.{new}\n{unfold[0] if unfold else ''}{new} l ={body}")
            continue
        m = re.match(rf"({IDENT}) :\s+tie\.Need-([\w'-]+)", decl[decl.find(first[0]) :])
        if m:
            o = re.search(r"tie\.Need-([\w'-]+)", old)
            goal = norm(landed_goal(o[1]))
            if goal not in goals:
                lost.append(goal)
                continue
            new, i = goals[goal]
            at = fn.place[norm(names["asked_at"][i][0])]
            text = decl[decl.find(first[0]) :].split("\n", 1)
            text = text[1] if len(text) > 1 else ""
            # the signature may go on for a line
            text = re.sub(r"\A(?:\s+[^\n]*\n)*?(?=unfolding|" + re.escape(m[1]) + r"[ \n])", "", text)
            unfold = re.match(r"(unfolding [^\n]*\n)", text)
            text = text[unfold.end() :] if unfold else text
            d = re.match(rf"{re.escape(m[1])}((?:\s+[^\s=]+)*)\s*=", text)
            if not d:
                flags.append(f"{new}: by clauses")
                answers.append("-- FIXME by clauses\n" + decl)
                continue
            params = d[1].split()
            body = text[d.end() :]
            comment = "".join(l + "\n" for l in decl.split("\n") if l.startswith("--"))
            if body.strip() in ("search rules",):
                continue
            fn.flags = []
            body = fn.turn(body, at, params[0] if params else "c")
            if any(p != "_" and re.search(rf"(?<![\w'-]){re.escape(p)}(?![\w'-])", body) for p in params[1:]):
                flags.append(f"{new}: uses {params[1:]}")
            fields = next((f for k, f in names["asked"].items() if norm(k) == goal), None)
            if fields and len(fields) > 1:
                record = as_record(body, fields)
                if record is None and re.fullmatch(r"\s*(omega|search|grind|cc)\b.*", body, re.S):
                    continue
                if record is None:
                    paths = [".1" * k + (".0" if k < len(fields) - 1 else "") for k in range(len(fields))]
                    body = f"\n    let all = {body.strip()} in record {{\n" + "\n".join(f"      {f} = all{p};" for f, p in zip(fields, paths)) + "\n    }"
                    flags.append(f"{new}: not a tuple")
                else:
                    body = record
            flags += [f"{new}: {x}" for x in fn.flags]
            answers.append(f"{comment}pub {new} : goal.{new}\n{unfold[0] if unfold else ''}{new} c ={body}")
            continue
        if re.match(rf"pub {IDENT}_spec :", first[0]) or re.match(rf"pub {IDENT}-spec :", first[0]):
            continue
        helpers.append(decl)
        answers.append(decl)
        if re.search(r"(?<![\w.'-])tie\.", decl):
            flags.append("a helper names the walk: " + first[0][:80])
    uses = [u for u in uses if not re.search(r"\.(Statement\.\{statement\}|Tie as tie)$", u)]
    # what the invariants need of the helpers
    wanted, text = [], "\n".join(invariants)
    grown = True
    while grown:
        grown = False
        for h in helpers:
            hm = re.search(rf"^(?:abbrev |unfoldable |pub )*({IDENT}) :", h, re.M)
            if hm and h not in wanted and re.search(rf"(?<![\w.'-]){re.escape(hm[1])}(?![\w'-])", text):
                wanted.append(h)
                text += "\n" + h
                grown = True
    here = os.path.dirname(path)
    shared = []
    if invariants:
        moved = []
        for h in helpers:
            if h in wanted:
                hm = re.search(rf"^(?:abbrev |unfoldable |pub )*({IDENT}) :", h, re.M)
                shared.append(hm[1])
                lines = h.split("\n")
                k = next(i for i, l in enumerate(lines) if not l.startswith("--"))
                if not re.match(r"(abbrev |unfoldable )?pub ", lines[k]):
                    lines[k] = re.sub(r"^(abbrev |unfoldable )?", lambda m: (m[0] or "") + "pub ", lines[k], count=1)
                moved.append("\n".join(lines))
        answers = [a for a in answers if a not in wanted]
        text = "\n".join(head + uses + [f"use {module}.Given as goal", ""]) + "\n" + "\n\n".join(moved + invariants) + "\n"
        write(os.path.join(here, "Invariants.antt"), text)
    if answers:
        more = [f"use {module}.Invariants.{{{', '.join(shared)}}}"] if shared else []
        text = "\n".join((head if not invariants else []) + uses + more + [f"use {module}.Goals as goal", ""]) + "\n" + "\n\n".join(answers) + "\n"
        write(os.path.join(here, "Answers.antt"), text)
    os.remove(path)
    said = flags + ([f"gone: {', '.join(lost)}"] if lost else [])
    return "turned" + ("; " + "; ".join(said) if said else "")


def write(path, text):
    with open(path, "w", encoding="utf-8") as f:
        f.write(text.lstrip("\n"))


def main():
    root, landed, crates = sys.argv[1], sys.argv[2], sys.argv[3:]
    names = names_of(root)
    for crate in crates:
        for path in sorted(glob.glob(f"crates/{crate}/proofs/**/Proof.antt", recursive=True)):
            folder = os.path.dirname(path).split("/proofs/", 1)[1]
            if (crate, folder) not in names:
                print(f"{path}: no names")
                continue
            said = turn_file(path, os.path.join(landed, path), names[crate, folder], crate, folder)
            if said != "turned":
                print(f"{path}: {said}")


if __name__ == "__main__":
    main()
