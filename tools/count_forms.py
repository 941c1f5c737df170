#!/usr/bin/env python3
"""Counts, in src/ of every crate, the places that docs/DESIGN-PASS.md speaks of.

usage: tools/count_forms.py [-v] [COMMIT]     at the top; without COMMIT the files as they stand, with -v the places themselves
"""
import collections
import re
import subprocess
import sys

verbose = "-v" in sys.argv
names = [a for a in sys.argv[1:] if a != "-v"]
commit = names[0] if names else None


def run(*command):
    return subprocess.run(command, capture_output=True, text=True, check=True).stdout


def files():
    """Each source file's path and text."""
    if commit:
        paths = run("git", "ls-tree", "-r", "--name-only", commit, "crates").split("\n")
        paths = [p for p in paths if re.fullmatch(r"crates/\w+/src/.*\.rt", p)]
        return [(p, run("git", "show", f"{commit}:{p}")) for p in paths]
    paths = [p for p in run("git", "ls-files", "crates").split("\n") if re.fullmatch(r"crates/\w+/src/.*\.rt", p)]
    return [(p, open(p).read()) for p in paths]


FUNCTION = re.compile(r"^( *)(?:pub(?:\(crate\))? )?(?:const )?(?:extern \"C\" )?fn (\w+)", re.M)
KEYWORDS = set("let mut if else while for in match return true false as fn pub loop break continue Some None Ok Err self".split())


def functions(text):
    """Each function's name, head (up to its clauses), clauses and body."""
    for m in FUNCTION.finditer(text):
        indent = m.group(1)
        # The body's brace ends the line of the head, or stands on a line of its own after the clauses.
        head_end = re.compile(r"\{\n").search(text, m.start()).start()
        end = text.find(f"\n{indent}}}\n", head_end)
        head = text[m.start() : head_end]
        clauses = re.findall(r"^\s+(requires|ensures)(?: \w+)? \{ (.*) \}$", head, re.M)
        yield m.group(2), re.split(r"\n\s+(?:requires|ensures)\b", head)[0], clauses, text[head_end:end]


def shape(body):
    """A body with every name, number and string a placeholder of its own order."""
    seen = {}
    out = []
    for token in re.findall(r"\w+|\"[^\"]*\"|[^\w\s]", re.sub(r"//.*", "", body)):
        if re.match(r"\w|\"", token) and token not in KEYWORDS:
            token = seen.setdefault(token, f"${len(seen)}")
        out.append(token)
    return " ".join(out)


places = collections.defaultdict(list)
facts = collections.defaultdict(list)
groups = collections.defaultdict(list)
shapes = collections.defaultdict(list)
constants = collections.defaultdict(list)
for path, text in files():
    crate = path.split("/")[1]
    line_of = lambda at: f"{path}:{text.count(chr(10), 0, at) + 1}"
    for m in re.finditer(r"enum (\w+) \{(.*?)\n\}", text, re.S):
        variants = re.findall(r"^\s+(\w+)(\(|,| \{)", m.group(2), re.M)
        bare = [v for v, mark in variants if mark == ","]
        full = [v for v, mark in variants if mark != ","]
        refusing = any(v in ("Refused", "Unknown", "Nowhere", "Missing", "Nothing", "Not", "NotANumber", "TooShort", "Unreadable", "TooLong", "Absent") for v, _ in variants)
        if full and refusing and len(full) <= 3:
            places["1 own Option or Result"].append(f"{line_of(m.start())} {m.group(1)}")
    for m in re.finditer(r"(?<!\w)(kind|mark|form|group|done|ended|missing|blocked): (?:u8|u32|usize|bool)\b", text):
        places["1 flag or number for a kind"].append(f"{line_of(m.start())} {m.group(1)}")
    for m in re.finditer(r"\.number\(\) (?:==|!=) ", text):
        places["4 compared by hand"].append(line_of(m.start()))
    for m in re.finditer(r"fn (same_\w+|is_same\w*|either|wide|long)\b", text):
        places["4 compared or converted by hand"].append(f"{line_of(m.start())} {m.group(1)}")
    for m in re.finditer(r"^\s*(while|loop)\b", text, re.M):
        places["3 loops by hand"].append(line_of(m.start()))
    for m in re.finditer(r"^\s*for \w+ in [^{\[]*\.\.[^{\[]*\{$", text, re.M):
        places["3 for over indices"].append(line_of(m.start()))
    for m in re.finditer(r"^( *)for [^{]*\{\n(?: +let [^;]*;\n)*( +)if [^{]*\{\n +return [^;]*;\n\2\}\n\1\}$", text, re.M):
        places["3 any, all or position by hand"].append(line_of(m.start()))
    for m in re.finditer(r"^\s*(?:pub(?:\(crate\))? )?const (NO_\w+|NONE|NOTHING)\b", text, re.M):
        places["1 value for none"].append(f"{line_of(m.start())} {m.group(1)}")
    for m in re.finditer(r"^(?:pub(?:\(crate\))? )?const (\w+): [^=]* = ([^;]*);", text, re.M):
        constants[(m.group(1), m.group(2))].append(crate)
    for m in re.finditer(r"(\w+): &(?:mut )?\[\w+\],\s+(\w*(?:count|size|len|length|strands|many)\w*): (?:usize|u8|u64)", text):
        places["6 buffer with a length beside"].append(f"{line_of(m.start())} {m.group(1)}, {m.group(2)}")
    for name, head, clauses, body in functions(text):
        parameters = re.findall(r"(\w+): (&(?:'\w+ )?(?:mut )?\[?[\w<>]+)", head)
        many = len(re.findall(r"\w+: ", head))
        if many > 9:
            places["5 functions of more than nine parameters"].append(f"{path} {name} ({many})")
        slices = tuple(p for p, t in parameters if "[" in t)
        for i in range(len(slices) - 1):
            groups[(crate, slices[i : i + 2])].append(name)
        for kind, clause in clauses:
            if kind == "requires":
                facts[(crate, clause)].append(name)
        rooms = collections.Counter(re.findall(r"let mut \w+ = \[[^;\]]*; (\w+)\];", body))
        for room, many in rooms.items():
            if many >= 3:
                places["6 parallel arrays"].append(f"{path} {name} ({many} of {room})")
        if body.count("\n") >= 4:
            shapes[shape(body)].append(f"{path} {name}")
for (crate, clause), users in facts.items():
    if len(users) >= 3:
        places["5 facts in three contracts or more"].append(f"{crate}: {clause} ({len(users)})")
for (crate, pair), users in groups.items():
    if len(users) >= 3:
        places["5 two slices that travel together, in three functions or more"].append(f"{crate}: {', '.join(pair)} ({len(users)})")
for key, twins in shapes.items():
    if len(twins) > 1:
        places["2 functions of the same shape"].append("; ".join(twins))
for (name, value), crates in constants.items():
    if len(set(crates)) > 1:
        places["2 a constant in two crates or more"].append(f"{name} = {value}: {', '.join(sorted(set(crates)))}")
for what in sorted(places):
    print(f"{len(places[what]):5} {what}")
    if verbose:
        for place in places[what]:
            print(f"        {place}")
