#!/usr/bin/env python3
"""Lists the places in crates/*/src that docs/DESIGN-PASS.md counts: tools/places.py [FOLDER] [POINT]."""
import re
import sys
from collections import defaultdict
from pathlib import Path

ROOT = Path(sys.argv[1] if len(sys.argv) > 1 else ".")
FILES = sorted((ROOT / "crates").glob("*/src/**/*.rt"))
TEXTS = {f: f.read_text() for f in FILES}
CLAUSE = re.compile(r"^\s*(requires|ensures)\s+(?:\w+ )?\{ (.*) \}$")
HEAD = re.compile(r"^\s*(?:pub(?:\(\w+\))? )?(?:const )?fn (\w+)")


def place(f, n):
    return f"{f.relative_to(ROOT / 'crates')}:{n}"


def lines(pattern):
    """Each line of code that the pattern is found in."""
    for f, text in TEXTS.items():
        for n, line in enumerate(text.splitlines(), 1):
            if re.search(pattern, line) and not line.lstrip().startswith(("//", "ghost")):
                yield f"{place(f, n)}: {line.strip()}"


def functions():
    """File, line, name, parameters, clauses and body of each function."""
    for f, text in TEXTS.items():
        rows = text.splitlines()
        for n, line in enumerate(rows):
            head = HEAD.match(line)
            if not head or line.lstrip().startswith("//"):
                continue
            indent = len(line) - len(line.lstrip())
            sign, clauses, body, k = line, [], [], n
            while not sign.rstrip().endswith(("{", ";", "{}")) and k + 1 < len(rows):
                k += 1
                clause = CLAUSE.match(rows[k])
                if clause:
                    clauses.append(clause.groups())
                    if k + 1 < len(rows) and rows[k + 1].strip() in ("{", "{}"):
                        k += 1
                        break
                elif rows[k].strip() in ("{", "{}"):
                    break
                else:
                    sign += " " + rows[k].strip()
            while k + 1 < len(rows) and not rows[k].startswith(" " * indent + "}"):
                k += 1
                body.append(rows[k])
            params = re.search(r"\((.*?)\)(?: ->|\s*\{|\s*;|$)", sign)
            names = re.findall(r"(\w+): ", params.group(1)) if params else []
            yield f, n + 1, head.group(1), names, clauses, "\n".join(body[:-1])


def twins():
    """Functions of three lines and more whose bodies differ only in names and numbers."""
    groups = defaultdict(list)
    for f, n, name, _, _, body in functions():
        if body.count("\n") < 1:
            continue
        seen = {}
        shape = re.sub(r"[A-Za-z_]\w*|\d[\w.]*", lambda m: seen.setdefault(m.group(), f"#{len(seen)}"), body)
        groups[re.sub(r"\s+", " ", shape)].append(f"{place(f, n)} {name}")
    return [" = ".join(g) for g in groups.values() if len(g) > 1]


def facts():
    """Facts that stand in the clauses of three functions or more, whatever the value is called."""
    found = defaultdict(set)
    for f, n, name, _, clauses, _ in functions():
        for kind, text in clauses:
            if kind == "requires":
                shape = re.sub(r"\b[a-z_]\w*(\.\w+)*\.(now|old|new)\b", "_", text)
                found[shape].add(f"{place(f, n)} {name}")
    return [f"{s}: {len(w)} functions" for s, w in sorted(found.items()) if len(w) >= 3]


POINTS = {
    "1 why not, as an Option": lambda: lines(r"-> Option<\w*Fault>"),
    "1 numbers for values": lambda: lines(r"fn (number|digit|code|from_number|from_digit|named)\b"),
    "2 twins": twins,
    "3 counted loops": lambda: lines(r"\bfor \w+ in .*\.\.|\bwhile "),
    "4 written by hand": lambda: lines(r"fn (is|show|number|digit|from_number|from_digit|clone|eq|cmp|fmt)\b"),
    "5 facts in three functions": facts,
    "5 six parameters and more": lambda: [f"{place(f, n)} {name}: {len(p)}" for f, n, name, p, _, _ in functions() if len(p) > 5],
    "5 a record beside its weights": lambda: [f"{place(f, n)} {name}" for f, n, name, p, _, _ in functions()
                                              if re.search(r"(?:\w+: &(?:'a )?Record,?\s*)", TEXTS[f].split("\n", n - 1)[-1][:400].split("{")[0]) and len(p) > 1],
    "6 an array and its length": lambda: lines(r"^\s+(pub(\(crate\))? )?\w+: \[\w+; \w+\],$"),
    "7 which step to run": lambda: lines(r"\bmatch (self|\(self|step|end|task|motion|self\.\w+\(.*\)\?) ?\{?"),
}

for title, find in POINTS.items():
    if len(sys.argv) < 3 or title.startswith(sys.argv[2]):
        found = list(find())
        print(f"{title}: {len(found)}")
        for each in found:
            print(f"    {each}")
