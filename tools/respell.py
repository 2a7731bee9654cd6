#!/usr/bin/env python3
"""Brings the repository's own definitions and lemmas to snake case, and its facts to camel case.

Run once, at the top of the repository, after the kit's port.py. A name counts as the repository's own
where a file of specs/ or proofs/ defines it; names that the toolchain makes (of goals, steps and loops)
and names of the library keep their dashes.
"""
import glob
import re

TOKEN = re.compile(r"[A-Za-z_ℕ][A-Za-z0-9_'ℕ≤<≡≢∷+*-]*")
WORDS = {"abbrev", "unfoldable", "pub", "data", "record", "constructor"}
# names that are not the repository's own, or that are spelled by hand
KEPT = {"mul-add"}
BY_HAND = {"getD-paired": "get_or_paired", "length-putMid": "length_put_mid", "putMid": "put_mid"}


def spelled(name):
    """The name in today's spelling."""
    if name in BY_HAND:
        return BY_HAND[name]
    parts = re.sub(r"([a-z])([A-Z])", lambda m: m.group(1) + "-" + m.group(2).lower(), name) if name[0].islower() else name
    parts = parts.split("-")
    if name[0].isupper():
        return parts[0] + "".join(p[:1].upper() + p[1:] for p in parts[1:])
    return "_".join(parts)


def definitions(text):
    """The names that a file defines, those of the top and those of fields."""
    for line in text.split("\n"):
        stripped = line.strip()
        if stripped.startswith(("use ", "--", "mod ", "pub mod", "open ", "let ")):
            continue
        head, colon, rest = stripped.partition(" :")
        words = head.split()
        while words and words[0] in WORDS:
            words = words[1:]
        if not colon or not words or re.match(r"\s*goal\.", rest) or words[0].startswith("invariant-loop"):
            continue
        name = words[0]
        if TOKEN.fullmatch(name) and ("-" in name or re.match(r"[a-z]+[A-Z]", name)):
            yield name, line.startswith(" ")


def main():
    files = sorted(glob.glob("crates/*/specs/**/*.antt", recursive=True) + glob.glob("crates/*/proofs/**/*.antt", recursive=True))
    own, fields, all_words = set(), set(), set()
    for file in files:
        text = open(file).read()
        all_words.update(TOKEN.findall(text))
        for name, inner in definitions(text):
            if name not in KEPT:
                own.add(name)
                if inner:
                    fields.add(name)
    new = {name: spelled(name) for name in own}
    for name, to in sorted(new.items()):
        if to in all_words or list(new.values()).count(to) > 1:
            print("falls together:", name, to)

    def turn(text, answers):
        def one(match):
            name, start = match.group(0), match.start()
            if name not in new:
                return name
            before = text[max(0, start - 40):start]
            if before.endswith(".") and answers and name not in fields and not re.search(r"[A-Z]\w*\.$", before):
                return name
            return new[name]
        return TOKEN.sub(one, text)

    for file in files + sorted(glob.glob("crates/*/src/**/*.rt", recursive=True)):
        text = open(file).read()
        if file.endswith(".rt"):
            out = []
            for line in text.split("\n"):
                code, slashes, comment = line.partition("//")
                if '"' not in code:
                    code = re.sub(r"«(\w+)»", r"\1", turn(code, False))
                out.append(code + slashes + comment)
            turned = "\n".join(out)
        else:
            turned = turn(text, file.endswith(("Answers.antt", "Invariants.antt", "Proof.antt")))
        if turned != text:
            open(file, "w").write(turned)


main()
