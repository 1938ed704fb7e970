#!/usr/bin/env python3
"""Brings this repository's own names in specs/ and proofs/ to today's spelling, once, after the kit's port.py.

A definition, a field, a constructor and a lemma are in snake case, a type and a fact in upper camel case. A lemma on the
length of something keeps the dash behind `length`. Names from src/ and from the libraries stay, and so do the names of
goals. The must-fail edits and the planted ones are respelled alike; texts and comments stay. Run at the top:
python3 tools/respell.py
"""
import glob
import re
import sys

DECLARED = re.compile(r"^ *(?:abbrev |unfoldable |pub )*(?:data |record )?(«?[^\s:(){}«»]+»?)(?: [^:]*)? :(?: |$)")
WORDS = {"use", "where", "--", "let", "in", "λ", "|"}
# names that a rule would turn wrongly
EXCEPTIONS = {"length-of": "length_of"}


def files(*patterns):
    return sorted(f for p in patterns for f in glob.glob(p, recursive=True))


def declared():
    """The names that a definition, a lemma, a field or a constructor of this repository declares."""
    names = set()
    for path in files("crates/*/specs/**/*.antt", "crates/*/proofs/*.antt", "crates/*/proofs/**/*.antt"):
        goals = path.endswith(("/Answers.antt", "/Invariants.antt"))
        for line in open(path):
            found = DECLARED.match(line)
            if not found or found.group(1) in WORDS or "--" in line.split(":")[0]:
                continue
            name = found.group(1)
            if goals and (line.startswith("pub ") or line.startswith("abbrev pub ")):
                continue
            names.add(name)
    return names


def respelled(name):
    if name in EXCEPTIONS:
        return EXCEPTIONS[name]
    if name[0].isupper():
        return "".join(part[0].upper() + part[1:] for part in name.split("-"))
    if name.startswith("length-"):
        return "length-" + name[len("length-"):].replace("-", "_")
    return name.replace("-", "_")


def main():
    pairs = {n: respelled(n) for n in declared() if re.fullmatch(r"[A-Za-z][\w'-]*", n) and "-" in n}
    pairs = {old: new for old, new in pairs.items() if old != new}
    kept = r'"(?:[^"\\\n]|\\.)*"|//[^\n]*|(?m:(?:^|(?<=\s))--\s[^\n]*)'
    token = re.compile(kept + r"|(?<![\w'-])[A-Za-z][\w']*(?:-[\w'ℕ*]+)+(?![\w'-])")
    for path in files("crates/*/specs/**/*.antt", "crates/*/proofs/**/*.antt", "crates/*/src/**/*.rt",
                      "crates/*/must-fail/*.edit", "planted/*/*.edit"):
        text = open(path).read()
        new = token.sub(lambda m: pairs.get(m.group(0), m.group(0)), text)
        if new != text:
            open(path, "w").write(new)
    if "--list" in sys.argv:
        for old, new in sorted(pairs.items()):
            print(old, new)


if __name__ == "__main__":
    main()
