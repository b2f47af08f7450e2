#!/usr/bin/env python3
"""Respells the repository's own definitions and lemmas: words in snake case, an apostrophe for a prime.

usage: python3 tools/respell.py [--dry]     at the top of the repository, after the kit's own script

A name of ours is one that a signature in specs/ or proofs/ declares, or that an import gives by `as`.
Types, records of facts and modules keep their capital; names that the check makes (goals, given facts) and
names of other libraries stay. It tells where a new name stands already.
"""
import os
import re
import sys

WORD = re.compile(r"[^\s(){}\[\],;.λ:\"`|]+")
# Variables that a definition's new name would hide, by the end of their file's path.
VARIABLES = {"source/proofs/Words.antt": {"after-blanks": "blanks_is", "after_minus": "minus_is"}}
HEAD = re.compile(r"^(?:(?:unfoldable|abbrev|ruleset|opaque) )*(?:pub )?(?:data |record )?([^\s:(){}=]+)\s*(?:\([^)]*\)\s*|\{[^}]*\}\s*)*: (.*)$")
PART = re.compile(r"^ +(?:pub )?([^\s:(){}=]+)((?: [^\s:(){}=]+)*) : ")
ALIAS = re.compile(r"[{,]\s*([^\s,{}]+) as ([^\s,{}]+)\s*(?=[,}])")


def files(root, ends):
    for top in ("crates",):
        for folder, dirs, names in os.walk(os.path.join(root, top)):
            dirs[:] = sorted(d for d in dirs if d not in ("out", "target"))
            for name in sorted(names):
                if name.endswith(ends):
                    yield os.path.join(folder, name)


def read(path):
    with open(path, encoding="utf-8") as f:
        return f.read()


def snake(name):
    name = name.replace("-", "_").replace("\u2032", "'")
    return re.sub(r"(?<=[a-z0-9])([A-Z])", lambda m: "_" + m.group(1).lower(), name)


def respelled(name):
    return name[0].islower() and snake(name) != name


def declared(path, text):
    """The names that a file declares, without those of goals and of given facts."""
    for line in text.splitlines():
        if line.startswith("--") or line.startswith("use "):
            continue
        m = HEAD.match(line) or PART.match(line)
        if m and not re.match(r"(goal|given)\.", m.group(2).strip()):
            yield m.group(1)
            if line.startswith(" "):
                yield from m.group(2).split()


def main(argv):
    root = "."
    antt = {p: read(p) for p in files(root, ".antt")}
    rt = {p: read(p) for p in files(root, ".rt")}
    for p in antt:
        for end, pairs in VARIABLES.items():
            if p.endswith(end):
                antt[p] = WORD.sub(lambda m: pairs.get(m.group(0), m.group(0)), antt[p])
    own, foreign = set(), set()
    for p, t in antt.items():
        own.update(declared(p, t))
    for t in list(antt.values()) + list(rt.values()):
        for line in t.splitlines():
            m = re.match(r"(?:ghost )?(?:pub )?use (\S+)\.\{(.*)\};?$", line.strip())
            if not m:
                continue
            own.update(a for _, a in ALIAS.findall("{" + m.group(2) + "}"))
            if re.match(r"Rattle\.(std|core)\b|(?!Rattle)", m.group(1)):
                foreign.update(w.split(" as ")[0].strip() for w in m.group(2).split(","))
    turned = {n: snake(n) for n in sorted(own - foreign) if respelled(n)}
    words = set()
    for t in list(antt.values()) + list(rt.values()):
        words.update(WORD.findall(t))
    clash = [(n, m) for n, m in turned.items() if m in words]
    if len(set(turned.values())) != len(turned):
        clash += [(n, m) for n, m in turned.items() if list(turned.values()).count(m) > 1]
    for n, m in clash:
        print(f"look: {n} would be {m}, which stands already", file=sys.stderr)
    pages = {p: read(p) for p in ["README.md"] + sorted("docs/" + n for n in os.listdir("docs") if n.endswith(".md"))}
    count = 0
    for p, t in {**antt, **rt, **pages}.items():
        new = WORD.sub(lambda m: turned.get(m.group(0), m.group(0)), t) if p not in pages else re.sub(r"`[^`\n]*`", lambda q: WORD.sub(lambda m: turned.get(m.group(0), m.group(0)), q.group(0)), t)
        if new != read(p):
            count += 1
            if "--dry" not in argv:
                with open(p, "w", encoding="utf-8") as f:
                    f.write(new)
    if "--dry" in argv:
        for n, m in turned.items():
            print(n, m)
    print(f"respell: {len(turned)} names, {count} files", file=sys.stderr)
    return 0


if __name__ == "__main__":
    raise SystemExit(main(sys.argv[1:]))
