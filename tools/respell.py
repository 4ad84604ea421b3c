#!/usr/bin/env python3
"""Brings the names that this repository's specs/ and proofs/ define to today's spelling: words in snake case, types in camel case.

usage: tools/respell.py     at the top of the repository, once, after the kit's own scripts

It goes by text. A name counts as one of ours where an .antt file defines it: a definition, a lemma, a field, a constructor, or a
variable that a line binds. Names that the check makes (of goals, of calls, of branches) are left, and so are the library's. In
.rt files and in must-fail edits only clauses and ghost items have such names; comments are turned where a name stands in
backquotes. It stops where two names would become one.
"""

import os
import re
import sys

PART = r"[A-Za-z0-9_'₀-₉⊎≡≢+]+"
TOKEN = re.compile(r"(?<![\w'₀-₉⊎≡≢+-])[A-Za-z_](?:[\w'₀-₉⊎≡≢+]*)(?:-" + PART + r")+(?![\w'₀-₉-])")
DEFINES = re.compile(r"^\s*(?:module\s+_\s+)?(?:(?:pub|abbrev|unfoldable|record|data)\s+)*(\S+(?: \S+)*?)\s*(?::|\(|\{|where\b|$)")
GOALS = re.compile(r":\s*(?:goal|given)\.")
BINDS = [
    re.compile(r"[({]([^(){}:=]*):"),
    re.compile(r"\blet\s+(\S+)\s*[:=]"),
    re.compile(r"\blet\s+\(([^()=]*)\)\s*="),
    re.compile(r"λ\s*([^.λ]*)\."),
    re.compile(r"^\s+(\S+)\s+:\s"),
]


def files(ends):
    for folder, dirs, names in os.walk("crates"):
        dirs[:] = sorted(d for d in dirs if d != "out")
        for name in sorted(names):
            if name.endswith(ends):
                yield os.path.join(folder, name)


def read(path):
    with open(path, encoding="utf-8") as f:
        return f.read()


def cut_comment(line):
    """An .antt line's code and its comment."""
    m = re.search(r"(?:^|(?<=\s))--(?=\s|$|-)", line)
    return (line[: m.start()], line[m.start() :]) if m else (line, "")


def ours():
    names = set()
    for path in files((".antt",)):
        for line in read(path).splitlines():
            code = cut_comment(line)[0]
            if code.startswith("use ") or not code.strip():
                continue
            goal = path.endswith(("/Answers.antt", "/Invariants.antt")) and path.count("/") > 3 and re.match(r"(?:abbrev )?pub ", code)
            if not goal and "record {" not in code and not GOALS.search(code):
                m = DEFINES.match(code)
                if m:
                    names.update(m[1].split())
            for bind in BINDS:
                for m in bind.finditer(code):
                    if not GOALS.search(code) or bind is not BINDS[4]:
                        names.update(m[1].replace(",", " ").split())
    return {n for n in names if TOKEN.fullmatch(n)} - theirs()


def theirs():
    """The names that come from the library."""
    crates = {name for name in os.listdir("crates")}
    names = set()
    for path in files((".antt", ".rt")):
        for m in re.finditer(r"^(?:ghost )?use (?:Rattle\.)?(\w+)\.[^{\n]*\{([^}]*)\}", read(path), re.M):
            if m[1] not in crates:
                names.update(re.split(r"[,\s]+", m[2].strip()))
    return names


MADE = re.compile(
    r"^(?:loop|if|else|then|eq|match|returns|invariant|decreases|bounds|overflow|offset|slice)-|-(?:requires|init|preserved|ensures|test|index|item|items)$"
)


def turned(name):
    parts = [p for p in name.replace("++", "append").split("-") if p]
    if name[0].isupper():
        return "".join(p[0].upper() + p[1:] for p in parts)
    return "_".join(parts)


def turn_code(code, names):
    return TOKEN.sub(lambda m: names.get(m[0], m[0]), code)


def turn_comment(text, names):
    return re.sub(r"`[^`]*`", lambda m: turn_code(m[0], names), text)


def turn_antt(text, names):
    out = []
    for line in text.split("\n"):
        code, comment = cut_comment(line)
        pieces = re.split(r'("(?:[^"\\]|\\.)*")', code)
        code = "".join(p if i % 2 else turn_code(p, names) for i, p in enumerate(pieces))
        out.append(code + turn_comment(comment, names))
    return "\n".join(out)


def turn_rt(text, names):
    out = []
    for line in text.split("\n"):
        m = re.match(r"\s*//", line)
        if m:
            out.append(turn_comment(line, names))
            continue
        pieces = re.split(r'("(?:[^"\\]|\\.)*")', line)
        out.append("".join(p if i % 2 else turn_code(p, names) for i, p in enumerate(pieces)))
    return "\n".join(out)


def main():
    names = {n: turned(n) for n in sorted(ours()) if not MADE.search(n)}
    back = {}
    for old, new in names.items():
        back.setdefault(new, []).append(old)
    clash = {new: old for new, old in back.items() if len(old) > 1}
    there = {}
    for path in files((".antt", ".rt")):
        for word in set(re.findall(r"[A-Za-z_][\w'₀-₉]*", read(path))):
            there.setdefault(word, []).append(path)
    for new, old in back.items():
        for path in there.get(new, []):
            if path.endswith(".antt") and any(o in TOKEN.findall(read(path)) for o in old):
                print(f"look: {path}: has {new}, and {old[0]} becomes it")
    if clash:
        for new, old in clash.items():
            print(f"two names become {new}: {' '.join(old)}")
        if "--go" not in sys.argv:
            raise SystemExit(1)
    if "--list" in sys.argv:
        for old, new in names.items():
            print(old, new)
        return
    count = 0
    for path in files((".antt", ".rt", ".edit")):
        text = read(path)
        new = turn_antt(text, names) if path.endswith(".antt") else turn_rt(text, names)
        if new != text:
            count += 1
            with open(path, "w", encoding="utf-8") as f:
                f.write(new)
    print(f"{len(names)} names, {count} files")


main()
