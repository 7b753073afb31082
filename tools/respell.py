#!/usr/bin/env python3
"""Brings the repository's own definitions, fields and lemmas to the spelling of today's Rattle, after its port.py.

usage: tools/respell.py [--list]       at the top of the checkout, once; --list only prints old and new names

Words are in snake case, a prime is an apostrophe. A lemma or a field that would have the name of a definition, of a function or of
another law gets `_lem`. Names of functions in src/, exported names, strings and numbers stay: a name is changed only where specs/ or proofs/
declare it, and in .rt files only outside strings. In proofs/F/Proof.antt a name that the file declares itself stays: it is named after a goal.
"""
import re, sys
from pathlib import Path

WORD = r"[^\s(){}\[\].;,:λ\"`@]+"
DECLARED = re.compile(r"^\s*(?:(?:abbrev|unfoldable|mutual|opaque|pub)\s+)*((?:" + WORD + r"\s+)*" + WORD + r")\s*:(?=\s)")
LAWS = ("line_word", "word_number", "held_start")  # spelled by port.py like a definition
NAME = re.compile(r"[A-Za-z][\w'′]*(?:-[\w'′]+)*[!?]?$")


def code(line):
    return re.split(r"--(?=\s|-|$)", line, maxsplit=1)[0]


def snake(part):
    if not part[:1].islower():
        return part
    part = re.sub(r"([A-Z]+)([A-Z][a-z])", r"\1_\2", part)
    part = re.sub(r"([a-z0-9'])([A-Z])", r"\1_\2", part)
    return part.lower()


def declared(path):
    for line in path.read_text(encoding="utf-8").splitlines():
        text = code(line)
        if text.lstrip().startswith(("use ", "mod ", "pub mod ", "pub use ", "infix", "in ", "let ")):
            continue
        m = DECLARED.match(text)
        if m:
            for name in m[1].split():
                if NAME.fullmatch(name) and name not in ("record", "data"):
                    yield name, text.startswith(" ")


def table(root):
    specs = [p for p in sorted(root.rglob("*.antt")) if "specs" in p.parts and "out" not in p.parts]
    laws = [p for p in sorted(root.rglob("*.antt")) if "proofs" in p.parts and "out" not in p.parts and p.name not in ("Proof.antt", "Answers.antt", "Invariants.antt")]
    plain = {n for p in specs for n, inner in declared(p) if not inner}
    fields = {n for p in specs + laws for n, inner in declared(p) if inner}
    tops = {n for p in laws for n, inner in declared(p) if not inner}
    functions = {f for p in root.rglob("*.rt") if "out" not in p.parts for f in re.findall(r"\bfn (\w+)", p.read_text(encoding="utf-8"))}
    imported = {n for p in specs + laws for line in re.findall(r"(?m)^use (?!Rattle\.(?!std)).*\{(.*)\}", p.read_text(encoding="utf-8")) for n in line.split(", ")}
    spelled = lambda n: "_".join(snake(p) for p in n.replace("′", "'").split("-"))
    names = {n: spelled(n) for n in plain | {f for f in fields | tops if "-" not in f}}
    taken = set(names.values()) | imported | functions
    for n in sorted((fields | tops) - plain):
        if "-" in n:
            names[n] = spelled(n) + "_lem" if spelled(n) in taken | tops | fields else spelled(n)
    for n in LAWS:
        names[n] = n + "_lem"
    return {old: new for old, new in names.items() if old != new}


TOKEN = re.compile(r"(?<![\w'′-])([A-Za-z][\w'′]*(?:-[\w'′]+)*[!?]?)(?![\w'′]|-\w)")


def turned(text, names, kept=()):
    return TOKEN.sub(lambda m: names[m[1]] if m[1] in names and m[1] not in kept else m[0], text)


def comment(text, names):
    text = re.sub(r"`([^`]*)`", lambda m: "`" + turned(m[1], names) + "`", text)
    return TOKEN.sub(lambda m: names[m[1]] if m[1] in names and "-" not in m[1] and m[1] != m[1].lower() else m[0], text)


def antt(path, names):
    text = path.read_text(encoding="utf-8")
    kept = {n for n, _ in declared(path)} if path.name in ("Proof.antt", "Answers.antt", "Invariants.antt") else set()
    kept |= {n for line in re.findall(r"(?m)^use (?!Rattle\.(?!std)).*\{(.*)\}", text) for n in line.split(", ")}
    out = []
    for line in text.split("\n"):
        head = code(line)
        pieces = re.split(r'("(?:[^"\\]|\\.)*")', head)
        out.append("".join(p if p.startswith('"') else turned(p, names, kept) for p in pieces) + comment(line[len(head):], names))
    return "\n".join(out)


def rt(path, names):
    out = []
    for line in path.read_text(encoding="utf-8").split("\n"):
        head = re.split(r"(?<!:)//", line, maxsplit=1)[0]
        pieces = re.split(r'(b?"(?:[^"\\]|\\.)*")', head)
        out.append("".join(p if p.startswith(('"', 'b"')) else turned(p, names) for p in pieces) + comment(line[len(head):], names))
    return "\n".join(out)


def main():
    root = Path("crates")
    names = table(root)
    if "--list" in sys.argv:
        for old in sorted(names):
            print(old, names[old])
        return
    for path in sorted(root.rglob("*")):
        if "out" in path.parts or "target" in path.parts or path.suffix not in (".antt", ".rt"):
            continue
        old = path.read_text(encoding="utf-8")
        new = antt(path, names) if path.suffix == ".antt" else rt(path, names)
        if new != old:
            path.write_text(new, encoding="utf-8")


if __name__ == "__main__":
    main()
