#!/usr/bin/env python3
"""Brings the repository's own definitions and lemmas to snake case: mask-of becomes mask_of.

usage: tools/respell.py        at the top, once, after the kit's port.py and before any edit by hand

Turned are the names that the repository's antt files define or bind themselves (specs/, and the lemma files of proofs/), wherever a file of crates/ cites them:
in antt, in the ghost lines of a .rt file, and between backticks in comments, README.md and docs/. Names of a library, names that Rattle makes of the code, strings,
names of files and prose stay. KEEP lists names that would fall together with a library's.
"""
import collections
import os
import re
import sys

ROOT = os.path.dirname(os.path.dirname(os.path.abspath(__file__)))
# marks.specs.MarkLaws: the laws of a bit of bit_and and of bit_or, which are words of std
KEEP = {"bit-and", "bit-or"}
SEP = r"\s(){}\[\];,`\"λ|↦"
WORD = re.compile(rf"[^{SEP}]+")
USE = re.compile(r"^\s*(?:pub )?(?:ghost )?use ([^\s{;]+?)(?:\.\{([^}]*)\})?(?: as (\S+?))?;?\s*$")


def files(*endings):
    for folder, dirs, names in os.walk(os.path.join(ROOT, "crates")):
        dirs[:] = sorted(d for d in dirs if d != "out")
        for n in sorted(names):
            if n.endswith(endings):
                yield os.path.join(folder, n)


def read(p):
    with open(p, encoding="utf-8") as f:
        return f.read()


def own_module(path, crates):
    m = re.match(r"Rattle\.(\w+)(?:\.|$)", path)
    return bool(m) and m[1] in crates and not re.search(r"\.(declared|contracts|Statement|Tie|Goals|Given)(\.|$)", path)


def code_and_comment(line, mark):
    at = 0 if line.lstrip().startswith(mark) else line.find(" " + mark + " ")
    return (line, "") if at < 0 else (line[:at], line[at:])


def names():
    """The names with a dash that the repository's own antt defines or binds."""
    crates = set(os.listdir(os.path.join(ROOT, "crates")))
    library, seen = set(), collections.Counter()
    for p in files(".antt", ".rt"):
        for line in read(p).split("\n"):
            m = USE.match(line)
            if m:
                if not own_module(m[1], crates):
                    library.update(n.strip().split(" ")[0] for n in (m[2] or "").split(","))
                continue
            if p.endswith("/Proof.antt") or p.endswith(".rt"):
                continue
            for w in WORD.findall(code_and_comment(line, "--")[0]):
                parts = w.split(".")
                for i, t in enumerate(parts):
                    head = parts[0]
                    if i and head.endswith("ᴰ"):
                        continue
                    if "-" in t and re.match(r"[A-Za-z]", t) and re.search(r"[A-Za-z0-9'₀-₉]$", t):
                        seen[t] += 1
    return {t for t in seen if t not in library and t not in KEEP}


def turn_word(w, own):
    parts = w.split(".")
    if parts[0].endswith("ᴰ"):
        return w
    return ".".join(t.replace("-", "_") if t in own else t for t in parts)


def turn_code(t, own):
    return WORD.sub(lambda m: turn_word(m[0], own), t)


def turn_ticks(t, own, edits=frozenset()):
    part = re.compile(rf"[^{SEP}/:]+")

    def turn(k):
        return k[0] if k[0] in edits and ":" not in k.string[: k.start()] else turn_word(k[0], own)

    return re.sub(r"`([^`\n]+)`", lambda m: "`" + part.sub(turn, m[1]) + "`", t)


def turn_antt(t, own, said):
    out = []
    for line in t.split("\n"):
        code, comment = code_and_comment(line, "--")
        out.append(turn_code(code, own) + turn_ticks(comment, said))
    return "\n".join(out)


def turn_rt(t, own, said):
    out = []
    for line in t.split("\n"):
        code, comment = code_and_comment(line, "//")
        # strings stay
        code = re.sub(r'("(?:[^"\\]|\\.)*")|([^"]+)', lambda m: m[1] or turn_code(m[2], own), code)
        out.append(code + turn_ticks(comment, own))
    return "\n".join(out)


def turned(own):
    """The names with a dash that port.py has turned already: what they became stands in the files, and they do not."""
    words = {t for p in files(".antt", ".rt") for w in WORD.findall(read(p)) for t in w.split(".")}
    return {t.replace("_", "-") for t in words if re.fullmatch(r"[a-zT][A-Za-z0-9'₀-₉]*(_[A-Za-z0-9'₀-₉]+)+", t)} - words


def main():
    own = names()
    said = own | turned(own)
    edits = {n[:-5] for _, _, fs in os.walk(ROOT) for n in fs if n.endswith(".edit")}
    changed = 0
    for p in files(".antt", ".rt"):
        old = read(p)
        words = {t for w in WORD.findall(old) for t in w.split(".")}
        for t in sorted(words & own):
            if t.replace("-", "_") in words:
                print(f"together: {os.path.relpath(p, ROOT)}: {t} and {t.replace('-', '_')}")
        new = turn_antt(old, own, said) if p.endswith(".antt") else turn_rt(old, own, said)
        if new != old:
            changed += 1
            with open(p, "w", encoding="utf-8") as f:
                f.write(new)
    pages = [os.path.join(ROOT, "README.md")] + [os.path.join(d, n) for d, _, fs in os.walk(os.path.join(ROOT, "docs")) for n in sorted(fs) if n.endswith(".md")]
    for p in pages:
        old = read(p)
        new = turn_ticks(old, said, edits)
        if new != old:
            changed += 1
            with open(p, "w", encoding="utf-8") as f:
                f.write(new)
    print(f"{len(own)} names, {changed} files")


if __name__ == "__main__":
    main()
