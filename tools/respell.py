#!/usr/bin/env python3
"""Respells the names of this repository's definitions and lemmas, once, after port.py.

usage: python3 tools/respell.py        at the top of the repository

Words are in snake case, types and modules in camel case; a dash stays in a lemma's name where it joins two functions. respell.tsv has
each old name and its new one; a lemma that would get its function's name ends in `_lem`. Names of src/ stay, and so do types.
"""

import os
import re
import subprocess
import sys

HERE = os.path.dirname(os.path.realpath(__file__))
NAME = re.compile(r"[^\s(){}\[\].;,@\"«»:`/]+")
# The groups of `words` are modules, and one module of ring's proofs has the name of a type that ring exports.
GROUPS = "duels factors keys order repeats rings starts suffixes".split()
MOVED = {"Compared": "ComparedLemmas"}


def table():
    with open(os.path.join(HERE, "respell.tsv"), encoding="utf8") as f:
        return dict(line.rstrip("\n").split("\t") for line in f)


def modules(text):
    """Paths of modules and of files that move."""
    for g in GROUPS:
        for where in ("specs", "proofs"):
            text = text.replace(f"Rattle.words.{where}.{g}.", f"Rattle.words.{where}.{g.capitalize()}.")
            for top in ("words/", "file: "):
                text = text.replace(f"{top}{where}/{g}/", f"{top}{where}/{g.capitalize()}/")
    for old, new in MOVED.items():
        text = text.replace(f"Rattle.ring.proofs.{old}.", f"Rattle.ring.proofs.{new}.")
        text = text.replace(f"ring/proofs/{old}", f"ring/proofs/{new}")
    return text


def words(text, names):
    return NAME.sub(lambda m: names.get(m[0], m[0]), text)


def prose(text, names):
    """Names stand in backticks there."""
    return re.sub(r"`[^`\n]+`", lambda m: words(m[0], names), text)


def antt(text, names):
    out = []
    for line in text.split("\n"):
        out.append(prose(line, names) if line.lstrip().startswith("--") else words(line, names))
    return "\n".join(out)


def source(text, names):
    """Only what clauses read: `ghost use` lines, clauses, and backticks in comments."""
    out, depth = [], 0
    for line in text.split("\n"):
        if line.lstrip().startswith("//"):
            out.append(prose(line, names))
        elif depth or re.match(r"\s*(ghost use |requires|ensures|ghost )", line):
            depth += line.count("{") - line.count("}")
            out.append(words(line, names))
        else:
            out.append(line)
    return "\n".join(out)


def edit(text, names):
    """Only an edit of specs/ or of proofs/ has such names."""
    of_antt = re.search(r"^file: (specs|proofs)/", text, re.M)
    return words(text, names) if of_antt else text


def each(names):
    for folder, dirs, files in os.walk("."):
        dirs[:] = sorted(d for d in dirs if d not in (".git", "out", "target", "tools"))
        for f in sorted(files):
            path = os.path.join(folder, f)
            how = {".antt": antt, ".rt": source, ".edit": edit, ".md": prose}.get(os.path.splitext(f)[1])
            if how:
                with open(path, encoding="utf8") as it:
                    old = it.read()
                new = modules(how(old, names))
                if new != old:
                    with open(path, "w", encoding="utf8") as it:
                        it.write(new)


def move():
    for where in ("specs", "proofs"):
        top = os.path.join("crates", "words", where)
        for g in GROUPS:
            if os.path.isdir(os.path.join(top, g)):
                subprocess.run(["git", "mv", os.path.join(top, g), os.path.join(top, g.capitalize())], check=True)
            if os.path.isfile(os.path.join(top, g + ".antt")):
                subprocess.run(["git", "mv", os.path.join(top, g + ".antt"), os.path.join(top, g.capitalize() + ".antt")], check=True)
        lib = os.path.join(top, "Lib.antt")
        with open(lib, encoding="utf8") as f:
            text = f.read()
        for g in GROUPS:
            text = re.sub(rf"(?m)^((?:pub )?mod ){g}$", rf"\g<1>{g.capitalize()}", text)
        with open(lib, "w", encoding="utf8") as f:
            f.write(text)
    top = os.path.join("crates", "ring", "proofs")
    for old, new in MOVED.items():
        subprocess.run(["git", "mv", os.path.join(top, old + ".antt"), os.path.join(top, new + ".antt")], check=True)
        lib = os.path.join(top, "Lib.antt")
        with open(lib, encoding="utf8") as f:
            text = f.read()
        with open(lib, "w", encoding="utf8") as f:
            f.write(re.sub(rf"(?m)^((?:pub )?mod ){old}$", rf"\g<1>{new}", text))


def main():
    if not os.path.isdir("crates"):
        print("respell: run it at the top of the repository", file=sys.stderr)
        return 2
    if os.path.isdir("crates/words/specs/Order"):
        print("respell: already done", file=sys.stderr)
        return 2
    each(table())
    move()
    return 0


if __name__ == "__main__":
    raise SystemExit(main())
