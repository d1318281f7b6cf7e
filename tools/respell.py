#!/usr/bin/env python3
"""Brings the repository's own names to the spelling of today's Rattle, once, behind port.py: usage: tools/respell.py, at the top of the repository.
Words are in snake case, and the crate `hex`, whose name a library of the kit has, is `hexline`. The names stand in respell.txt. Names of functions, strings,
comments, inputs and outputs stay."""

import os
import re
import subprocess

CODE = re.compile(r"""--[^\n]*|[A-Za-z][A-Za-z0-9_'-]*""")
SOURCE = re.compile(r"""//[^\n]*|b?"(?:\\.|[^"\\])*"|b?'(?:\\.|[^'\\])'|[A-Za-z][A-Za-z0-9_'-]*""")
WORD = re.compile(r"[A-Za-z][A-Za-z0-9_'-]*")


def names(path):
    code, pages = {}, {}
    into = code
    with open(path) as lines:
        for line in lines:
            if line.startswith("# the pages"):
                into = pages
            elif not line.startswith("#"):
                old, new = line.split()
                into[old] = new
    return code, {**code, **pages}


def crate(text):
    text = re.sub(r"\bRattle\.hex\.", "Rattle.hexline.", text)
    text = re.sub(r"\bhex::", "hexline::", text)
    return text


def turned(path, text, code, pages):
    if path.endswith(".antt"):
        return crate(CODE.sub(lambda m: code.get(m[0], m[0]), text))
    if path.endswith(".rt"):
        return crate(SOURCE.sub(lambda m: code.get(m[0], m[0]), text))
    if path.endswith(".edit"):
        lines = text.split("\n")
        for i, line in enumerate(lines):
            if line.startswith(("old: ", "new: ")):
                lines[i] = line[:5] + crate(SOURCE.sub(lambda m: pages.get(m[0], m[0]), line[5:]))
        return "\n".join(lines)
    spans = re.sub(r"`[^`\n]*`", lambda m: WORD.sub(lambda w: pages.get(w[0], w[0]), m[0]), text)
    return re.sub(r"`((?:crates/)?)hex([/:`])", r"`\1hexline\2", spans)


def main():
    here = os.path.dirname(os.path.realpath(__file__))
    os.chdir(os.path.dirname(here))
    code, pages = names(os.path.join(here, "respell.txt"))
    if os.path.isdir("crates/hex"):
        os.rename("crates/hex", "crates/hexline")
    found = ["README.md"] + [os.path.join("docs", f) for f in sorted(os.listdir("docs")) if not f.startswith("PORT")]
    for folder, dirs, files in os.walk("crates"):
        dirs[:] = sorted(d for d in dirs if d != "out")
        found += [os.path.join(folder, f) for f in sorted(files) if f.endswith((".antt", ".rt", ".edit"))]
    for path in found:
        with open(path) as file:
            old = file.read()
        in_demands = {**code, "finds": "Finds"} if path.startswith("crates/demands/") else code
        new = turned(path, old, in_demands, pages)
        if new != old:
            with open(path, "w") as file:
                file.write(new)
    with open("crates.txt") as file:
        crates = file.read()
    with open("crates.txt", "w") as file:
        file.write(re.sub(r"\bhex\b", "hexline", crates))
    for name in sorted(os.listdir("crates")):
        subprocess.run(["rt", "fmt"], cwd=os.path.join("crates", name), stdout=subprocess.DEVNULL)


if __name__ == "__main__":
    main()
