#!/usr/bin/env python3
"""Spells the repository's own words of specs and proofs as today's Rattle does: words in snake case, modules in camel case.

usage: respell.py     at the top of the repository, right after port.py

It goes by respell.tsv beside it: a row for each name, old, a tab, new. A dash stays between two words that are names of their own, as in `sum-set`,
and else becomes `_`, as in `sum_at`; a lemma that would have the name of what it is about ends in `_lem`. It was run when the repository came to this Rattle.
Names of Rust functions, strings and inputs stay; so does what stands behind a dot, the names that Rattle makes.
"""

import os
import re
import subprocess

TOKEN = re.compile(r"(?<![^\s(){}\[\].;,@\"«»:|→λ`])[^\s(){}\[\].;,@\"«»:|→λ`]+")
SPAN = re.compile(r"`[^`\n]*`")


def files(*ends):
    for top in ("crates", "tests/planted", "docs"):
        for folder, dirs, names in os.walk(top):
            dirs[:] = sorted(d for d in dirs if d not in ("out", "target"))
            for n in sorted(names):
                if n.endswith(ends) and n not in ("PORT.md", "DESIGN-PASS.md"):
                    yield os.path.join(folder, n)


def rows():
    with open(os.path.join(os.path.dirname(os.path.abspath(__file__)), "respell.tsv"), encoding="utf-8") as f:
        return dict(line.rstrip("\n").split("\t") for line in f)


def modules():
    """Folders of specs and proofs that are modules by a `mod` line, in small letters."""
    found = set()
    for path in files(".antt"):
        crate, kind = path.split(os.sep)[1:3]
        with open(path, encoding="utf-8") as f:
            for m in re.finditer(r"^(?:pub )?mod ([a-z]\w*)$", f.read(), re.M):
                found.add((crate, kind, m[1]))
    return sorted(found)


def turned(text, names):
    def turn(m):
        made = "-" in m[0] and m.start() > 0 and text[m.start() - 1] == "."
        return m[0] if made else names.get(m[0], m[0])

    return TOKEN.sub(turn, text)


def moved_paths(text, moved):
    for crate, kind, module in moved:
        text = re.sub(rf"\bRattle\.{crate}\.{kind}\.{module}\.", f"Rattle.{crate}.{kind}.{module.capitalize()}.", text)
        text = re.sub(rf"\bcrates/{crate}/{kind}/{module}/", f"crates/{crate}/{kind}/{module.capitalize()}/", text)
    return text


def main():
    names, moved = rows(), modules()
    for path in files(".antt", ".rt", ".edit", ".md"):
        with open(path, encoding="utf-8") as f:
            old = f.read()
        if path.endswith(".md"):
            new = SPAN.sub(lambda m: turned(m[0], names), old)
        else:
            new = turned(old, names)
        new = moved_paths(new, moved)
        if path.endswith(".antt"):
            crate, kind = path.split(os.sep)[1:3]
            for c, k, module in moved:
                if (c, k) == (crate, kind):
                    new = re.sub(rf"^((?:pub )?mod ){module}$", rf"\g<1>{module.capitalize()}", new, flags=re.M)
        if path.endswith(".edit"):
            crate = path.split(os.sep)[1 if path.startswith("crates") else 2]
            for c, k, module in moved:
                if c == crate:
                    new = re.sub(rf"^file: {k}/{module}/", f"file: {k}/{module.capitalize()}/", new, flags=re.M)
        if new != old:
            with open(path, "w", encoding="utf-8") as f:
                f.write(new)
    for crate, kind, module in moved:
        for end in ("", ".antt"):
            old = os.path.join("crates", crate, kind, module + end)
            if os.path.exists(old):
                subprocess.run(["git", "mv", old, os.path.join("crates", crate, kind, module.capitalize() + end)], check=True)


main()
