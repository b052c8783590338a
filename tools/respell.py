#!/usr/bin/env python3
"""Brings the project's own definitions and lemmas to snake case: userOffset becomes user_offset, in specs, proofs, clauses, ghost imports and edits.

usage: python3 tools/respell.py        at the top, once, after the upgrade of the spelling

A word is turned where it begins with a small letter and has a hump, and stands in some .antt file. Types, modules and facts keep their capitals. Names of
Rattle source have no hump, and so stay as they are. A lemma that would get the name of a turned word is first given the ending _lem. Where a turned name
would be that of a parameter of a function whose clauses cite it, this says so.
"""

import os
import re
import sys

WORD = re.compile(r"(?<![\w'\-])[a-z][\w']*(?:-[\w']+)*")
HUMP = re.compile(r"(?<=[a-z0-9])([A-Z])")
PART = re.compile(r"[a-z][A-Za-z0-9_']*")


def snake(name):
    return "-".join(HUMP.sub(lambda m: "_" + m.group(1).lower(), p) if PART.fullmatch(p) else p for p in name.split("-"))


def files(root, endings):
    for folder, dirs, names in os.walk(os.path.join(root, "crates")):
        dirs[:] = sorted(d for d in dirs if d != "out")
        for n in sorted(names):
            if n.endswith(endings):
                yield os.path.join(folder, n)


def words(root):
    found = set()
    for path in files(root, (".antt",)):
        with open(path, encoding="utf-8") as f:
            found |= set(WORD.findall(f.read()))
    return {w: snake(w) for w in found if snake(w) != w}


def hidden(path, text, made):
    """Functions of which a parameter has the name of a word that was turned, so that their clauses could no longer cite it."""
    for m in re.finditer(r"fn (\w+)[^(]*\(([^{]*?)\)(?:\s*->[^{]*?)?\n((?:\s*(?:requires|ensures)[^\n]*\n)+)", text):
        for p in re.findall(r"(\w+)\s*:", m.group(2)):
            if p in made:
                print(f"look: {path}: {m.group(1)}: {p}")


DEFINED = r"(?m)^ *(?:abbrev |unfoldable )?(?:pub )?{0} :(?= )"


def named(text, name):
    """Each place of a name that stands alone: not in a path, and no module's."""
    return re.compile(r"(?<![\w'.\-])" + re.escape(name) + r"(?![\w'.\-])").sub(name + "_lem", text)


def apart(root, made):
    """Gives the ending _lem to lemmas whose name a turned word will have, where they are declared and where they are imported."""
    texts = {}
    for path in files(root, (".antt",)):
        with open(path, encoding="utf-8") as f:
            texts[path] = f.read()
    for path, text in sorted(texts.items()):
        if os.sep + "proofs" + os.sep not in path:
            continue
        for name in sorted(set(re.findall(r"(?m)^(?:pub )?([a-z]\w*) :(?= )", text)) & made):
            module = "Rattle." + ".".join(path[: -len(".antt")].split(os.sep)[-3:])
            takes = re.compile(re.escape(module) + r"\.\{[^}]*(?<![\w'\-])" + name + r"(?![\w'\-])[^}]*\}")
            for other in texts:
                if other == path or takes.search(texts[other]):
                    texts[other] = named(texts[other], name)
                    with open(other, "w", encoding="utf-8") as f:
                        f.write(texts[other])
            print(f"look: {path}: {name}_lem")


def main():
    turned = words(".")
    apart(".", set(turned.values()))
    for path in files(".", (".antt", ".rt", ".edit")):
        with open(path, encoding="utf-8") as f:
            old = f.read()
        new = WORD.sub(lambda m: turned.get(m.group(0), m.group(0)), old)
        if new != old:
            with open(path, "w", encoding="utf-8") as f:
                f.write(new)
        if path.endswith(".rt"):
            hidden(path, new, set(turned.values()))
    for w in sorted(turned):
        if turned[w] in turned:
            print(f"look: {w} and {turned[w]}")
    print(f"{len(turned)} words turned", file=sys.stderr)


main()
