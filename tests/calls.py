"""Compares three lists: the public functions of all crates, their one-outcome theorems (proofs/Outcomes.antt), and the rows of docs/CALLS.md; and the
wrong answers that the rows name with the must-fail edits that there are, each of which, but for those of the definitions, belongs to a row.

Programs are looked at as libraries are: a function that no other crate can call is private. Where a function takes the handle by which one prints or
opens files, its row may say in the theorem's place that the call reads or prints, which no contract can state. A theorem has its function's name with - or _
between the words, and a row spells it as it stands.
Prints each function or edit that one of the lists lacks, then a line that counts. Exit status 1 where one is missing.
"""

import pathlib
import re
import sys

ROOT = pathlib.Path(__file__).resolve().parent.parent
UNSTATED = "none: input and output"


def without_comments(text):
    return re.sub(r"//[^\n]*", "", text)


def public_functions(crate):
    """Each public function's name, and whether it takes a handle by which it can read or print."""
    text = "\n".join(without_comments(p.read_text()) for p in sorted((crate / "src").rglob("*.rt")))
    found = re.findall(r'\bpub\s+(?:extern\s+"C"\s+)?fn\s+(\w+)([^{]*)', text)
    return [(name, bool(re.search(r"\b(Print|Files|Env|Read)\b", head))) for name, head in found]


def theorems(crate):
    """The one-outcome theorems, by the names of their functions."""
    page = crate / "proofs" / "Outcomes.antt"
    stated = re.findall(r"^\s*pub ((\S+)[-_]one) :", page.read_text(), re.M) if page.exists() else []
    return {function.replace("-", "_"): theorem for theorem, function in stated}


def rows():
    """The rows of the tables of docs/CALLS.md, by the crate of their heading and the name in their first column."""
    found, crate = {}, ""
    for line in (ROOT / "docs" / "CALLS.md").read_text().splitlines():
        if line.startswith("## "):
            crate = re.split(r"[ ,]", line[3:])[0]
        match = re.match(r"\| `(?:\w+::)*(\w+)`", line)
        if match:
            found.setdefault(crate, {})[match.group(1)] = line
    return found


def edits():
    """The edits, by the crate and their name."""
    crates = ROOT / "crates"
    paths = crates.glob("*/must-fail/*.edit")
    return {(path.relative_to(crates).parts[0], path.stem) for path in paths}


def named_edits(listed):
    """Those that the rows name: `edit`, or `edit` of `crate`."""
    return {
        (other or crate, name)
        for crate, calls in listed.items()
        for row in calls.values()
        for name, other in re.findall(r": `(\w+)`(?: of `(\w+)`)?", row.split(" | ")[-1])
    }


def main():
    listed, calls, lacking = rows(), 0, 0
    for crate in sorted((ROOT / "crates").iterdir()):
        shown = theorems(crate)
        for name, reads_or_prints in public_functions(crate):
            calls += 1
            row = listed.get(crate.name, {}).get(name, "")
            unstated = UNSTATED in row and reads_or_prints
            if name not in shown and not unstated:
                print(f"{crate.name}::{name}: no one-outcome theorem")
                lacking += 1
            if row and name in shown and f"`{shown[name]}`" not in row:
                print(f"{crate.name}::{name}: its row in docs/CALLS.md does not name {shown[name]}")
                lacking += 1
            if not row:
                print(f"{crate.name}::{name}: no row in docs/CALLS.md")
                lacking += 1
    named, there = named_edits(listed), edits()
    for crate, name in sorted(named - there):
        print(f"{crate}/{name}: named in docs/CALLS.md, and there is no such edit")
    for crate, name in sorted(edit for edit in there - named if edit[0] != "layout"):
        print(f"{crate}/{name}: an edit that docs/CALLS.md does not name")
        lacking += 1
    lacking += len(named - there)
    print(f"{calls} public calls, {len(there)} edits, {lacking} lacking")
    sys.exit(1 if lacking else 0)


main()
