"""Prints a table of the crates: lines of code, of definitions and of proofs, public calls, must-fail edits and seconds.

    python3 tests/sizes.py [SECONDS]

SECONDS is a file with a line `NAME N` for each crate whose check was timed; without it the last column is empty. Lines are those that hold something: blank
lines are not counted, comments are.
"""

import pathlib
import re
import sys

ROOT = pathlib.Path(__file__).resolve().parent.parent


def lines(folder, ending):
    return sum(1 for page in folder.rglob("*" + ending) for line in page.read_text().splitlines() if line.strip())


def seconds(timed):
    """The seconds of each crate: `NAME N`."""
    return dict(re.findall(r"^(\w+) (\d+)$", timed, re.M))


def main():
    taken = seconds(pathlib.Path(sys.argv[1]).read_text()) if len(sys.argv) > 1 else {}
    listed = re.findall(r"^(\w+)(?: [^:#\n]*)?:", (ROOT / "crates.txt").read_text(), re.M)
    totals = [0] * 5
    print("| Crate | Code | Definitions | Proofs | Public calls | Must-fail edits | Check, s |")
    print("|---|---:|---:|---:|---:|---:|---:|")
    for name in listed:
        crate = ROOT / "crates" / name
        source = "\n".join(page.read_text() for page in (crate / "src").rglob("*.rt"))
        calls = len(re.findall(r'^\s*pub (?:extern "C" )?fn ', source, re.M))
        row = [
            lines(crate / "src", ".rt"),
            lines(crate / "specs", ".antt"),
            lines(crate / "proofs", ".antt"),
            calls,
            len(list((crate / "must-fail").glob("*.edit"))),
        ]
        totals = [a + b for a, b in zip(totals, row)]
        print(f"| `{name}` | " + " | ".join(f"{n:,}" for n in row) + f" | {taken.get(name, '')} |")
    whole = f"{sum(int(n) for n in taken.values()):,}" if taken else ""
    print("| all | " + " | ".join(f"{n:,}" for n in totals) + f" | {whole} |")


main()
