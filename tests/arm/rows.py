"""Writes a row for each call of include/fstf.h, as C for tests/arm/calls.c: tests/arm/rows.py HEADER.json

A row draws what the call takes by the types and names of its parameters, calls, keeps the structs that were answered for those that take them, and shows all
of the answer. A type that no row is known for is refused in one sentence, exit 1.
"""
import os
import re
import sys

sys.path.insert(0, os.path.join(os.path.dirname(os.path.abspath(__file__)), "..", "..", "arm"))
from header import Header

WIDE = {"uint64_t", "int64_t", "size_t"}
NUMBERS = WIDE | {"uint8_t", "int8_t", "uint16_t", "int16_t", "uint32_t", "int32_t"}


def refuse(why):
    sys.exit(f"tests/arm/rows.py: {why}: give it a row there")


def row(header, call):
    answer, parameters = header.calls[call]
    if answer not in header.structs and answer not in NUMBERS:
        refuse(f"{call} answers {answer}")
    lines, passed, states = [], [], []
    left = list(parameters)
    while left:
        kind, name = left.pop(0)
        the = "the_" + name
        slice_of = re.fullmatch(r"(const )?(u?int\d+_t) \*", kind)
        if slice_of and left[:1] == [("size_t", name + "_length")]:
            left.pop(0)
            draw = "lent" if slice_of[1] else "written"
            lines += [f"size_t {the}_length;", f'{kind}{the} = {draw}("{name}", sizeof *{the}, &{the}_length);']
            passed += [the, the + "_length"]
        elif kind in NUMBERS:
            lines.append(f'{kind} {the} = ({kind})number("{name}");')
            passed.append(the)
        elif kind in header.structs:
            lines += [f"{kind} {the};", f'given("{kind}", &{the}, sizeof {the});']
            states.append((kind, the))
            passed.append(the)
        else:
            refuse(f"{call} takes {kind} {name}")
    members = header.structs.get(answer, [])
    lines.append(f"{answer} answer;")
    # A state may come from the very place where the answer goes.
    for member, the in [(member, the) for state, the in states for kind, member in members if kind == state][:1]:
        there = [f"answer.{member}" if word == the else word for word in passed]
        lines += [f"answer.{member} = {the};", f"if (below(2)) answer = {call}({', '.join(there)});", "else"]
    lines.append(f"answer = {call}({', '.join(passed)});")
    refusable = ("uint64_t", "refused") in members
    if answer in header.structs:
        kept = [f'kept("{answer}", &answer, sizeof answer);']
        kept += [f'kept("{kind}", &answer.{member}, sizeof answer.{member});' for kind, member in members if kind in header.structs]
        lines.append(f"if (answer.refused == 0) {{ {' '.join(kept)} }}" if refusable else " ".join(kept))
        lines.append("shown(&answer, sizeof answer);")
    else:
        lines += ["uint64_t wide = (uint64_t)answer;", "shown(&wide, sizeof wide);"]
    lines.append(f"return {'answer.refused != 0' if refusable else 0};")
    return f"static int row_{call}(void) {{\n    " + "\n    ".join(lines) + "\n}\n"


def main(path):
    header = Header(path)
    for struct, members in header.structs.items():
        for kind, name in members:
            if kind not in WIDE and kind not in header.structs:
                refuse(f"{struct} has a member {kind} {name}, and is shown eight bytes at a time")
    for call in header.calls:
        print(row(header, call))
    print("static const struct {\n    const char *name;\n    int (*run)(void);\n} ROWS[] = {")
    for call in header.calls:
        print(f'    {{"{call}", row_{call}}},')
    print("};")


if __name__ == "__main__":
    main(*sys.argv[1:])
