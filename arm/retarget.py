"""Has the calls of the library's module passed as C passes them on 64-bit Arm.

    arm/retarget.py MODULE.ll X86.ll ARM.ll OUT.ll

MODULE.ll is the module of the archive for x86-64 as text; X86.ll and ARM.ll are what clang makes for the two processors of a C file that names every call of
include/fstf.h. The module's calls have to be those of the header, passed as C does on x86-64. Then these things change, and nothing else: the two lines that
name the processor, the attribute that names its kind, and of an exported function its answer and the structs that are passed by value.

    a struct of more than 16 bytes   on x86-64                                            on Arm
    as the answer                    its place comes first and is answered again (%a0)    its place comes beside the parameters (sret), nothing is answered
    as a parameter                   a copy among the parameters (byval)                  a pointer to a copy

Smaller structs and numbers are passed in the same registers' order on both. Whatever is not as known here is refused: one sentence, exit 1.
"""
import re
import sys

# What a parameter may be said to be, beside its type; none of it changes where it is passed.
SAID = {"noundef", "writable", "dead_on_unwind", "dead_on_return", "zeroext", "signext"}
NUMBERS = {"i1", "i8", "i16", "i32", "i64"}
PAIR = "{ i64, i64 }"
# Registers for parameters on Arm.
REGISTERS = 8


def refuse(why):
    sys.exit("arm/retarget.py: " + why)


def cut(text):
    """The parameters: cut at the commas that stand in no brackets."""
    parts, depth, start = [], 0, 0
    for at, c in enumerate(text):
        depth += (c in "([{") - (c in ")]}")
        if c == "," and depth == 0:
            parts.append(text[start:at].strip())
            start = at + 1
    last = text[start:].strip()
    return parts + [last] if last else parts


class Declared:
    """What clang makes of the header for one processor: its target lines, the sizes of the structs, and the calls' answers and parameters."""

    def __init__(self, path):
        with open(path) as file:
            text = file.read()
        self.target = re.findall(r"^target (?:datalayout|triple) = .*$", text, re.M)
        self.sizes = {name: int(size) for name, size in re.findall(r"^@size_(\w+) = .*constant i64 (\d+)", text, re.M)}
        found = re.findall(r"^declare (.*?) ?@(fstf_\w+)\((.*)\)(?: local_unnamed_addr)? #\d+$", text, re.M)
        self.calls = {name: self.passed(name, answer, cut(inside)) for answer, name, inside in found}

    def passed(self, name, answer, parameters):
        """The answer, and the parameters flat: "answer N", "copy N" (both of N bytes), "ptr" or a number's type."""
        flat = []
        for parameter in parameters:
            by = re.search(r"\b(sret|byval)\(%struct\.(\w+)\) align 8", parameter)
            rest = parameter.replace(by[0], "") if by else parameter
            kind = re.match(r"\[2 x i64\]|\S+", rest)[0]
            said = set(rest[len(kind):].split())
            if said - SAID or kind not in NUMBERS | {"ptr", "[2 x i64]"}:
                refuse(f"the header's {name} takes {parameter}")
            if by:
                flat.append(f"{'answer' if by[1] == 'sret' else 'copy'} {self.sizes[by[2]]}")
            elif kind == "[2 x i64]":
                if len(flat) - any(p.startswith("answer") for p in flat) == REGISTERS - 1:
                    refuse(f"{name} passes a struct where the registers end")
                flat += ["i64", "i64"]
            else:
                flat.append(kind)
        words = answer.replace("[2 x i64]", PAIR)
        kind = PAIR if words.endswith(PAIR) else words.split()[-1]
        if kind not in NUMBERS | {"void", PAIR}:
            refuse(f"the header's {name} answers {answer}")
        return kind, flat


def of_module(module, name, answer, parameters, body):
    """An exported function of the module, as Declared.passed has it."""
    flat = []
    for parameter in parameters:
        known = re.fullmatch(r"(ptr|i\d+)(?: noundef)?(?: byval\(\[(\d+) x i8\]\) align 8)? %a\d+", parameter)
        if not known or known[1] not in NUMBERS | {"ptr"}:
            refuse(f"the module's {name} takes {parameter}")
        flat.append(f"copy {known[2]}" if known[2] else known[1])
    if answer == "noundef ptr":
        if flat[:1] != ["ptr"]:
            refuse(f"the module's {name} does not answer through its first parameter")
        return "void", ["answer " + answer_size(module, name, body)] + flat[1:]
    return answer.replace("noundef ", ""), flat


def answer_size(module, name, body):
    """An exported function hands the answer's place on to the function that it stands for, and that one fills it at its end: by how many bytes."""
    inner = re.findall(r'^  call void (@"[^"]+")\(ptr %a0\b', body, re.M)
    if len(inner) != 1 or len(re.findall(r"%a0\b", body)) != 1 + len(re.findall(r"^  ret ptr %a0$", body, re.M)):
        refuse(f"{name} does not hand its answer's place on, once")
    at = re.search(rf"^define internal void {re.escape(inner[0])}\(ptr noundef %a0\b[^\n]*\n(.*?)^\}}$", module, re.M | re.S)
    used = re.findall(r"^.*%a0\b.*$", at[1], re.M) if at else []
    filled = {re.sub(r"^  call void @llvm\.memmove\.p0\.p0\.i64\(ptr %a0, ptr %r\d+, i64 (\d+), i1 false\)$", r"\1", line) for line in used}
    if len(filled) != 1:
        refuse(f"{name} does not fill its answer by one length")
    return filled.pop()


def look(module):
    """Nothing in the module may mean one thing on x86-64 and another on Arm."""
    if re.search(r"^@|^module asm|\basm (?:sideeffect )?\"", module, re.M):
        refuse("the module has globals or assembly")
    foreign = [name for name in re.findall(r"^declare .*?@([\w.]+)\(", module, re.M) if not re.match(r"llvm\.(?!x86\b)", name)]
    if foreign:
        refuse(f"the module declares {foreign}")
    memory = set(re.findall(r" load (\{.*?\}|[^{].*?), ptr ", module)) | set(re.findall(r" store (\{.*?\}|\S+) ", module))
    # two numbers or pointers stand at the same places on both: the second at the next multiple of its own length
    pairs = {kind for kind in memory if re.fullmatch(r"\{ (i\d+|ptr), (i\d+|ptr) \}", kind) and set(re.findall(r"i\d+", kind)) <= NUMBERS}
    if memory - NUMBERS - pairs - {"ptr"}:
        refuse(f"the module loads or stores {sorted(memory - NUMBERS - pairs - {'ptr'})}")
    steps = set(re.findall(r" getelementptr (?:inbounds |nuw |nusw )*(\S+), ", module))
    if steps - {"i8"}:
        refuse(f"the module counts places in {sorted(steps)}")


def once(module, old, new):
    if module.count(old) != 1:
        refuse(f"not once but {module.count(old)} times in the module: {old}")
    return module.replace(old, new)


def main(module_path, x86_path, arm_path, out_path):
    with open(module_path) as file:
        module = file.read()
    x86, arm = Declared(x86_path), Declared(arm_path)
    if x86.sizes != arm.sizes or list(x86.calls) != list(arm.calls) or not x86.calls:
        refuse("the header has other structs or calls on Arm than on x86-64")
    look(module)
    for old, new in zip(x86.target, arm.target):
        module = once(module, old, new)
    # each group of attributes names the processor
    if len(re.findall(r'^attributes #\d+ = \{[^\n]* "target-cpu"="x86-64"', module, re.M)) != module.count(' "target-cpu"="x86-64"'):
        refuse("the module names the processor elsewhere than in its attributes")
    module = module.replace(' "target-cpu"="x86-64"', "")
    left = dict(x86.calls)

    def exported(match):
        answer, name, inside, after, body = match.groups()
        parameters = cut(inside)
        if name not in left:
            refuse(f"include/fstf.h has no {name}")
        header = left.pop(name)
        ours = of_module(module, name, answer, parameters, body)
        if ours != header:
            refuse(f"{name} is {ours} in the module, and {header} in the header on x86-64")
        on_arm = arm.calls[name]
        if on_arm[0] != header[0] or on_arm[1] != [p if not p.startswith("copy") else "ptr" for p in header[1]]:
            refuse(f"{name} is {header} in the header on x86-64, and {on_arm} on Arm")
        if len(re.findall(rf"@{name}\b", module)) != 1:
            refuse(f"the module calls its own {name}")
        parameters = [re.sub(r" byval\(\[\d+ x i8\]\) align 8", "", parameter) for parameter in parameters]
        if answer == "noundef ptr":
            if set(re.findall(r"^  ret (.*)$", body, re.M)) != {"ptr %a0"}:
                refuse(f"{name} does not answer where its answer stands")
            body = re.sub(r"^  ret ptr %a0$", "  ret void", body, flags=re.M)
            size = header[1][0].split()[1]
            answer, parameters[0] = "void", f"ptr sret([{size} x i8]) align 8 %a0"
        return f"define {answer} @{name}({', '.join(parameters)}){after}\n{body}}}\n"

    out = re.sub(r"^define (?!internal )([^@\n]*) @([\w.]+)\(([^\n]*)\)( #\d+ \{)\n(.*?)^\}\n", exported, module, flags=re.M | re.S)
    if left:
        refuse(f"the module lacks {sorted(left)}")
    known = re.findall(r"^define (?!internal ).*@(\w+)\(", out, re.M)
    if sorted(known) != sorted(x86.calls) or "byval" in out or "x86" in out:
        refuse("the module exports something in another form, or x86-64 stands in it still")
    with open(out_path, "w") as file:
        file.write(out)
    print(f"{len(known)} calls passed as on Arm")


if __name__ == "__main__":
    main(*sys.argv[1:])
