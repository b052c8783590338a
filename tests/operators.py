"""Changes single operators, numbers and truth values of the proved code and asks the prover what it makes of each change.

    python3 tests/operators.py [CRATE ...]           each change, in these crates or in all
    python3 tests/operators.py --edits [CRATE ...]   only the changes that stand as edits in crates/CRATE/must-fail

It works on copies in target/operators, one for each processor, and needs `rt` only. In each round one change is made in every function of a crate, and what counts is what is
said of that function's own proof; where nothing is, the change is tried alone. A change can
  - fail at a fact: something that has to be shown of the function is not true, or not found, any more;
  - fail by shape: only the text of the proof does not fit, as where a sum became a difference, or the code does not compile. That says nothing of the
    contract: the change may even answer the same;
  - pass.
A proof file names its goals by the code, as `returns-then-since-gt-LONGEST_SPAN`, so that a changed operator can leave an answer without its goal. Such a
change is tried once more, alone, with that answer under the name of a goal that is now open.
The last two are printed, and a line for each crate counts. docs/ACCEPTANCE.md says what was found.

The edits of crates/CRATE/must-fail are the gate's, and docs/CALLS.md names them. The gate proves a whole crate again for each; here a round serves many, and
an edit outside the functions, of a definition say, is tried alone. With --edits the status is 1 where one does not fail at a fact.
"""

import collections
import multiprocessing
import os
import pathlib
import re
import shutil
import subprocess
import sys

ROOT = pathlib.Path(__file__).resolve().parent.parent
COPIES = ROOT / "target" / "operators"
COPY = None  # of this process
CODE = [
    path.parent.parent.name
    for path in sorted((ROOT / "crates").glob("*/src/lib.rt"))
    if re.search(r"\bfn \w+", path.read_text())
]
WITH_EDITS = sorted({path.parts[-3] for path in (ROOT / "crates").glob("*/must-fail/*.edit")})

CHANGES = [
    (" <= ", [" < ", " == "]),
    (" < ", [" <= ", " > "]),
    (" >= ", [" > "]),
    (" > ", [" >= "]),
    (" == ", [" != "]),
    (" != ", [" == "]),
    (" + ", [" - "]),
    (" - ", [" + "]),
    (" * ", [" + "]),
    (" / ", [" * "]),
    (" % ", [" / "]),
    (" && ", [" || "]),
    (" || ", [" && "]),
    (" += ", [" -= "]),
    (" -= ", [" += "]),
    (" &= ", [" |= "]),
    (" & ", [" | "]),
    (" | ", [" & "]),
    (" ^ ", [" & "]),
    (" << ", [" >> "]),
    (" >> ", [" << "]),
]
WORDS = {"true": "false", "false": "true"}

FACT, SHAPE, PASSED = "failed at a fact", "failed by shape", "passed"

# What the prover says where it looked for a proof and found none; and where a proof file names what is not there any more.
SOUGHT = r"`(?:search|omega|grind|simp)`"
OPEN = re.compile(r"it is not proved that|of a `search` in the proof that rattle made|`search` did not prove")
NAMES = re.compile(r"has no field|is not in scope|has no `|exports no such name|was not admitted")


def within(line):
    """What the prover puts ahead of the names of an impl's functions: its type, and behind it the words of its trait."""
    named = re.match(r"impl(?:<.*?>)? (?:(.+) for )?(\w+)", line)
    words = re.findall(r"\w+(?!\w|::)", named[1] or "")
    return named[2] + "".join(word[0].upper() + word[1:] for word in words) + "::"


def bodies(lines):
    """Each function's name, as the prover says it, and its lines between the braces. `rt fmt` puts both braces at the function's own indent. Tests stand at
    the end of a file, and are no code."""
    found, ahead = [], ""
    for number, line in enumerate(lines):
        if line == "#[cfg(test)]":
            break
        if line.startswith("impl"):
            ahead = within(line)
        elif line == "}":
            ahead = ""
        start = re.match(r'( *)(?:pub )?(?:extern "C" )?fn (\w+)', line)
        if not start:
            continue
        indent = start.group(1)
        first = number
        while not opens(lines[first], indent):
            first += 1
        last = lines.index(indent + "}", first)
        found.append((ahead + start.group(2), range(first + 1, last)))
    return found


def opens(line, indent):
    is_clause = line.lstrip().startswith(("requires", "ensures"))
    return line == indent + "{" or (line.startswith(indent) and line.endswith(" {") and not is_clause)


def checked(crate):
    """What the prover says of a crate of this process's copy, and whether all is proved."""
    run = subprocess.run(["rt", "check", "--jobs", "1"], cwd=COPY / "crates" / crate, capture_output=True, text=True)
    return run.stdout + run.stderr, run.returncode == 0


def told(said):
    """By each function, what is said of it: its verdict, and the notes on it, which stand above."""
    found, notes = {}, []
    for line in said.splitlines():
        verdict = re.match(r"(?:fn|struct|enum) \w+::([\w:]+): (.*)", line)
        if verdict:
            found[verdict[1]] = [verdict[2], *notes]
            notes = []
        elif line.startswith("note: src/") or "in the proof that rattle made" in line:
            notes.append(line)
    return found


def errors_of(function, said):
    """The errors in the files of a function's proof: the file, and what is said."""
    return re.findall(r"^\./(proofs/(?:[\w+]+/)*" + function.replace("::", "/") + r"/\w+\.antt)(?::\d+:\d+)?: error: (.*)", said, re.M)


def without(answers, name):
    """A page of answers without one of them, which ends at an empty line or with the page."""
    return re.sub(r"(?ms)^(?:pub )?" + re.escape(name) + r" :(?= ).*?(?:^\n|\Z)", "", answers)


def changes(line):
    """The line with each single change."""
    code = line.split("//")[0]
    for old, news in CHANGES:
        for place in re.finditer(re.escape(old), code):
            for new in news:
                yield line[: place.start()] + new + line[place.end() :]
    for place in re.finditer(r"\b(true|false)\b", code):
        yield line[: place.start()] + WORDS[place.group()] + line[place.end() :]
    for place in re.finditer(r"(?<![\w.])\d+(?![\w.])", code):
        yield line[: place.start()] + str(int(place.group()) + 1) + line[place.end() :]
    for place in re.finditer(r"\b0x[0-9A-Fa-f_]+\b", code):
        yield line[: place.start()] + hex(int(place.group(), 16) + 1) + line[place.end() :]


class Crate:
    def __init__(self, name):
        self.name = name
        self.page = COPY / "crates" / name / "src" / "lib.rt"
        self.lines = self.page.read_text().split("\n")
        self.changes = {
            function: [(number, new) for number in body for new in changes(self.lines[number])]
            for function, body in bodies(self.lines)
        }

    def ask(self, changed, answers=None):
        """What the prover says of the crate with these lines changed, and with this page of answers where one is given, and whether all is proved."""
        lines = list(self.lines)
        for number, new in changed:
            lines[number] = new
        pages = {self.page: "\n".join(lines), **(answers or {})}
        before = {page: page.read_text() for page in pages}
        for page, text in pages.items():
            page.write_text(text)
        said = checked(self.name)
        for page, text in before.items():
            page.write_text(text)
        return said

    def kind(self, function, said):
        """FACT, SHAPE or PASSED, by what is said of the function when it and others are changed; nothing where nothing is said of its own proof."""
        verdict, *notes = told(said).get(function, [""])
        if verdict == "proved":
            return PASSED
        errors = [error for _, error in errors_of(function, said)]
        if any(re.search(SOUGHT, error) and not NAMES.search(error) for error in errors):
            return FACT
        if errors:
            return SHAPE
        if any(OPEN.search(word) and not NAMES.search(word) for word in (verdict, *notes)):
            return FACT
        return None

    def named_anew(self, function, change, said):
        """The kind of a change that left answers without their goals, with these answers given for the goals that are open now; nothing where no answer was."""
        stale = [(file, name) for file, error in errors_of(function, said) for name in re.findall(r"^`(\S+)`: `goal\.\1`.* has no `", error)]
        if not stale:
            return None
        page = COPY / "crates" / self.name / stale[0][0]
        answers = page.read_text()
        now_open = dict.fromkeys(re.findall(r"`([\w-]+)`", " ".join(self.open_of(function, said))))
        goals = [goal for goal in now_open if f"pub {goal} :" not in answers]
        for _, name in stale:
            if goals:
                answers = re.sub(r"(?<![\w-])" + re.escape(name) + r"(?![\w-])", goals.pop(0), answers)
            else:
                answers = without(answers, name)
        alone, proved = self.ask([change], {page: answers})
        return PASSED if proved else self.kind(function, alone)

    def open_of(self, function, said):
        """What the prover names as goals of a function that are open."""
        verdict, *notes = told(said).get(function, [""])
        named = [re.search(r"\(`[\w-]+`\)", note) for note in notes]
        return [found[0] for found in named if found] + re.findall(r"`search` did not prove (.*?)(?:;|$)", verdict)

    def found(self, function, change, said):
        """The kind of one change, by a round in which it was made with others."""
        kind = self.kind(function, said)
        if kind is None:
            # nothing is said of its own proof: it calls another that is changed, or the code does not compile
            said, proved = self.ask([change])
            kind = PASSED if proved else self.kind(function, said)
        if kind == SHAPE:
            kind = self.named_anew(function, change, said)
        return kind or SHAPE

    def tried(self):
        """Prints each change that passes or fails by shape, and counts the kinds."""
        counts = dict.fromkeys((FACT, SHAPE, PASSED), 0)
        for turn in range(max(map(len, self.changes.values()))):
            made = {function: own[turn] for function, own in self.changes.items() if turn < len(own)}
            said, _ = self.ask(made.values())
            for function, change in made.items():
                kind = self.found(function, change, said)
                counts[kind] += 1
                if kind != FACT:
                    number, new = change
                    print(f"{kind}: {self.name}::{function}: {self.lines[number].strip()} → {new.strip()}", flush=True)
        return counts

    def tried_edits(self):
        """As `tried`, for the edits of crates/CRATE/must-fail."""
        counts = dict.fromkeys((FACT, SHAPE, PASSED), 0)
        inside, alone = {}, []
        for edit in edits_of(self.name):
            function, change = self.placed(edit)
            if function:
                inside.setdefault(function, []).append((edit, change))
            else:
                alone.append(edit)
        for turn in range(max(map(len, inside.values()), default=0)):
            made = {function: own[turn] for function, own in inside.items() if turn < len(own)}
            said, _ = self.ask([change for _, change in made.values()])
            for function, (edit, change) in made.items():
                self.count(counts, self.found(function, change, said), edit)
        for edit in alone:
            self.count(counts, self.ask_page(edit), edit)
        return counts

    def count(self, counts, kind, edit):
        counts[kind] += 1
        if kind != FACT:
            print(f"{kind}: {self.name}/{edit.label}", flush=True)

    def placed(self, edit):
        """The function that an edit changes, with the number of its line and the changed line; nothing where it is in no function of this page, or of several
        pairs."""
        if edit.page == "src/lib.rt" and len(edit.pairs) == 1:
            [(old, new)] = edit.pairs
            number = next(n for n, line in enumerate(self.lines) if old in line)
            for function, body in bodies(self.lines):
                if number in body:
                    return function, (number, self.lines[number].replace(old, new))
        return None, None

    def ask_page(self, edit):
        """FACT, SHAPE or PASSED, of an edit that is tried alone: a definition fails at a fact where a proof over it does, and a function of another page where
        the prover's own search for its proof does."""
        page = COPY / "crates" / self.name / edit.page
        text = page.read_text()
        page.write_text(edit.made(text))
        said, proved = checked(self.name)
        page.write_text(text)
        if proved:
            return PASSED
        errors = re.findall(r"^\./proofs/\S+\.antt:\d+:\d+: error: .*", said, re.M)
        at_fact = any(not NAMES.search(error) for error in errors) or any(OPEN.search(" ".join(words)) for words in told(said).values())
        return FACT if at_fact else SHAPE


class Edit(collections.namedtuple("Edit", "label page pairs")):
    def made(self, text):
        """The page with each old text changed, one after another; ValueError where one does not stand in it once."""
        for old, new in self.pairs:
            if text.count(old) != 1:
                raise ValueError(f"{self.label}: its old text does not stand once in {self.page}: {old}")
            text = text.replace(old, new)
        return text


def edits_of(name):
    found = []
    for path in sorted((ROOT / "crates" / name / "must-fail").glob("*.edit")):
        says = {"file": [], "old": [], "new": []}
        for word, text in re.findall(r"^(file|old|new): (.*)$", path.read_text(), re.M):
            says[word].append(text)
        edit = Edit(path.stem, says["file"][0], list(zip(says["old"], says["new"], strict=True)))
        edit.made((ROOT / "crates" / name / edit.page).read_text())
        found.append(edit)
    return found


def copied():
    """Makes this process its copy of the crates. Its checks begin with what `rt check` kept of the same crates elsewhere on this machine."""
    global COPY
    COPY = COPIES / str(os.getpid())
    COPY.mkdir(parents=True)
    shutil.copy(ROOT / "crates.txt", COPY)
    shutil.copytree(ROOT / "crates", COPY / "crates", ignore=shutil.ignore_patterns("out", "data"))


def tried_crate(name, only_edits):
    """Prints what was found in a crate, and answers how many of its changes did not fail at a fact."""
    counts = Crate(name).tried_edits() if only_edits else Crate(name).tried()
    told = ", ".join(f"{counts[kind]} {kind}" for kind in counts)
    print(f"{name}: {sum(counts.values())} {'edits' if only_edits else 'changes'}, {told}", flush=True)
    return counts[SHAPE] + counts[PASSED]


def main():
    only_edits = "--edits" in sys.argv
    named = [word for word in sys.argv[1:] if word != "--edits"]
    shutil.rmtree(COPIES, ignore_errors=True)
    (ROOT / "target").mkdir(exist_ok=True)
    if subprocess.run(["rt", "all", "check"], cwd=ROOT, stdout=subprocess.DEVNULL).returncode != 0:
        sys.exit("the code as it is is not proved")
    with multiprocessing.Pool(initializer=copied) as pool:
        crates = [(name, only_edits) for name in named or (WITH_EDITS if only_edits else CODE)]
        missed = sum(pool.starmap(tried_crate, crates, chunksize=1))
    sys.exit(1 if only_edits and missed else 0)


main()
