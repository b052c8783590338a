"""Writes the vectors and the lines expected of them, by the model of document 01 in model.py.

Run it with no arguments. It first checks the model by the document's twelve examples and further sure facts, then writes, below
crates/PROGRAM for each program that runs vectors, data/NAME, args and stdout. A second run writes the same bytes.
VECTORS.md says what a vector holds and how its line reads. Where a vector is put with an expectation, that was thought out by hand from
the document, and the model's line has to start with it. The checks of the converter, over 200,000 cases, take most of its two minutes.
"""

import re
import struct
from pathlib import Path
from random import Random

import model
from model import Refusal, State

ROOT = Path(__file__).resolve().parent.parent

# The programs, with the first bytes of the vectors that each runs.
PROGRAMS = {
    "opening_vectors": b"ofpF",
    "recorder_vectors": b"abcLT",
    "repair_vectors": b"rR",
    "saving_vectors": b"lmvSU",
    "browser_vectors": b"ntB",
    "whole_vectors": b"w",
}

TOP = 2**64 - 1
EARLIEST, LATEST = -(2**63), 2**63 - 1
SPAN = 4_294_967_295
MARK = bytes.fromhex("FF2201EE")

WORKED = bytes.fromhex(
    "46535446 01 01000000 4A00000000000000 3000000000000000 5E00000000000000"
    "01 05 494D414745 3000000000000000"
    "00000000"
    "FF2201EE E803000000000000 28000000 02000000 3412"
    "01000000 00000000 3400000000000000 16000000"
    "00000000"
)
P11_SHEET = bytes.fromhex("01 04 53495445 00 01 01 41")
P11_TABLE = bytes.fromhex("01000000 04 53495445 01 41")


# ---- building files, tables, sheets ----


def u16(number):
    return struct.pack("<H", number)


def u32(number):
    return struct.pack("<I", number)


def u64(number):
    return struct.pack("<Q", number)


def short(text):
    return bytes([len(text)]) + text


def table(*tags):
    """A table in file form. It asks no rule, so that illegal tables can be built as well."""
    return u32(len(tags)) + b"".join(short(name) + short(value) for name, value in tags)


def many_tags(count):
    """`count` tags of two letters and an empty value."""
    return [(bytes([65 + i // 60, 40 + i % 60]), b"") for i in range(count)]


def sized(*sections):
    """Sections in file form."""
    return b"".join(u32(len(section)) + section for section in sections)


def one_frame(time, exposure, *sections):
    return MARK + struct.pack("<qI", time, exposure) + sized(*sections)


ONE_SECTION = ((b"IMAGE", b""),)
ONE_FRAME = ((1000, 40, b"\x34\x12"),)


def build(sections=ONE_SECTION, system=(), frames=ONE_FRAME, user=(), **other):
    """A file in the layout; a frame is (time, exposure, section, ..). What `other` names stands in place of the value computed."""
    place = 34 + sum(9 + len(name) for name, _ in sections)
    offsets = []
    for _, configuration in sections:
        offsets.append(place)
        place += len(configuration)
    offsets = other.pop("offsets", offsets)
    definitions = bytes([other.pop("sections_count", len(sections))])
    for (name, _), offset in zip(sections, offsets):
        definitions += short(name) + u64(offset)
    front = definitions + b"".join(configuration for _, configuration in sections)
    system_offset = 33 + len(front)
    front += other.pop("system_table", table(*system))
    body, index = b"", u32(len(frames))
    for time, *rest in frames:
        data = one_frame(time, *rest)
        index += struct.pack("<IQI", (time - frames[0][0]) % 2**32, 33 + len(front) + len(body), len(data))
        body += data
    index_offset = 33 + len(front) + len(body)
    index = other.pop("index", index)
    user_table = other.pop("user_table", table(*user))
    user_offset = index_offset + len(index)
    header = other.pop("magic", b"FSTF") + bytes([other.pop("revision", 1)]) + u32(other.pop("count", len(frames)))
    header += u64(other.pop("index_offset", index_offset)) + u64(other.pop("system_offset", system_offset))
    header += u64(other.pop("user_offset", user_offset))
    assert not other, other
    return header + front + body + index + user_table


def changed(file, at, new):
    """The file with other bytes at a place."""
    return file[:at] + new + file[at + len(new) :]


def set_up(*sections):
    """A set-up list of (name, configuration) pairs."""
    return bytes([len(sections)]) + b"".join(short(n) + u16(len(c)) + c for n, c in sections)


ABSENT, UNSEEN = None, 2  # UNSEEN is "nobody looked", which old sheets say and new ones may not


def change(name, seen, new):
    """A change of a sheet: seen is ABSENT, a value or UNSEEN; new is ABSENT or a value."""
    before = b"\x00" if seen is ABSENT else b"\x02" if seen == UNSEEN else b"\x01" + short(seen)
    return short(name) + before + (b"\x00" if new is ABSENT else b"\x01" + short(new))


def sheet(*changes):
    return bytes([len(changes)]) + b"".join(change(*one) for one in changes)


# ---- building vectors ----


def of_open(file):
    return b"o" + file


def of_frame(i, file):
    return b"f" + u64(i) + file


def of_part(kind, i, j, file):
    return b"p" + bytes([kind]) + u64(i) + u64(j) + file


def of_state(state, notes, out):
    return struct.pack("<BBQQqqQHH", *state, notes, out)


def of_add(state, notes, out, time, exposure, sections):
    return b"a" + of_state(state, notes, out) + struct.pack("<qI", time, exposure) + sections


def of_begin(state, notes, out, set_up_list, system_table):
    return b"b" + of_state(state, notes, out) + u16(len(set_up_list)) + set_up_list + system_table


def of_close(state, notes, out):
    return b"c" + of_state(state, len(notes), out) + notes


def of_repair(room, file):
    return b"r" + u16(room) + file


def of_saving(kind, room, changes, file):
    return kind + u16(room) + u16(len(changes)) + changes + file


def of_look(changes, file):
    """A look's vector is a commit's but for its first byte; it needs no room."""
    return of_saving(b"l", 0, changes, file)


def of_commit(room, changes, file):
    return of_saving(b"m", room, changes, file)


def of_convert(room, changes, file):
    return of_saving(b"v", room, changes, file)


def of_browse(number, data):
    return b"t" + u64(number) + data


def of_named(name, data):
    return b"n" + short(name) + data


def of_sweep(kind, values, base, other=None):
    """A sweep of the base; other is what the call takes besides, where it takes two."""
    return kind + short(values) + (b"" if other is None else u16(len(other)) + other) + base


def of_whole(set_up_list, system_table, frames):
    """A frame is (time, exposure, section, ..)."""
    vector = b"w" + u16(len(set_up_list)) + set_up_list + u16(len(system_table)) + system_table + bytes([len(frames)])
    for time, exposure, *sections in frames:
        vector += struct.pack("<qI", time, exposure) + u16(len(sized(*sections))) + sized(*sections)
    return vector


# ---- a vector's line, by the model ----


class TooShort(Exception):
    """The vector is too short for its fields."""


class Fields:
    """Takes a vector's fields off its front."""

    def __init__(self, data):
        self.data = data
        self.at = 0

    def bytes(self, length):
        if self.at + length > len(self.data):
            raise TooShort
        self.at += length
        return self.data[self.at - length : self.at]

    def number(self, width, signed=False):
        return int.from_bytes(self.bytes(width), "little", signed=signed)

    def rest(self):
        return self.bytes(len(self.data) - self.at)

    def state(self):
        return State(*struct.unpack("<BBQQqqQ", self.bytes(42)))


def check(data, start=14695981039346656037):
    """FNV-1a over the bytes."""
    for byte in data:
        start = (start ^ byte) * 1099511628211 % 2**64
    return start


def hex_check(data):
    return f"{check(data):016x}"


def lent(length):
    return bytearray(b"\x5a" * length)


def refused(refusal):
    """A refusal's number, and its place where it carries one."""
    return f"refused {refusal.number}" + ("" if refusal.place is None else f" place {refusal.place}")


def line_of_open(fields):
    opened = model.open_file(fields.rest())
    front = opened.front
    return f"opened frames {len(opened.frames)} sections {len(front.names)} system {len(front.system)} user {len(opened.user)}"


def line_of_frame(fields):
    found = model.frame(i=fields.number(8), file=fields.rest())
    return f"frame at {found.at} length {found.length} time {found.time} exposure {found.exposure}"


def line_of_part(fields):
    kind, i, j, file = fields.number(1), fields.number(8), fields.number(8), fields.rest()
    part = model.part(file, kind, i, j)
    refusal = model.part_refusal(file, kind, i, j)
    if refusal:
        return f"{refused(refusal)} part of {part.length}"
    return f"part at {part.at} length {part.length} {model.taken(file, part).hex()}".rstrip()


def line_of_recorder(call, state, notes, out, *arguments):
    """The line of a begin, add or close call. Piece is 0 in every stage but closing."""
    try:
        state, piece = call(state, notes, out, *arguments)
        given = f"given {piece.place} {piece.length}"
    except Refusal as refusal:
        given = refused(refusal)
    numbers = f"stage {state.stage} piece {state.piece} sections {state.sections} frames {state.frames}"
    times = f"first {state.first} last {state.last} end {state.end}"
    return f"{given} {numbers} {times} notes {hex_check(notes)} out {hex_check(out)}"


def line_of_add(fields):
    state, notes, out = fields.state(), bytearray(b"\xa5" * fields.number(2)), lent(fields.number(2))
    return line_of_recorder(model.add, state, notes, out, fields.number(8, True), fields.number(4), fields.rest())


def line_of_begin(fields):
    state, notes, out = fields.state(), bytearray(b"\xa5" * fields.number(2)), lent(fields.number(2))
    return line_of_recorder(model.begin, state, notes, out, fields.bytes(fields.number(2)), fields.rest())


def line_of_close(fields):
    state, length, out = fields.state(), fields.number(2), lent(fields.number(2))
    return line_of_recorder(model.close, state, bytearray(fields.bytes(length)), out)


def line_of_repair(fields):
    out = lent(fields.number(2))
    try:
        answer = model.repair(fields.rest(), out)
    except Refusal as refusal:
        return f"{refused(refusal)} out {hex_check(out)}"
    fields_set = f"count {answer.count} index {answer.index_offset} user {answer.user_offset}"
    return f"repaired kept {answer.kept} {fields_set} tail {answer.tail_length} out {hex_check(out)}"


def line_of_look(fields):
    fields.number(2)  # the room, which is commit's alone
    changes = fields.bytes(fields.number(2))
    looked = model.look(fields.rest(), changes)
    return f"looked {looked.changes} set {looked.set}"


def line_of_writing(word, call, fields):
    """The line of a commit or a conversion: both put what they answer into the room."""
    out = lent(fields.number(2))
    changes = fields.bytes(fields.number(2))
    try:
        given = f"{word} {call(fields.rest(), changes, out)}"
    except Refusal as refusal:
        given = refused(refusal)
    return f"{given} out {hex_check(out)}"


def line_of_commit(fields):
    return line_of_writing("committed", model.commit, fields)


def line_of_convert(fields):
    return line_of_writing("converted", model.convert, fields)


def line_of_tag(tag):
    return f"tag name {tag.name.at} {tag.name.length} value {tag.value.at} {tag.value.length}"


def line_of_walk(data):
    """A cursor over all of the table: how many tags it tells, and the check over their numbers."""
    try:
        told = model.walk_tags(data)
    except Refusal as refusal:
        return f"walk {refused(refusal)}"
    numbers = [(tag.name.at, tag.name.length, tag.value.at, tag.value.length, left) for tag, left in told]
    return f"walk {len(told)} {hex_check(b''.join(u16(n) for tag in numbers for n in tag))}"


def line_of_browse(fields):
    number, data = fields.number(8), fields.rest()
    try:
        tag, after = model.browse(data, number)
        line = f"{line_of_tag(tag) if tag else 'end'} next {after}"
    except Refusal as refusal:
        line = f"{refused(refusal)} next {number}"
    return f"{line} {line_of_walk(data)}"


def line_of_named(fields):
    name, data = fields.bytes(fields.number(1)), fields.rest()
    try:
        tag = model.tag_by_name(data, name)
        line = line_of_tag(tag) if tag else "absent"
    except Refusal as refusal:
        line = refused(refusal)
    return f"{line} {line_of_walk(data)}"


def swept(base, values):
    """The inputs of a sweep: at every place of the base, from the first on, the base cut there, then with each of the values there, up to 31, and the
    base itself for those that are not given."""
    for place in range(len(base)):
        yield base[:place]
        for turn in range(31):
            yield changed(base, place, values[turn : turn + 1])


def told(answer):
    """The number that an accepted call adds to a sweep's check: the set of a look, 0 of any other call."""
    return answer.set if isinstance(answer, model.Looked) else 0


def line_of_sweep(base, values, *calls):
    """The line of a sweep: each input is tried by each of the calls."""
    count, answers = 0, []
    for data in swept(base, values):
        for call in calls:
            count += 1
            try:
                answers.append((0, told(call(data))))
            except Refusal as refusal:
                answers.append((refusal.number, refusal.place or 0))
    refusals = sum(number != 0 for number, _ in answers)
    return f"sweep inputs {count} refused {refusals} check {hex_check(b''.join(bytes([n]) + u64(p) for n, p in answers))}"


def line_of_file_sweep(fields):
    values, file = fields.bytes(fields.number(1)), fields.rest()
    return line_of_sweep(file, values, model.open_file)


def line_of_repair_sweep(fields):
    values, file = fields.bytes(fields.number(1)), fields.rest()
    return line_of_sweep(file, values, lambda data: model.repair(data, lent(512)))


def line_of_saving_sweep(base, values, given):
    """The line of a sweep by look, commit and convert; `given` makes the file and the sheet of an input."""

    def writing(call):
        return lambda data: call(*given(data), lent(512))

    return line_of_sweep(base, values, lambda data: model.look(*given(data)), writing(model.commit), writing(model.convert))


def line_of_sheet_sweep(fields):
    values, file, changes = fields.bytes(fields.number(1)), fields.bytes(fields.number(2)), fields.rest()
    return line_of_saving_sweep(changes, values, lambda data: (file, data))


def line_of_tagged_file_sweep(fields):
    values, changes, file = fields.bytes(fields.number(1)), fields.bytes(fields.number(2)), fields.rest()
    return line_of_saving_sweep(file, values, lambda data: (data, changes))


def begun(set_up_list, system_table):
    return model.begin(State(*NEW), lent(4), lent(512), set_up_list, system_table)


def line_of_list_sweep(fields):
    values, system_table, set_up_list = fields.bytes(fields.number(1)), fields.bytes(fields.number(2)), fields.rest()
    return line_of_sweep(set_up_list, values, lambda data: begun(data, system_table))


def line_of_system_sweep(fields):
    values, set_up_list, system_table = fields.bytes(fields.number(1)), fields.bytes(fields.number(2)), fields.rest()
    return line_of_sweep(system_table, values, lambda data: begun(set_up_list, data))


def line_of_table_sweep(fields):
    values, base = fields.bytes(fields.number(1)), fields.rest()
    return line_of_sweep(base, values, lambda data: model.browse(data, 0), lambda data: model.tag_by_name(data, b"A"), model.walk_tags)


def recorded_pieces(set_up_list, system_table, frames):
    """The pieces of a whole recording in the order handed out: (place, bytes)."""
    state, notes, out = State(0, 0, 0, 0, 0, 0, 0), bytearray(8000), bytearray(80_000)
    calls = [lambda s: model.begin(s, notes, out, set_up_list, system_table)]
    calls += [lambda s, f=frame: model.add(s, notes, out, *f) for frame in frames]
    calls += [lambda s: model.close(s, notes, out)] * 5
    pieces = []
    for call in calls:
        state, piece = call(state)
        pieces.append((piece.place, bytes(out[: piece.length])))
    assert state.stage == model.CLOSED
    return pieces


def stored(pieces, most):
    """The file after the first `most` bytes of the pieces, in the order handed out, were stored into an empty file."""
    file = bytearray()
    for place, data in pieces:
        data = data[:most]
        most -= len(data)
        file[place : place + len(data)] = data
    return bytes(file)


def cut_bytes(pieces, m):
    """What a cut after byte m adds to the check over all cuts."""
    file, out = stored(pieces, m), lent(8000)
    try:
        repaired = model.repaired_file(file, model.repair(file, out), out)
        assert model.opening_number(repaired) == 0
        answer = b"\x00" + repaired
    except Refusal as refusal:
        answer = bytes([refusal.number])
    return u32(m) + answer + bytes([model.opening_number(file)])


def line_of_whole(fields):
    set_up_list, system_table = fields.bytes(fields.number(2)), fields.bytes(fields.number(2))
    frames = [(fields.number(8, True), fields.number(4), fields.bytes(fields.number(2))) for _ in range(fields.number(1))]
    pieces = recorded_pieces(set_up_list, system_table, frames)
    total = sum(len(data) for _, data in pieces)
    whole = stored(pieces, total)
    assert model.opening_number(whole) == 0
    cuts = range(len(pieces[0][1]), total + 1)
    over_cuts = check(b"".join(cut_bytes(pieces, m) for m in cuts))
    return f"whole {len(whole)} {hex_check(whole)} cuts {len(cuts)} {over_cuts:016x}"


LINES = {
    "o": line_of_open,
    "f": line_of_frame,
    "p": line_of_part,
    "a": line_of_add,
    "b": line_of_begin,
    "c": line_of_close,
    "r": line_of_repair,
    "l": line_of_look,
    "m": line_of_commit,
    "v": line_of_convert,
    "t": line_of_browse,
    "n": line_of_named,
    "w": line_of_whole,
    "F": line_of_file_sweep,
    "R": line_of_repair_sweep,
    "S": line_of_sheet_sweep,
    "U": line_of_tagged_file_sweep,
    "L": line_of_list_sweep,
    "T": line_of_system_sweep,
    "B": line_of_table_sweep,
}


def line_of(vector):
    """The line that a vector's call gives, without its name."""
    line = LINES.get(chr(vector[0])) if vector else None
    if line is None:
        return "no vector"
    try:
        return line(Fields(vector[1:]))
    except TooShort:
        return "no vector"
    except Refusal as refusal:
        return refused(refusal)


def program_of(vector):
    """The program that runs a vector."""
    for program, kinds in PROGRAMS.items():
        if vector and vector[0] in kinds:
            return program
    return "opening_vectors"


# ---- the collection ----


class Vectors:
    """The vectors in their order, with their lines."""

    def __init__(self):
        self.all = {}
        self.lines = {}

    def put(self, name, vector, expected=""):
        assert re.fullmatch("[a-z0-9_]+", name), name
        assert name not in self.all, name
        assert len(vector) <= 65_536, (name, len(vector))
        line = line_of(vector)
        assert (line + " ").startswith(expected and expected + " "), (name, expected, line)
        self.all[name] = vector
        self.lines[name] = line

    def open(self, name, file, expected="", place=None):
        """A vector of opening; expected is the number, or 0, and the place where the number carries one."""
        wanted = expected if expected == "" else refused(Refusal(expected, place)) if expected else "opened"
        self.put("open_" + name, of_open(file), wanted)

    def write(self):
        for program in PROGRAMS:
            self.write_program(program, [name for name, vector in self.all.items() if program_of(vector) == program])

    def write_program(self, program, names):
        folder = ROOT / "crates" / program
        data = folder / "data"
        data.mkdir(parents=True, exist_ok=True)
        for old in data.iterdir():
            if old.name not in names:
                old.unlink()
        for name in names:
            (data / name).write_bytes(self.all[name])
        (folder / "args").write_text("".join(name + "\n" for name in names))
        (folder / "stdout").write_text("".join(f"{name}: {self.lines[name]}\n" for name in names))
        print(program, len(names), "vectors,", sum(len(self.all[name]) for name in names), "bytes")


# ---- (1) opening ----


def answer_of_cut(n):
    """What opening the first n bytes of the worked file answers: the number, and its place."""
    if n < 34:
        return (1,)
    if n < 48:
        return 3, n if n < 40 else 40  # within the name its bytes run out; behind it the offset at 40 is not all there
    if n < 52:
        return 4, 48
    if n < 94:
        return (5,)
    return (7, 94) if n < 98 else (0,)


def worked_and_cut(v):
    v.open("worked", WORKED, 0)
    v.open("p2_first_97", WORKED[:97], 7, 94)
    v.open("p3_revision_2", changed(WORKED, 4, b"\x02"), 2)
    v.open("p4_index_offset_0", changed(WORKED, 9, u64(0)), 5)
    v.open("p5_index_offset_75", changed(WORKED, 9, u64(75)), 6)
    v.open("p6_count_2", changed(WORKED, 5, u32(2)), 6)
    v.open("p7_first_33", WORKED[:33], 1)
    for n in range(99):
        v.open(f"cut_{n:02}", WORKED[:n], *answer_of_cut(n))


def not_fstf_and_revision(v):
    for at in range(4):
        v.open(f"magic_byte_{at}", changed(WORKED, at, b"\x47"), 1)
    v.open("magic_small_letters", changed(WORKED, 0, b"fstf"), 1)
    v.open("zeros_34", bytes(34), 1)
    v.open("magic_wrong_and_revision_2", build(magic=b"FSTG", revision=2), 1)
    v.open("first_33_and_revision_2", build(revision=2)[:33], 1)
    for revision in (0, 2, 129, 255):
        v.open(f"revision_{revision}", build(revision=revision), 2)
    v.open("revision_2_in_34_bytes", build(revision=2)[:34], 2)
    v.open("revision_2_and_no_sections", build(revision=2, sections_count=0), 2)
    v.open("revision_1_and_34_zero_bytes_else", b"FSTF\x01" + bytes(29), 3, 33)


def named_sections(*names):
    return tuple((name, b"") for name in names)


def with_names(*names):
    """A file of no frames with these section names."""
    return build(named_sections(*names), frames=())


EIGHT = tuple(b"S%d" % i for i in range(8))


def section_names(v):
    v.open("sections_0", build(sections_count=0), 3, 33)
    v.open("sections_0_none_defined", build((), frames=(), system_offset=34), 3, 33)
    v.open("sections_1", with_names(b"A"), 0)
    v.open("sections_2", with_names(b"A", b"B"), 0)
    v.open("sections_8", with_names(*EIGHT), 0)
    v.open("sections_8_with_a_frame", build(named_sections(*EIGHT), frames=((5, 6, b"", b"a", b"", b"", b"bc", b"", b"", b"d"),)), 0)
    v.open("sections_9", with_names(*EIGHT, b"S8"), 3, 33)
    v.open("sections_255", build(sections_count=255), 3, 33)
    v.open("sections_255_complete", with_names(*(b"%d" % i for i in range(255))), 3, 33)
    v.open("sections_2_where_1_is", build(sections_count=2), 3, 48)
    v.open("sections_1_where_2_are", build(named_sections(b"A", b"B"), frames=(), sections_count=1), 3, 36)
    v.open("name_of_0_bytes", with_names(b""), 3, 34)
    v.open("name_of_0_bytes_second", with_names(b"A", b""), 3, 44)
    v.open("name_of_1_byte", with_names(b"z"), 0)
    v.open("name_of_255_bytes", with_names(b"N" * 255), 0)
    v.open("name_of_255_bytes_bad_at_its_end", with_names(b"N" * 254 + b"-"), 3, 289)
    v.open("names_of_255_bytes_eight", with_names(*(b"N" * 254 + b"%d" % i for i in range(8))), 0)
    v.open("name_length_past_the_end", changed(WORKED, 34, b"\xff"), 3, 41)
    v.open("name_length_4_for_5", changed(WORKED, 34, b"\x04"), 3, 39)
    v.open("name_length_6_for_5", changed(WORKED, 34, b"\x06"), 3, 41)
    v.open("name_offset_cut_by_the_end", with_names(b"A")[:43], 3, 36)
    for byte in (48, 57, 65, 90, 97, 122):
        v.open(f"name_byte_{byte:03}_taken", with_names(bytes([65, byte, 66])), 0)
    for byte in (0, 32, 45, 47, 58, 64, 91, 95, 96, 123, 127, 128, 176, 193, 225, 255):
        v.open(f"name_byte_{byte:03}_refused", with_names(bytes([65, byte, 66])), 3, 36)
    for byte in (47, 58, 64, 91, 96, 123):
        v.open(f"name_byte_{byte:03}_alone_refused", with_names(bytes([byte])), 3, 35)
    v.open("name_bad_first_byte", with_names(b"_A"), 3, 35)
    v.open("name_bad_last_byte", with_names(b"A_"), 3, 36)
    v.open("name_bad_in_second", with_names(b"A", b"B "), 3, 46)
    v.open("names_equal", with_names(b"A", b"A"), 3, 44)
    v.open("names_equal_first_and_eighth", with_names(*EIGHT[:7], EIGHT[0]), 3, 111)
    v.open("names_equal_seventh_and_eighth", with_names(*EIGHT[:7], EIGHT[6]), 3, 111)
    v.open("names_equal_of_255_bytes", with_names(b"N" * 255, b"N" * 255), 3, 298)
    v.open("names_differ_by_case", with_names(b"A", b"a"), 0)
    v.open("names_prefix_of_each_other", with_names(b"AB", b"ABC", b"A"), 0)
    v.open("names_differ_in_last_byte", with_names(b"IMAGE1", b"IMAGE2"), 0)


TWO = ((b"A", b"xyz"), (b"B", b"12345"))  # the definitions end at 54, so the offsets are 54, 57, 62


def configurations(v):
    for wrong in (0, 1, 33, 47, 49, 52, TOP, 2**63, 2**32 + 48):
        v.open(f"first_configuration_at_{wrong}", build(offsets=[wrong]), 3, 40)
    v.open("first_configuration_late_with_its_gap", build(((b"A", b"gap"),), frames=(), offsets=[46]), 3, 36)
    v.open("configurations_two", build(TWO, frames=()), 0)
    v.open("configurations_two_with_frames", build(TWO, frames=((1, 2, b"a", b"b"), (3, 4, b"", b"cd"))), 0)
    v.open("configuration_empty_first", build(((b"A", b""), (b"B", b"12345")), frames=()), 0)
    v.open("configuration_empty_last", build(((b"A", b"12345"), (b"B", b"")), frames=()), 0)
    v.open("configurations_bytes_are_opaque", build(((b"A", bytes(range(256))), (b"B", MARK * 3)), frames=()), 0)
    v.open("second_offset_at_the_first", build(TWO, frames=(), offsets=[54, 54]), 0)
    v.open("second_offset_at_the_table", build(TWO, frames=(), offsets=[54, 62]), 0)
    v.open("second_offset_below_the_first", build(TWO, frames=(), offsets=[54, 53]), 3, 46)
    v.open("second_offset_0", build(TWO, frames=(), offsets=[54, 0]), 3, 46)
    v.open("second_offset_past_the_table", build(TWO, frames=(), offsets=[54, 63]), 4, 17)
    v.open("second_offset_65535_after", build(TWO, frames=(), offsets=[54, 54 + 65_535]), 4, 17)
    v.open("second_offset_65536_after", build(TWO, frames=(), offsets=[54, 54 + 65_536]), 3, 46)
    v.open("second_offset_65535_after_and_table_there", build(TWO, frames=(), offsets=[54, 54 + 65_535], system_offset=54 + 65_535), 4, 54 + 65_535)
    v.open("second_offset_65536_after_and_table_there", build(TWO, frames=(), offsets=[54, 54 + 65_536], system_offset=54 + 65_536), 3, 46)
    v.open("second_offset_past_the_file", build(TWO, frames=(), offsets=[54, 200], system_offset=200), 4, 200)
    for name, wrong in (("2_to_32_over", 2**32 + 57), ("2_to_63", 2**63), ("top", TOP), ("top_less_5", TOP - 5)):
        v.open(f"second_offset_{name}", build(TWO, frames=(), offsets=[54, wrong]), 3, 46)
    three = ((b"A", b"xyz"), (b"B", b"12345"), (b"C", b"67"))
    v.open("third_offset_equal", build(three, frames=(), offsets=[64, 67, 67]), 0)
    v.open("third_offset_falls_by_1", build(three, frames=(), offsets=[64, 67, 66]), 3, 56)
    v.open("third_offset_falls_to_the_first", build(three, frames=(), offsets=[64, 67, 64]), 3, 56)
    v.open("third_offset_65535_after", build(three, frames=(), offsets=[64, 67, 65_602]), 4, 17)
    v.open("third_offset_65536_after", build(three, frames=(), offsets=[64, 67, 65_603]), 3, 56)
    v.open("eighth_offset_falls", build(named_sections(*EIGHT), frames=(), offsets=[122] * 7 + [121]), 3, 114)
    v.open("configuration_of_65437_bytes", build(((b"IMAGE", b"\xee" * 65_437),)), 0)
    v.open("configuration_of_65479_bytes_no_frame", build(((b"A", bytes(65_479)),), frames=()), 0)
    v.open("configurations_of_32000_bytes_two", build(((b"A", b"a" * 32_000), (b"B", b"b" * 32_000)), frames=()), 0)


def system_offsets(v):
    for wrong in (0, 1, 47):
        v.open(f"system_offset_{wrong}", build(system_offset=wrong), 4, 17)
    v.open("system_offset_49", build(system_offset=49), 4, 49)
    v.open("system_offset_51", build(system_offset=51), 4, 51)
    v.open("system_offset_52_at_the_mark", build(system_offset=52), 4, 52)
    v.open("system_offset_at_user_table", build(system_offset=94), 6)
    v.open("system_offset_95", build(system_offset=95), 4, 95)
    v.open("system_offset_98_at_the_end", build(system_offset=98), 4, 98)
    v.open("system_offset_99", build(system_offset=99), 4, 99)
    v.open("system_offset_65535_after", build(system_offset=48 + 65_535), 4, 48 + 65_535)
    v.open("system_offset_65536_after", build(system_offset=48 + 65_536), 4, 17)
    for name, wrong in (("2_to_32_over", 2**32 + 48), ("2_to_63", 2**63), ("top", TOP), ("top_less_3", TOP - 3)):
        v.open(f"system_offset_{name}", build(system_offset=wrong), 4, 17)
    v.open("system_offset_before_second_configuration", build(TWO, frames=(), system_offset=56), 4, 17)
    v.open("system_offset_1_before_second_configuration_of_0", build(((b"A", b"xyz"), (b"B", b"")), frames=(), system_offset=56), 4, 17)


def bad_tables():
    """Malformed tables: name, bytes, place of the first fault. None of them runs on into a legal one, whatever follows in the files made here."""
    one, two = (b"SITE", b"Krk"), (b"OBS", b"me")  # they end at 13 and 20
    yield "tags_1001", table(*many_tags(1001)), 0
    yield "tags_1001_claimed", u32(1001) + table(one)[4:], 0
    yield "tags_top_claimed", u32(2**32 - 1) + table(one)[4:], 0
    yield "tags_256_for_1", u32(256) + table(one)[4:], 13
    yield "tags_2_to_24_for_0", u32(2**24), 0
    yield "name_empty", table((b"", b"x")), 4
    yield "name_empty_second", table(one, (b"", b"")), 13
    yield "names_equal", table(one, one), 13
    yield "names_equal_values_differ", table(one, two, (b"SITE", b"Hvar")), 20
    yield "names_equal_of_255", table((b"n" * 255, b""), (b"n" * 255, b"v")), 261
    for byte in (0, 9, 10, 31, 127, 128, 255):
        yield f"name_byte_{byte:03}", table((b"A" + bytes([byte]), b"x")), 6
        yield f"value_byte_{byte:03}", table((b"A", b"x" + bytes([byte]))), 8
    yield "name_byte_031_first", table((b"\x1fA", b"x")), 5
    yield "value_byte_127_first", table((b"A", b"\x7fx")), 7
    yield "value_byte_031_alone", table((b"A", b"\x1f")), 7
    yield "value_byte_127_last_of_255", table((b"A", b"x" * 254 + b"\x7f")), 261
    yield "value_byte_031_in_last_tag", table(one, two, (b"X", b"\x1f")), 23


def good_tables():
    """Legal tables: name, bytes, number of tags."""
    yield "tags_1", table((b"SITE", b"Krk")), 1
    yield "tags_1000", table(*many_tags(1000)), 1000
    yield "value_empty", table((b"A", b"")), 1
    yield "name_of_1_and_value_of_1", table((b"A", b"B")), 1
    yield "name_of_255_and_value_of_255", table((b"n" * 255, b"v" * 255)), 1
    yield "bytes_032_and_126", table((b" ~", b"~ ")), 1
    yield "name_of_one_space", table((b" ", b" ")), 1
    yield "all_legal_bytes", table((bytes(range(32, 127)), bytes(range(126, 31, -1)))), 1
    yield "names_differ_by_case", table((b"A", b"1"), (b"a", b"2")), 2
    yield "names_prefix_of_each_other", table((b"SITE", b""), (b"SIT", b""), (b"SITES", b"")), 3
    yield "values_equal", table((b"A", b"x"), (b"B", b"x")), 2
    yield "name_equal_to_a_value", table((b"A", b"B"), (b"B", b"A")), 2


def tables_in_files(v):
    for name, data, place in bad_tables():
        # Where tags are missing, the system table runs on into the frame's mark FF 22 01 EE: a name of 255 bytes, the second of them bad.
        v.open("system_" + name, build(system_table=data), 4, 48 + place + (2 if name == "tags_256_for_1" else 0))
        v.open("user_" + name, build(user_table=data), 7, 94 + place)
    for name, data, count in good_tables():
        v.put("open_system_" + name, of_open(build(system_table=data)), f"opened frames 1 sections 1 system {count} user 0")
        v.put("open_user_" + name, of_open(build(user_table=data)), f"opened frames 1 sections 1 system 0 user {count}")
    site = (b"SITE", b"Krk")
    v.open("same_name_in_both_tables", build(system=(site,), user=(site,)), 0)
    v.open("system_one_tag_more_claimed", build(system_table=u32(2) + table(site)[4:]), 4, 63)
    v.open("system_one_tag_fewer_claimed", build(system_table=u32(0) + table(site)[4:]), 6)
    v.open("system_value_length_1_short", build(system_table=changed(table(site), 9, b"\x02")), 6)
    v.open("system_value_length_1_long", build(system_table=changed(table(site), 9, b"\x04")), 4, 61)
    v.open("system_table_one_byte_behind", build(system_table=table() + b"\0"), 6)
    unclosed = build(system=(site, (b"OBS", b"")), frames=(), count=0, index=b"", user_table=b"", index_offset=0, user_offset=0)
    for n in range(48, len(unclosed)):
        v.open(f"system_table_cut_at_{n}", unclosed[:n], 4, 48 if n < 52 else n)
    v.open(f"system_table_cut_at_{len(unclosed)}", unclosed, 5)
    v.open("user_no_bytes", build(user_table=b""), 7, 94)
    for n in range(len(table(site))):
        v.open(f"user_one_tag_cut_to_{n:02}", build(user_table=table(site)[:n]), 7, 94 + n if n >= 4 else 94)
    v.open("user_one_byte_long", build(user=(site,)) + b"\0", 7, 107)
    v.open("user_one_byte_long_empty_table", WORKED + b"\0", 7, 98)
    v.open("user_four_bytes_long", WORKED + bytes(4), 7, 98)
    v.open("user_one_tag_more_claimed", build(user_table=u32(2) + table(site)[4:]), 7, 107)
    v.open("user_one_tag_fewer_claimed", build(user_table=u32(0) + table(site)[4:]), 7, 98)
    v.open("user_1000_tags_one_byte_long", build(user=many_tags(1000)) + b"A", 7, 4098)
    v.open("user_1000_tags_one_byte_short", build(user=many_tags(1000))[:-1], 7, 4097)


def not_closed(v):
    v.open("user_offset_0", build(user_offset=0), 5)
    v.open("index_and_user_offset_0", build(index_offset=0, user_offset=0), 5)
    for name, wrong in (("1_past_the_end", 99), ("2_to_32_over", 2**32), ("2_to_63", 2**63), ("top", TOP)):
        v.open(f"index_offset_{name}", build(index_offset=wrong + (74 if wrong == 2**32 else 0)), 5)
        v.open(f"user_offset_{name}", build(user_offset=wrong + (94 if wrong == 2**32 else 0)), 5)
    v.open("index_offset_at_the_end", build(index_offset=98), 6)
    v.open("user_offset_at_the_end", build(user_offset=98), 6)
    v.open("index_and_user_offset_at_the_end", build(index_offset=98, user_offset=98), 6)
    v.open("user_offset_at_its_limit", build(user_offset=2**40 - 512_004), 5)
    v.open("user_offset_over_its_limit", build(user_offset=2**40 - 512_003), 5)
    v.open("user_offset_2_to_40", build(user_offset=2**40), 5)
    v.open("user_offset_at_the_end_and_no_table", build(user_table=b""), 7, 94)
    v.open("not_closed_no_frame", build(frames=(), index=b"", user_table=b"", index_offset=0, user_offset=0), 5)
    v.open("only_index_offset_missing", build(index_offset=0), 5)


def index_and_count(v):
    v.open("no_frames", build(frames=()), 0)
    v.open("no_frames_count_1", build(frames=(), count=1), 6)
    for count in (0, 2, 255, 257, 65_537, 1_000_000, 1_000_001, 2**31, 2**32 - 1):
        v.open(f"count_{count}", build(count=count), 6)
    for wrong in (1, 33, 48, 52, 73, 75, 78, 93, 94, 95):
        v.open(f"index_offset_{wrong}", build(index_offset=wrong), 6)
    for wrong in (1, 48, 52, 73, 74, 75, 78, 90, 93, 95, 97):
        v.open(f"user_offset_{wrong}", build(user_offset=wrong), 6)
    v.open("user_offset_below_index_offset_both_wrong", build(index_offset=94, user_offset=74), 6)
    for at in range(74, 94):
        v.open(f"index_byte_{at - 74:02}_changed", changed(WORKED, at, bytes([WORKED[at] ^ 1])), 6)
    entry = struct.Struct("<IQI")
    for name, wrong in (
        ("time_1", (1, 52, 22)),
        ("time_is_the_time", (1000, 52, 22)),
        ("time_top", (2**32 - 1, 52, 22)),
        ("offset_51", (0, 51, 22)),
        ("offset_53", (0, 53, 22)),
        ("offset_0", (0, 0, 22)),
        ("offset_2_to_32_over", (0, 2**32 + 52, 22)),
        ("offset_top", (0, TOP, 22)),
        ("length_21", (0, 52, 21)),
        ("length_23", (0, 52, 23)),
        ("length_without_mark", (0, 52, 18)),
        ("length_0", (0, 52, 0)),
    ):
        v.open(f"index_entry_{name}", build(index=u32(1) + entry.pack(*wrong)), 6)
    right = entry.pack(0, 52, 22)
    v.open("index_number_0_with_entry", build(index=u32(0) + right), 6)
    v.open("index_number_2_with_one_entry", build(index=u32(2) + right), 6)
    v.open("index_number_0_no_entry", build(index=u32(0)), 6)
    v.open("index_two_entries_for_one_frame", build(index=u32(1) + right + right), 6)
    v.open("index_number_2_two_entries_for_one_frame", build(index=u32(2) + right + right), 6)
    v.open("index_one_byte_long", build(index=u32(1) + right + b"\0"), 6)
    v.open("index_four_zeros_long", build(index=u32(1) + right + bytes(4)), 6)
    v.open("index_one_byte_short", build(index=u32(1) + right[:-1]), 6)
    v.open("index_empty", build(index=b""), 6)
    v.open("index_of_no_frames_one_byte_long", build(frames=(), index=bytes(5)), 6)
    v.open("index_of_no_frames_one_byte_short", build(frames=(), index=bytes(3)), 6)
    v.open("index_of_no_frames_top", build(frames=(), index=u32(2**32 - 1)), 6)


TWO_FRAMES = ((1000, 40, b"\x34\x12"), (1500, 41, b"abc"))  # frames at 52 and 74, index at 97


def frames_and_times(v):
    two = build(frames=TWO_FRAMES)
    v.open("frames_2", two, 0)
    v.open("frames_2_count_1", build(frames=TWO_FRAMES, count=1), 6)
    v.open("frames_2_count_3", build(frames=TWO_FRAMES, count=3), 6)
    first_only = u32(1) + struct.pack("<IQI", 0, 52, 22)
    v.open("frames_2_count_1_and_its_index", build(frames=TWO_FRAMES, count=1, index=first_only), 6)
    v.open("frames_2_count_1_index_offset_at_second", build(frames=TWO_FRAMES, count=1, index_offset=74), 6)
    v.open("frames_2_count_0", build(frames=TWO_FRAMES, count=0), 6)
    first, second = (("first_time", 101), ("first_length", 113)), (("second_time", 117), ("second_offset", 121), ("second_length", 129))
    for name, at in (("number", 97), *first, *second):
        v.open(f"frames_2_index_{name}_wrong", changed(two, at, bytes([two[at] ^ 4])), 6)
    swapped = two[:101] + two[117:133] + two[101:117] + two[133:]
    v.open("frames_2_index_entries_swapped", swapped, 6)
    for name, times, wanted in (
        ("equal", (1000, 1000), 0),
        ("falling_by_1", (1000, 999), 6),
        ("falling_below_zero", (0, -1), 6),
        ("negative_rising", (-2, -1), 0),
        ("negative_to_positive", (-5, 7), 0),
        ("span_at_limit", (1000, 1000 + SPAN), 0),
        ("span_over_limit", (1000, 1001 + SPAN), 6),
        ("span_at_limit_from_negative", (-1, SPAN - 1), 0),
        ("span_over_limit_from_negative", (-1, SPAN), 6),
        ("span_of_2_to_33", (0, 2**33), 6),
        ("earliest_then_latest", (EARLIEST, LATEST), 6),
        ("latest_then_earliest", (LATEST, EARLIEST), 6),
        ("minus_1_then_latest", (-1, LATEST), 6),
        ("zero_then_earliest", (0, EARLIEST), 6),
        ("earliest_then_minus_1", (EARLIEST, -1), 6),
        ("earliest_twice", (EARLIEST, EARLIEST), 0),
        ("latest_twice", (LATEST, LATEST), 0),
        ("earliest_and_span_at_limit", (EARLIEST, EARLIEST + SPAN), 0),
        ("earliest_and_span_over_limit", (EARLIEST, EARLIEST + SPAN + 1), 6),
        ("latest_and_span_at_limit", (LATEST - SPAN, LATEST), 0),
        ("latest_and_span_over_limit", (LATEST - SPAN - 1, LATEST), 6),
        ("three_third_falls", (10, 20, 19), 6),
        ("three_second_falls_third_rises", (10, 9, 20), 6),
        ("three_span_over_limit_from_first_only", (0, 10, SPAN + 1), 6),
        ("three_span_at_limit", (0, SPAN, SPAN), 0),
        ("one_earliest", (EARLIEST,), 0),
        ("one_latest", (LATEST,), 0),
    ):
        v.open(f"times_{name}", build(frames=tuple((t, 0, b"x") for t in times)), wanted)
    for at in range(4):
        v.open(f"mark_byte_{at}_wrong", changed(WORKED, 52 + at, bytes([WORKED[52 + at] ^ 0x80])), 6)
    v.open("mark_in_the_other_order", changed(WORKED, 52, MARK[::-1]), 6)
    v.open("second_mark_wrong", changed(two, 74, b"\xfe"), 6)
    v.open("exposure_changed", changed(WORKED, 64, u32(2**32 - 1)), 0)
    v.open("time_changed_of_only_frame", changed(WORKED, 56, u64(77)), 0)
    for size in (0, 1, 3, 26, 30, 31, 16_777_215, 16_777_216, 16_777_217, 2**31, 2**32 - 22, 2**32 - 1):
        v.open(f"size_{size}_for_2", changed(WORKED, 68, u32(size)), 6)
    v.open("size_0", build(frames=((1, 2, b""),)), 0)
    v.open("size_of_65000", build(frames=((1, 2, b"\xff" * 65_000),)), 0)
    v.open("file_of_65535_bytes", build(frames=((1, 2, b"\x22" * 65_439),)), 0)
    v.open("sections_3_sizes_0_1_2", build(named_sections(b"A", b"B", b"C"), frames=((1, 2, b"", b"a", b"bc"),)), 0)
    v.open("sections_2_one_size_missing", build(named_sections(b"A", b"B"), frames=((1, 2, b"a"),)), 6)
    v.open("sections_1_one_size_too_many", build(frames=((1, 2, b"a", b"b"),)), 6)
    pair = build(named_sections(b"A", b"B"), frames=((1, 2, b"", b""),))  # the frame at 58, its second size at 78
    v.open("second_size_0", pair, 0)
    v.open("second_size_over_limit", changed(pair, 78, u32(16_777_217)), 6)
    v.open("frames_255", build(frames=tuple((i, i, b"") for i in range(255))), 0)
    v.open("frames_256", build(frames=tuple((i, 7, b"") for i in range(256))), 0)
    v.open("frames_256_count_0", build(frames=tuple((i, 7, b"") for i in range(256)), count=0), 6)
    v.open("frames_1800", build(frames=tuple((5 * i, 0, b"") for i in range(1800))), 0)
    v.open("frames_1800_last_time_falls", build(frames=tuple((5 * i, 0, b"") for i in range(1799)) + ((0, 0, b""),)), 6)


GHOST = one_frame(1200, 9, b"boo")
HAUNTED = ((1000, 40, MARK + b"ab" + GHOST), (1300, 41, b"cd"))


def ghosts(v):
    v.open("pixels_are_the_mark", build(frames=((1, 2, MARK),)), 0)
    v.open("pixels_hold_marks", build(frames=((1, 2, b"a" + MARK * 3 + b"b"),)), 0)
    v.open("pixels_are_a_ghost_frame", build(frames=((1, 2, GHOST),)), 0)
    v.open("pixels_hold_ghosts_two_frames", build(frames=HAUNTED), 0)
    v.open("pixels_are_a_whole_file", build(frames=((1, 2, WORKED),)), 0)
    v.open("ghost_at_the_end_of_pixels", build(frames=((1, 2, b"ab" + GHOST), (3, 4, GHOST))), 0)
    ghost_at = 52 + 20 + 2
    listed = u32(2) + struct.pack("<IQI", 0, 52, 22 + len(GHOST)) + struct.pack("<IQI", 200, ghost_at, len(GHOST))
    frames = ((1000, 40, b"ab" + GHOST),)
    v.open("ghost_listed_in_the_index", build(frames=frames, count=2, index=listed), 6)
    v.open("ghost_listed_in_the_index_count_1", build(frames=frames, count=1, index=listed), 6)
    only_ghost = u32(1) + struct.pack("<IQI", 0, ghost_at, len(GHOST))
    v.open("ghost_alone_in_the_index", build(frames=frames, index=only_ghost), 6)
    gap = build(frames=((1000, 40, b"ab"),))
    v.open("byte_between_frames", gap[:74] + b"\0" + GHOST + gap[74:], 6)
    v.open("mark_between_frames_and_index", changed(gap[:74] + MARK + gap[74:], 9, u64(78) + gap[17:25] + u64(98)), 6)
    v.open("configuration_holds_a_ghost_frame", build(((b"A", GHOST),), frames=((1, 2, b"x"),)), 0)
    v.open("frame_in_place_of_user_table", build(user_table=GHOST), 7, 94)


def two_lines_hold(v):
    v.open("both_3_and_4", build(named_sections(b"-"), frames=(), system_offset=0), 3, 35)
    v.open("both_3_and_5", build(named_sections(b"-"), frames=(), user_offset=0), 3, 35)
    v.open("both_4_and_5", build(system_offset=0, index_offset=0), 4, 17)
    v.open("both_4_and_7", build(system_table=table((b"", b"")), user_table=b""), 4, 52)
    v.open("both_5_and_6", build(count=2, user_offset=0), 5)
    v.open("both_5_and_7", build(user_offset=0, user_table=b""), 5)
    v.open("both_6_and_7", build(count=2, user_table=b""), 6)
    v.open("both_2_and_6", build(count=2, revision=3), 2)


def random_changes(v):
    """Bytes of a rich file changed, cut or doubled at random."""
    random = Random(1)
    for i in range(80):
        file = bytearray(RICH)
        for _ in range(1 + random.randrange(2)):
            file[random.randrange(len(file))] = random.randrange(256)
        v.open(f"random_change_{i:02}", bytes(file))
    for i in range(20):
        at, length = random.randrange(len(RICH)), 1 + random.randrange(4)
        v.open(f"random_bytes_left_out_{i:02}", RICH[:at] + RICH[at + length :])
        v.open(f"random_bytes_doubled_{i:02}", RICH[: at + length] + RICH[at:])


def opening(v):
    worked_and_cut(v)
    not_fstf_and_revision(v)
    section_names(v)
    configurations(v)
    system_offsets(v)
    tables_in_files(v)
    not_closed(v)
    index_and_count(v)
    frames_and_times(v)
    ghosts(v)
    two_lines_hold(v)
    random_changes(v)


# ---- (1) readers ----

RICH = build(
    ((b"IMAGE", b"w640"), (b"A", b""), (b"a", bytes(range(250, 256)))),
    ((b"CAMERA", b"ZWO"), (b"EMPTY", b""), (b" ~", b"~ ")),
    ((-7, 40, b"\x34\x12", b"", b"x"), (-7, 0, b"", b"", b""), (9, 2**32 - 1, GHOST, MARK, bytes(3))),
    ((b"SITE", b"Krk"), (b"NOTE", b"")),
)
BEYOND = (("2_to_32", 2**32), ("2_to_63", 2**63), ("top", TOP))


def refused_files():
    """A file for each number of opening: the number, the refusal, the file."""
    for number, place, file in (
        (1, None, WORKED[:33]),
        (2, None, changed(RICH, 4, b"\x02")),
        (3, 33, changed(RICH, 33, b"\x00")),
        (4, 17, changed(RICH, 17, u64(0))),
        (5, None, changed(RICH, 9, u64(0))),
        (6, None, changed(RICH, 5, u32(2))),
        (7, len(RICH) - 1, RICH[:-1]),
    ):
        yield number, refused(Refusal(number, place)), file


def frame_reader(v):
    v.put("frame_0_worked", of_frame(0, WORKED), "frame at 52 length 22 time 1000 exposure 40")
    v.put("frame_1_worked", of_frame(1, WORKED), "refused 8")
    for i in range(3):
        v.put(f"frame_{i}_rich", of_frame(i, RICH), "frame")
    v.put("frame_3_rich", of_frame(3, RICH), "refused 8")
    v.put("frame_4_rich", of_frame(4, RICH), "refused 8")
    for name, i in BEYOND:
        v.put(f"frame_{name}", of_frame(i, RICH), "refused 8")
    v.put("frame_0_of_none", of_frame(0, build(frames=())), "refused 8")
    v.put("frame_1_haunted", of_frame(1, build(frames=HAUNTED)), f"frame at {72 + 6 + len(GHOST)} length 22 time 1300 exposure 41")
    v.put("frame_2_haunted", of_frame(2, build(frames=HAUNTED)), "refused 8")
    for time in (EARLIEST, -1, LATEST):
        name = {EARLIEST: "earliest", -1: "minus_1", LATEST: "latest"}[time]
        file = build(frames=((time, 2**32 - 1, b""),))
        v.put(f"frame_time_{name}", of_frame(0, file), f"frame at 52 length 20 time {time} exposure 4294967295")
    v.put("frame_254_of_255", of_frame(254, build(frames=tuple((i, i, b"") for i in range(255)))), "frame")
    v.put("frame_255_of_255", of_frame(255, build(frames=tuple((i, i, b"") for i in range(255)))), "refused 8")
    for number, refusal, file in refused_files():
        v.put(f"frame_0_of_file_refused_{number}", of_frame(0, file), refusal)
        v.put(f"frame_top_of_file_refused_{number}", of_frame(TOP, file), refusal)


KINDS = ("section", "section_name", "configuration", "system_name", "system_value", "user_name", "user_value")
COUNTS = (3, 3, 3, 3, 3, 2, 2)  # of the rich file


def part_reader(v):
    for kind, (name, count) in enumerate(zip(KINDS, COUNTS)):
        for i in range(count):
            for j in range(3) if kind == 0 else (0,):
                v.put(f"part_{name}_{i}_{j}_rich" if kind == 0 else f"part_{name}_{i}_rich", of_part(kind, i, j, RICH), "part")
        v.put(f"part_{name}_at_count", of_part(kind, count, 0, RICH), "refused 8 part of 0")
        v.put(f"part_{name}_over_count", of_part(kind, count + 1, 0, RICH), "refused 8 part of 0")
        for beyond, i in BEYOND:
            v.put(f"part_{name}_{beyond}", of_part(kind, i, 0, RICH), "refused 8 part of 0")
        v.put(f"part_{name}_0_worked", of_part(kind, 0, 0, WORKED), "part" if kind <= 2 else "refused 8 part of 0")
        for number, refusal, file in refused_files():
            v.put(f"part_{name}_of_file_refused_{number}", of_part(kind, 0, 0, file), f"{refusal} part of 0")
        v.put(f"part_{name}_top_of_file_refused_7", of_part(kind, TOP, TOP, RICH[:-1]), f"refused 7 place {len(RICH) - 1} part of 0")
        if kind > 0:
            v.put(f"part_{name}_0_second_number_not_used", of_part(kind, 0, TOP, RICH), "part")
    for beyond, j in (("at_count", 3), ("over_count", 4)) + BEYOND:
        v.put(f"part_section_second_number_{beyond}", of_part(0, 0, j, RICH), "refused 8 part of 0")
    v.put("part_section_both_numbers_top", of_part(0, TOP, TOP, RICH), "refused 8 part of 0")
    v.put("part_section_numbers_2_to_32", of_part(0, 2**32, 2**32, RICH), "refused 8 part of 0")
    v.put("part_section_of_no_frames", of_part(0, 0, 0, build(frames=())), "refused 8 part of 0")
    v.put("part_section_worked_second", of_part(0, 0, 1, WORKED), "refused 8 part of 0")
    v.put("part_section_pixels_worked", of_part(0, 0, 0, WORKED), "part at 72 length 2 3412")
    v.put("part_section_name_pixels_worked", of_part(1, 0, 0, WORKED), "part at 35 length 5 494d414745")
    v.put("part_configuration_empty_worked", of_part(2, 0, 0, WORKED), "part at 48 length 0")
    unclosed = build(system=((b"A", b"b"),), index_offset=0)
    v.put("part_system_name_of_unclosed", of_part(3, 0, 0, unclosed), "refused 5 part of 0")
    v.put("part_section_name_of_255", of_part(1, 1, 0, with_names(b"A", b"N" * 255)), "part")
    v.put("part_user_name_of_255", of_part(5, 0, 0, build(user_table=table((b"n" * 255, b"v" * 255)))), "part at 99 length 255")
    v.put("part_user_value_of_255", of_part(6, 0, 0, build(user_table=table((b"n" * 255, b"v" * 255)))), "part at 355 length 255")
    v.put("part_system_name_999_of_1000", of_part(3, 999, 0, build(system=many_tags(1000))), "part")
    v.put("part_system_name_1000_of_1000", of_part(3, 1000, 0, build(system=many_tags(1000))), "refused 8")
    v.put("part_user_value_999_of_1000", of_part(6, 999, 0, build(user=many_tags(1000))), "part")
    v.put("part_user_value_1000_of_1000", of_part(6, 1000, 0, build(user=many_tags(1000))), "refused 8")
    same = build(system=((b"SITE", b"in system"),), user=((b"SITE", b"in user"),))
    v.put("part_system_value_of_a_name_in_both", of_part(4, 0, 0, same), "part")
    v.put("part_user_value_of_a_name_in_both", of_part(6, 0, 0, same), "part")
    eight = build(named_sections(*EIGHT), frames=((5, 6, b"", b"a", b"", b"", b"bc", b"", b"", b"d"),))
    for j in (0, 1, 4, 7):
        v.put(f"part_section_{j}_of_eight", of_part(0, 0, j, eight), "part")
    v.put("part_section_8_of_eight", of_part(0, 0, 8, eight), "refused 8")


# ---- (2) the recorder ----

NEW = (0, 0, 0, 0, 0, 0, 0)
BEGUN = (1, 0, 1, 0, 0, 0, 52)
ONE_ADDED = (1, 0, 1, 1, 1000, 1000, 74)
IMAGE = set_up((b"IMAGE", b""))
NO_TAGS = table()
END_LIMIT = 2**40 - 512_004 - 4  # of a state without frames


def state(base, **other):
    return tuple(State(*base)._replace(**other))


def begin_vectors(v):
    def put(name, expected, notes=4, out=52, set_up_list=IMAGE, system_table=NO_TAGS, base=NEW):
        v.put("begin_" + name, of_begin(base, notes, out, set_up_list, system_table), expected)

    given = "given 0 52 stage 1 piece 0 sections 1 frames 0 first 0 last 0 end 52"
    put("worked", given)
    put("room_to_spare", given, notes=40, out=80)
    put("out_one_short", "refused 9", out=51)
    put("out_empty", "refused 9", out=0)
    put("notes_of_3", "refused 9", notes=3)
    put("notes_empty", "refused 9", notes=0)
    put("both_short", "refused 9", notes=3, out=51)
    put("made_up_fresh_numbers", given, base=(0, 0, 99, 5, 8, -8, 12345))
    put("made_up_fresh_tops", given, base=(0, 0, TOP, TOP, LATEST, EARLIEST, TOP))
    put("made_up_fresh_tops_refused", "refused 10 place 0", base=(0, 0, TOP, TOP, LATEST, EARLIEST, TOP), set_up_list=b"")
    put("when_running", "refused 12", base=BEGUN)
    put("when_running_with_a_frame", "refused 12", base=ONE_ADDED)
    for piece in (0, 1, 4, 5):
        put(f"when_closing_at_{piece}", "refused 12", base=state(ONE_ADDED, stage=2, piece=piece))
    put("when_closed", "refused 12", base=state(ONE_ADDED, stage=3))
    # The set-up list.
    put("list_of_no_bytes", "refused 10 place 0", set_up_list=b"")
    put("list_00", "refused 3 place 0", set_up_list=b"\x00")
    put("list_00_00", "refused 10 place 1", set_up_list=b"\x00\x00")
    put("list_01", "refused 10 place 1", set_up_list=b"\x01")
    put("list_ff", "refused 10 place 1", set_up_list=b"\xff")
    put("list_eight", "given 0 126", out=126, set_up_list=set_up(*named_sections(*EIGHT)))
    put("list_nine", "refused 3 place 0", out=500, set_up_list=set_up(*named_sections(*EIGHT, b"S8")))
    put("list_255", "refused 3 place 0", out=9000, set_up_list=set_up(*named_sections(*(b"%d" % i for i in range(255)))))
    put("list_255_one_byte_short", "refused 10 place 1419", out=9000, set_up_list=set_up(*named_sections(*(b"%d" % i for i in range(255))))[:-1])
    put("list_255_empty_names", "refused 3 place 0", set_up_list=b"\xff" + bytes(3 * 255))
    put("list_nine_one_byte_left_over", "refused 10 place 46", set_up_list=set_up(*named_sections(*EIGHT, b"S8")) + b"\0")
    two = set_up((b"AB", b"xyz"), (b"C", b""))
    put("list_two", "given 0 62 stage 1 piece 0 sections 2 frames 0 first 0 last 0 end 62", out=62, set_up_list=two)
    for n, place in enumerate((1, 2, 3, 4, 4, 6, 6, 6, 9, 10, 11, 11), 1):
        put(f"list_two_cut_to_{n:02}", f"refused 10 place {place}", out=99, set_up_list=two[:n])
    put("list_two_one_byte_left_over", "refused 10 place 13", out=99, set_up_list=two + b"\0")
    put("list_says_one_of_two", "refused 10 place 9", out=99, set_up_list=b"\x01" + two[1:])
    put("list_says_three_of_two", "refused 10 place 13", out=99, set_up_list=b"\x03" + two[1:])
    put("list_configuration_length_one_more", "refused 10 place 5", set_up_list=b"\x01\x01A\x04\x00xyz")
    put("list_configuration_length_one_fewer", "refused 10 place 7", set_up_list=b"\x01\x01A\x02\x00xyz")
    put("list_configuration_length_65535", "refused 10 place 5", set_up_list=b"\x01\x01A\xff\xffxyz")
    put("list_bad_name_and_cut", "refused 10 place 3", set_up_list=b"\x01\x01-\x00")
    put("list_bad_name_and_left_over", "refused 10 place 5", set_up_list=set_up((b"-", b"")) + b"\0")
    put("list_name_length_past_the_end", "refused 10 place 5", set_up_list=b"\x01\xffA\x00\x00")
    put("name_empty", "refused 3 place 1", set_up_list=set_up((b"", b"")))
    put("name_empty_second", "refused 3 place 5", out=99, set_up_list=set_up((b"A", b""), (b"", b"")))
    put("name_of_255", "given 0 302", out=302, set_up_list=set_up((b"n" * 255, b"")))
    for byte in (48, 57, 65, 90, 97, 122):
        put(f"name_byte_{byte:03}_taken", "given 0 48", out=48, set_up_list=set_up((bytes([byte]), b"")))
    for byte in (0, 47, 58, 64, 91, 96, 123, 128, 255):
        put(f"name_byte_{byte:03}_refused", "refused 3 place 2", set_up_list=set_up((bytes([byte]), b"")))
    put("names_equal", "refused 3 place 6", out=99, set_up_list=set_up((b"A", b"x"), (b"A", b"y")))
    put("names_equal_first_and_eighth", "refused 3 place 36", out=200, set_up_list=set_up(*named_sections(*EIGHT[:7], EIGHT[0])))
    put("names_differ_by_case", "given 0 58", out=58, set_up_list=set_up((b"A", b""), (b"a", b"")))
    put("configurations", "given 0 66", out=66, set_up_list=set_up((b"A", b"xyz"), (b"B", b"12345")))
    put("configuration_of_60000", "given 0 60048", out=65_535, set_up_list=set_up((b"A", b"\xff" * 60_000)))
    put("configuration_of_60000_out_one_short", "refused 9", out=60_047, set_up_list=set_up((b"A", b"\xff" * 60_000)))
    put("configuration_of_256", "given 0 304", out=304, set_up_list=set_up((b"A", bytes(range(256)))))
    # The system table.
    put("table_of_no_bytes", "refused 4 place 0", system_table=b"")
    for n in (1, 3):
        put(f"table_cut_to_{n}", "refused 4 place 0", system_table=bytes(n))
    put("table_one_byte_behind", "refused 4 place 4", system_table=bytes(5))
    put("table_one_tag_cut", "refused 4 place 12", out=99, system_table=table((b"SITE", b"Krk"))[:-1])
    put("table_one_tag_and_a_byte_behind", "refused 4 place 13", out=99, system_table=table((b"SITE", b"Krk")) + b"\0")
    for name, data, place in bad_tables():
        put("table_" + name, f"refused 4 place {place}", out=9000, system_table=data)
    for name, data, _ in good_tables():
        put("table_" + name, f"given 0 {48 + len(data)}", out=48 + len(data), system_table=data)
    # Where two lines hold.
    put("both_12_and_10", "refused 12", base=BEGUN, set_up_list=b"")
    put("both_12_and_9", "refused 12", base=BEGUN, out=0)
    put("both_10_and_4", "refused 10 place 1", set_up_list=b"\x01", system_table=b"")
    put("both_10_and_9", "refused 10 place 1", set_up_list=b"\x01", out=0)
    put("both_3_and_4", "refused 3 place 0", set_up_list=b"\x00", system_table=b"")
    put("both_3_and_9", "refused 3 place 2", set_up_list=set_up((b"-", b"")), notes=0, out=0)
    put("both_4_and_9", "refused 4 place 0", system_table=b"", notes=0, out=0)


def add_vectors(v):
    def put(name, expected, base=BEGUN, notes=20, out=22, time=1000, exposure=40, sections=sized(b"\x34\x12")):
        v.put("add_" + name, of_add(base, notes, out, time, exposure, sections), expected)

    put("worked", "given 52 22 stage 1 piece 0 sections 1 frames 1 first 1000 last 1000 end 74")
    put("room_to_spare", "given 52 22", notes=60, out=60)
    put("out_one_short", "refused 9", out=21)
    put("out_empty", "refused 9", out=0)
    put("notes_one_short", "refused 9", notes=19)
    put("notes_empty", "refused 9", notes=0)
    put("both_short", "refused 9", notes=19, out=21)
    second = dict(base=ONE_ADDED, notes=36)
    put("second_at_999", "refused 13", time=999, **second)
    put("second_at_1000", "given 74 22 stage 1 piece 0 sections 1 frames 2 first 1000 last 1000 end 96", time=1000, **second)
    put("second_at_1001", "given 74 22 stage 1 piece 0 sections 1 frames 2 first 1000 last 1001 end 96", time=1001, **second)
    put("second_at_span_limit", "given 74 22", time=1000 + SPAN, **second)
    put("second_over_span_limit", "refused 13", time=1001 + SPAN, **second)
    put("second_at_latest", "refused 13", time=LATEST, **second)
    put("second_at_earliest", "refused 13", time=EARLIEST, **second)
    put("second_notes_one_short", "refused 9", base=ONE_ADDED, notes=35)
    put("second_notes_to_spare", "given 74 22", base=ONE_ADDED, notes=50, out=30)
    third = state(ONE_ADDED, frames=2, first=100, last=200)
    put("third_below_last_over_first", "refused 13", base=third, notes=52, time=199)
    put("third_at_last", "given 74 22", base=third, notes=52, time=200)
    put("third_at_span_of_first", "given 74 22", base=third, notes=52, time=100 + SPAN)
    put("third_over_span_of_first", "refused 13", base=third, notes=52, time=101 + SPAN)
    for name, first, last, time, wanted in (
        ("earliest_then_latest", EARLIEST, EARLIEST, LATEST, "refused 13"),
        ("earliest_then_span_limit", EARLIEST, EARLIEST, EARLIEST + SPAN, "given 74"),
        ("earliest_then_over_span_limit", EARLIEST, EARLIEST, EARLIEST + SPAN + 1, "refused 13"),
        ("latest_then_latest", LATEST, LATEST, LATEST, "given 74"),
        ("latest_then_earliest", LATEST, LATEST, EARLIEST, "refused 13"),
        ("latest_then_one_less", LATEST, LATEST, LATEST - 1, "refused 13"),
        ("minus_1_then_latest", -1, -1, LATEST, "refused 13"),
        ("minus_5_then_span_limit", -5, -5, SPAN - 5, "given 74"),
        ("minus_5_then_over_span_limit", -5, -5, SPAN - 4, "refused 13"),
        ("minus_5_then_minus_6", -5, -5, -6, "refused 13"),
        ("minus_5_then_0", -5, -5, 0, "given 74"),
    ):
        put(f"times_{name}", wanted, base=state(ONE_ADDED, first=first, last=last), notes=36, time=time)
    for name, time in (("earliest", EARLIEST), ("minus_1", -1), ("zero", 0), ("latest", LATEST)):
        put(f"first_at_{name}", f"given 52 22 stage 1 piece 0 sections 1 frames 1 first {time} last {time} end 74", time=time)
    at_50 = "given 52 22 stage 1 piece 0 sections 1 frames 1 first 50 last 50 end 74"
    put("first_forgets_made_up_times", at_50, base=state(BEGUN, first=100, last=200), time=50)
    put("first_forgets_made_up_times_far", "given 52 22", base=state(BEGUN, first=LATEST, last=LATEST), time=EARLIEST)
    put("exposure_top", "given 52 22", exposure=2**32 - 1)
    put("exposure_0", "given 52 22", exposure=0)
    # Stages and limits of a state.
    put("when_fresh", "refused 12", base=NEW)
    put("when_fresh_with_good_numbers", "refused 12", base=state(BEGUN, stage=0))
    for piece in (0, 1, 4, 5):
        put(f"when_closing_at_{piece}", "refused 12", base=state(BEGUN, stage=2, piece=piece))
    put("when_closed", "refused 12", base=state(BEGUN, stage=3))
    for sections in (0, 9, 255, 257, 2**32 + 1, TOP):
        put(f"state_sections_{sections}", "refused 12", base=state(BEGUN, sections=sections))
    put("state_sections_8", "given 52 48", base=state(BEGUN, sections=8), out=48, sections=bytes(32))
    put("state_frames_999999", "refused 9", base=state(ONE_ADDED, frames=999_999), notes=65_535)
    put("state_frames_1000000", "refused 15", base=state(ONE_ADDED, frames=1_000_000), notes=65_535)
    put("state_frames_1000000_wrong_shape", "refused 14", base=state(ONE_ADDED, frames=1_000_000), sections=b"")
    put("state_frames_1000000_falling_time", "refused 15", base=state(ONE_ADDED, frames=1_000_000), time=0)
    for name, frames in (("1000001", 1_000_001), ("2_to_32", 2**32), ("2_to_60", 2**60), ("top", TOP)):
        put(f"state_frames_{name}", "refused 12", base=state(ONE_ADDED, frames=frames))
    put("state_frames_4094", "given 74 22", base=state(ONE_ADDED, frames=4094), notes=65_524)
    put("state_frames_4094_notes_one_short", "refused 9", base=state(ONE_ADDED, frames=4094), notes=65_523)
    put("state_frames_4095", "refused 9", base=state(ONE_ADDED, frames=4095), notes=65_535)
    put("state_last_before_first", "refused 12", base=state(ONE_ADDED, first=1001))
    put("state_last_before_first_no_frames", "refused 12", base=state(BEGUN, first=5, last=4))
    put("state_last_at_span", "given 74 22", base=state(ONE_ADDED, first=0, last=SPAN), notes=36, time=SPAN)
    put("state_last_over_span", "refused 12", base=state(ONE_ADDED, first=0, last=SPAN + 1), notes=36, time=SPAN + 1)
    put("state_last_over_span_no_frames", "refused 12", base=state(BEGUN, first=0, last=SPAN + 1))
    put("state_earliest_and_latest", "refused 12", base=(1, 0, 1, 2, EARLIEST, LATEST, 48))
    put("state_latest_and_earliest", "refused 12", base=(1, 0, 1, 2, LATEST, EARLIEST, 48))
    put("state_end_0", "given 0 22", base=state(BEGUN, end=0))
    put("state_end_1", "given 1 22", base=state(BEGUN, end=1))
    put("state_end_top", "refused 12", base=(1, 0, 1, 0, 0, 0, TOP))
    put("state_end_at_limit", "refused 15", base=state(BEGUN, end=END_LIMIT))
    put("state_end_over_limit", "refused 12", base=state(BEGUN, end=END_LIMIT + 1))
    put("state_end_at_limit_of_3_frames", "refused 15", base=state(third, frames=3, end=END_LIMIT - 48))
    put("state_end_over_limit_of_3_frames", "refused 12", base=state(third, frames=3, end=END_LIMIT - 47))
    put("state_end_at_limit_of_1000000_frames", "refused 15", base=state(third, frames=1_000_000, end=END_LIMIT - 16_000_000))
    put("state_end_over_limit_of_1000000_frames", "refused 12", base=state(third, frames=1_000_000, end=END_LIMIT - 15_999_999))
    put("full_exactly", f"given {END_LIMIT - 38} 22", base=state(BEGUN, end=END_LIMIT - 22 - 16))
    put("full_by_one", "refused 15", base=state(BEGUN, end=END_LIMIT - 22 - 16 + 1))
    put("full_exactly_third_frame", f"given {END_LIMIT - 70} 22", base=state(third, end=END_LIMIT - 22 - 48), notes=52)
    put("full_by_one_third_frame", "refused 15", base=state(third, end=END_LIMIT - 22 - 48 + 1), notes=52)
    put("full_exactly_and_no_room", "refused 9", base=state(BEGUN, end=END_LIMIT - 22 - 16), out=21)
    # The frame's shape.
    for name, data in (
        ("no_bytes", b""),
        ("size_cut", u32(2)[:3]),
        ("one_byte_short", u32(2) + b"a"),
        ("one_byte_long", u32(2) + b"abc"),
        ("two_sections_for_one", sized(b"ab", b"")),
        ("size_2_to_32_less_1", u32(2**32 - 1) + b"ab"),
        ("size_16777216_not_there", u32(16_777_216) + b"ab"),
        ("size_16777217_not_there", u32(16_777_217) + b"ab"),
    ):
        put(f"shape_{name}", "refused 14", sections=data)
    put("shape_empty_section", "given 52 20", sections=sized(b""), out=20)
    pair = state(BEGUN, sections=2)
    put("shape_two_sections", "given 52 27", base=pair, sections=sized(b"abc", b""), out=27)
    put("shape_one_section_for_two", "refused 14", base=pair, sections=sized(b"abc"))
    put("shape_two_sections_second_cut", "refused 14", base=pair, sections=sized(b"abc", b"d")[:-1])
    put("shape_two_sections_second_size_cut", "refused 14", base=pair, sections=sized(b"abc", b"")[:-1])
    put("shape_two_sections_second_size_over", "refused 14", base=pair, sections=sized(b"abc") + u32(16_777_217))
    put("shape_three_sections_for_two", "refused 14", base=pair, sections=sized(b"", b"", b""))
    put("shape_seven_sections_for_eight", "refused 14", base=state(BEGUN, sections=8), sections=bytes(28), out=99)
    put("shape_nine_sections_for_eight", "refused 14", base=state(BEGUN, sections=8), sections=bytes(36), out=99)
    put("pixels_hold_a_ghost", f"given 52 {20 + len(GHOST)}", sections=sized(GHOST), out=20 + len(GHOST))
    put("section_of_60000", "given 52 60020", sections=sized(b"\x01" * 60_000), out=60_020)
    put("section_of_60000_out_one_short", "refused 9", sections=sized(b"\x01" * 60_000), out=60_019)
    # Where two lines hold.
    put("both_12_and_14", "refused 12", base=NEW, sections=b"")
    put("both_12_and_15", "refused 12", base=state(BEGUN, sections=0, end=END_LIMIT))
    put("both_12_and_13", "refused 12", base=state(ONE_ADDED, sections=9), time=0)
    put("both_12_and_9", "refused 12", base=state(BEGUN, stage=3), notes=0, out=0)
    put("both_14_and_15", "refused 14", base=state(BEGUN, end=END_LIMIT), sections=b"")
    put("both_14_and_13", "refused 14", base=ONE_ADDED, time=999, sections=b"")
    put("both_14_and_9", "refused 14", sections=b"", notes=0, out=0)
    put("both_15_and_13", "refused 15", base=state(ONE_ADDED, end=END_LIMIT - 40), time=999)
    put("both_15_and_9", "refused 15", base=state(BEGUN, end=END_LIMIT), notes=0, out=0)
    put("both_13_and_9", "refused 13", base=ONE_ADDED, time=999, notes=0, out=0)


ONE_NOTE = u32(1) + struct.pack("<IQI", 0, 52, 22)


def close_vectors(v):
    def put(name, expected, base=ONE_ADDED, notes=ONE_NOTE, out=20):
        v.put("close_" + name, of_close(base, notes, out), expected)

    def at(piece, **other):
        return state(ONE_ADDED, stage=2, piece=piece, **other)

    after = "sections 1 frames 1 first 1000 last 1000 end 74"
    put("running", f"given 74 20 stage 2 piece 1 {after}")
    put("piece_0", f"given 74 20 stage 2 piece 1 {after}", base=at(0))
    put("piece_1", f"given 94 4 stage 2 piece 2 {after}", base=at(1), out=4)
    put("piece_2", f"given 5 4 stage 2 piece 3 {after}", base=at(2), out=4)
    put("piece_3", f"given 25 8 stage 2 piece 4 {after}", base=at(3), out=8)
    put("piece_4", f"given 9 8 stage 3 piece 0 {after}", base=at(4), out=8)
    for piece, length in enumerate((20, 4, 4, 8, 8)):
        put(f"piece_{piece}_room_to_spare", "given", base=at(piece), out=30)
        put(f"piece_{piece}_one_short", "refused 9", base=at(piece), out=length - 1)
        put(f"piece_{piece}_out_empty", "refused 9", base=at(piece), out=0)
        put(f"piece_{piece}_notes_empty", "given" if piece else "refused 9", base=at(piece), notes=b"", out=length)
    put("running_one_short", "refused 9", out=19)
    put("running_out_empty", "refused 9", out=0)
    put("notes_one_short", "refused 9", notes=ONE_NOTE[:-1])
    put("notes_of_3", "refused 9", notes=ONE_NOTE[:3])
    put("notes_and_out_short", "refused 9", notes=ONE_NOTE[:-1], out=19)
    put("notes_to_spare", "given 74 20", notes=ONE_NOTE + b"more", out=40)
    put("notes_of_another_count", "given 74 20", notes=u32(7) + bytes(range(16)))
    put("notes_all_ff", "given 74 20", notes=b"\xff" * 20)
    put("no_frames", "given 52 4 stage 2 piece 1 sections 1 frames 0", base=BEGUN, notes=bytes(4), out=4)
    put("no_frames_notes_of_3", "refused 9", base=BEGUN, notes=bytes(3), out=4)
    put("no_frames_piece_1", "given 56 4", base=state(BEGUN, stage=2, piece=1), notes=b"", out=4)
    put("no_frames_piece_3", "given 25 8", base=state(BEGUN, stage=2, piece=3), notes=b"", out=8)
    two = state(ONE_ADDED, frames=2, last=1500, end=97)
    two_notes = u32(2) + ONE_NOTE[4:] + struct.pack("<IQI", 500, 74, 23)
    put("two_frames", "given 97 36 stage 2 piece 1", base=two, notes=two_notes, out=36)
    put("two_frames_notes_of_one", "refused 9", base=two, notes=ONE_NOTE, out=36)
    put("frames_4000", "given 74 64004", base=state(ONE_ADDED, frames=4000), notes=bytes(i % 251 for i in range(64_004)), out=64_004)
    # Stages and limits.
    put("fresh", "refused 12", base=NEW)
    put("fresh_with_good_numbers", "refused 12", base=state(ONE_ADDED, stage=0))
    put("closed", "refused 12", base=state(ONE_ADDED, stage=3))
    for piece in (5, 6, 128, 255):
        put(f"piece_{piece}", "refused 12", base=at(piece))
    for name, sections in (("0", 0), ("9", 9), ("257", 257), ("top", TOP)):
        put(f"running_sections_{name}", "refused 12", base=state(ONE_ADDED, sections=sections))
        put(f"piece_2_sections_{name}", "refused 12", base=at(2, sections=sections))
    put("running_sections_8", "given 74 20", base=state(ONE_ADDED, sections=8))
    put("piece_4_sections_8", "given 9 8", base=at(4, sections=8))
    put("running_frames_1000000", "refused 9", base=state(ONE_ADDED, frames=1_000_000), out=65_000)
    put("piece_1_frames_1000000", f"given {74 + 16_000_004} 4", base=at(1, frames=1_000_000), notes=b"")
    put("piece_2_frames_1000000", "given 5 4", base=at(2, frames=1_000_000), notes=b"")
    put("piece_3_frames_1000000", "given 25 8", base=at(3, frames=1_000_000), notes=b"")
    for name, frames in (("1000001", 1_000_001), ("2_to_32", 2**32), ("2_to_60", 2**60), ("top", TOP)):
        put(f"running_frames_{name}", "refused 12", base=state(ONE_ADDED, frames=frames))
        put(f"piece_2_frames_{name}", "refused 12", base=at(2, frames=frames))
    put("running_last_before_first", "refused 12", base=state(ONE_ADDED, first=1001))
    put("piece_3_last_before_first", "refused 12", base=at(3, first=1001))
    put("piece_3_last_at_span", "given 25 8", base=at(3, last=1000 + SPAN))
    put("piece_3_last_over_span", "refused 12", base=at(3, last=1001 + SPAN))
    put("running_last_at_span", "given 74 20", base=state(ONE_ADDED, last=1000 + SPAN))
    put("running_last_over_span", "refused 12", base=state(ONE_ADDED, last=1001 + SPAN))
    put("running_earliest_and_latest", "refused 12", base=state(ONE_ADDED, first=EARLIEST, last=LATEST))
    put("piece_0_latest_and_earliest", "refused 12", base=at(0, first=LATEST, last=EARLIEST))
    put("running_latest_twice", "given 74 20", base=state(ONE_ADDED, first=LATEST, last=LATEST))
    put("running_end_at_limit", f"given {END_LIMIT - 16} 20", base=state(ONE_ADDED, end=END_LIMIT - 16))
    put("running_end_over_limit", "refused 12", base=state(ONE_ADDED, end=END_LIMIT - 15))
    put("piece_1_end_at_limit", f"given {2**40 - 512_004} 4", base=at(1, end=END_LIMIT - 16))
    put("piece_3_end_at_limit", "given 25 8", base=at(3, end=END_LIMIT - 16))
    put("piece_4_end_at_limit", "given 9 8", base=at(4, end=END_LIMIT - 16))
    put("piece_4_end_over_limit", "refused 12", base=at(4, end=END_LIMIT - 15))
    put("running_end_0", "given 0 20", base=state(ONE_ADDED, end=0))
    put("running_end_top", "refused 12", base=state(ONE_ADDED, end=TOP))
    put("piece_3_end_top", "refused 12", base=at(3, end=TOP))
    put("piece_3_end_0", "given 25 8", base=at(3, end=0))
    put("both_12_and_9", "refused 12", base=state(ONE_ADDED, stage=3), notes=b"", out=0)
    put("both_12_and_9_by_limit", "refused 12", base=at(0, sections=0), notes=b"", out=0)


def random_recorder_vectors(v):
    """States and times around every limit, drawn at random."""
    random = Random(2)

    def draw(*values):
        return values[random.randrange(len(values))]

    for i in range(60):
        first = draw(0, 1000, -1000, EARLIEST, LATEST - SPAN, LATEST)
        last = min(first + draw(0, 0, 1, 500, SPAN, SPAN, SPAN + 1), LATEST)
        frames = draw(0, 1, 2, 5, 999_999, 1_000_000)
        sections = draw(1, 1, 2, 2, 3, 8)
        end = draw(52, 1000, END_LIMIT - 16 * frames - draw(0, 16, 40, 44, 100))
        base = (draw(1, 1, 1, 1, 1, 2), 0, sections, frames, first, last, end)
        time = max(EARLIEST, min(LATEST, draw(first, last) + draw(-1, 0, 0, 1, 100, SPAN, SPAN + 1)))
        data = sized(*(bytes([65 + random.randrange(26)]) * random.randrange(4) for _ in range(sections)))
        notes = draw(4 + 16 * min(frames + 1, 4000), 200, 200)
        v.put(f"add_random_{i:02}", of_add(base, notes, draw(100, 16 + len(data), 15 + len(data)), time, i, data))


def whole_recordings(v):
    two = set_up((b"IMAGE", b"w2h1"), (b"META", b""))
    tags = table((b"CAMERA", b"ZWO"), (b"NONE", b""))
    eight = set_up(*((name, b"c" * i) for i, name in enumerate(EIGHT)))
    for name, set_up_list, system_table, frames in (
        ("no_frames", IMAGE, NO_TAGS, ()),
        ("worked", IMAGE, NO_TAGS, ONE_FRAME),
        ("two_frames", IMAGE, NO_TAGS, TWO_FRAMES),
        ("three_frames_equal_times", IMAGE, NO_TAGS, ((7, 1, b"a"), (7, 2, b""), (7, 3, b"bc"))),
        ("empty_sections", set_up((b"A", b""), (b"B", b"")), NO_TAGS, ((1, 2, b"", b""), (2, 2, b"", b""))),
        ("two_sections_configuration_and_tags", two, tags, ((-3, 9, b"ab", b"x"), (4, 9, b"", b"y"), (5, 9, b"cd", b""))),
        ("no_frames_configuration_and_tags", two, tags, ()),
        ("eight_sections", eight, NO_TAGS, ((1, 1, *(b"p" * i for i in range(8))), (2, 2, *(b"q" * (7 - i) for i in range(8))))),
        ("pixels_hold_marks", IMAGE, NO_TAGS, ((1, 1, MARK), (2, 1, b"x" + MARK * 2), (3, 1, MARK[:3]))),
        ("pixels_hold_ghost_frames", IMAGE, NO_TAGS, HAUNTED + ((1300, 1, GHOST * 2),)),
        ("pixels_are_a_whole_file", IMAGE, NO_TAGS, ((1, 1, WORKED), (2, 1, b""))),
        ("ghosts_in_configuration_and_tags", set_up((b"A", GHOST)), table((b"FSTF", b"FSTF")), ((1, 1, GHOST),)),
        ("pixels_are_an_index", IMAGE, NO_TAGS, ((1, 1, ONE_NOTE + bytes(4)), (1, 1, ONE_NOTE))),
        ("earliest", IMAGE, NO_TAGS, ((EARLIEST, 1, b"a"), (EARLIEST + SPAN, 2, b"b"))),
        ("latest", IMAGE, NO_TAGS, ((LATEST, 2**32 - 1, b"a"), (LATEST, 0, b"b"))),
        ("span_to_latest", IMAGE, NO_TAGS, ((LATEST - SPAN, 1, b"a"), (LATEST, 2, b"b"))),
        ("across_zero", IMAGE, NO_TAGS, ((-1, 1, b"a"), (0, 2, b"b"), (SPAN - 1, 2, b"c"))),
        ("end_at_255", IMAGE, NO_TAGS, ((1, 1, b"z" * 183),)),
        ("end_at_256", IMAGE, NO_TAGS, ((1, 1, b"z" * 184),)),
        ("user_offset_at_256", IMAGE, NO_TAGS, ((1, 1, b"z" * 164),)),
        ("end_at_512", IMAGE, NO_TAGS, ((1, 1, b"z" * 440),)),
        ("end_at_600", IMAGE, NO_TAGS, ((1, 1, b"z" * 264), (2, 1, b"y" * 244))),
        ("ten_frames", set_up((b"A", b"")), table((b"T", b"v")), tuple((10 * i, i, b"%d" % i) for i in range(10))),
        ("forty_frames", set_up((b"A", b"")), NO_TAGS, tuple((i * i, i, b"") for i in range(40))),
        ("name_of_255", set_up((b"n" * 255, b"c")), NO_TAGS, ((0, 0, b"a"),)),
        ("tags_of_255", IMAGE, table((b"n" * 255, b"v" * 255), (b"~", b" ")), ((0, 0, b"a"),)),
    ):
        v.put(f"whole_{name}", of_whole(set_up_list, system_table, frames), "whole")
    random = Random(3)
    for i in range(8):
        sections = 1 + random.randrange(3)
        pairs = [(b"S%d" % k, bytes(random.randrange(256) for _ in range(random.randrange(5)))) for k in range(sections)]
        tags = [(b"T%d" % k, b"v" * random.randrange(4)) for k in range(random.randrange(3))]
        time, frames = random.randrange(-1000, 1000), []
        for _ in range(random.randrange(6)):
            time += random.randrange(3) * 500
            exposure = random.randrange(2**32)
            frames.append((time, exposure, *(MARK * random.randrange(2) + b"." * random.randrange(9) for _ in range(sections))))
        v.put(f"whole_random_{i}", of_whole(set_up(*pairs), table(*tags), frames), "whole")


# ---- (2) repair ----


def unclosed(frames=ONE_FRAME, **other):
    """A recording before closing."""
    return build(frames=frames, count=0, index=b"", user_table=b"", index_offset=0, user_offset=0, **other)


def repair_vectors(v):
    def put(name, file, expected, room=200):
        v.put("repair_" + name, of_repair(room, file), expected)

    one = unclosed()
    kept_one = "repaired kept 74 count 1 index 74 user 94 tail 24"
    kept_none = "repaired kept 52 count 0 index 52 user 56 tail 8"
    put("p8_cut_at_73", one[:73], kept_none)
    put("p9_cut_at_74", one, kept_one)
    put("p10_cut_at_51", one[:51], "refused 4 place 48")
    for n in (0, 4, 33, 34, 47, 48, 50, 52, 53, 56, 68, 71, 72):
        put(f"cut_at_{n:02}", one[:n], refused(Refusal(*answer_of_cut(n))) if n < 52 else kept_none)
    # Files that open.
    put("worked_opens", WORKED, "refused 16")
    put("worked_opens_no_room", WORKED, "refused 16", room=0)
    put("rich_opens", RICH, "refused 16")
    put("no_frames_opens", build(frames=()), "refused 16")
    put("haunted_opens", build(frames=HAUNTED), "refused 16")
    put("tags_1000_opens", build(user=many_tags(1000)), "refused 16")
    # Garbage.
    put("garbage_empty", b"", "refused 1")
    put("garbage_zeros", bytes(100), "refused 1")
    put("garbage_ff", b"\xff" * 100, "refused 1")
    put("garbage_magic_only", b"FSTF" + bytes(96), "refused 2")
    put("garbage_magic_and_revision", b"FSTF\x01" + bytes(95), "refused 3 place 33")
    put("magic_wrong", changed(one, 0, b"G"), "refused 1")
    put("revision_2", changed(one, 4, b"\x02"), "refused 2")
    put("no_sections", changed(one, 33, b"\x00"), "refused 3 place 33")
    put("nine_sections", changed(one, 33, b"\x09"), "refused 3 place 33")
    put("name_bad", changed(one, 35, b"-"), "refused 3 place 35")
    put("configuration_offset_47", changed(one, 40, u64(47)), "refused 3 place 40")
    put("configuration_offset_top", changed(one, 40, u64(TOP)), "refused 3 place 40")
    for name, wrong in (("0", 0), ("47", 47), ("49", 49), ("52", 52), ("75", 75), ("top", TOP), ("2_to_32_over", 2**32 + 48)):
        place = wrong if 48 <= wrong <= 48 + 65_535 else 17
        put(f"system_offset_{name}", changed(one, 17, u64(wrong)), f"refused 4 place {place}")
    put("system_tags_1001", unclosed(system_table=table(*many_tags(1001))), "refused 4 place 48")
    put("system_tags_1000", unclosed(system=many_tags(1000)), "repaired kept 4074 count 1")
    put("system_names_equal", unclosed(system=((b"A", b""), (b"A", b""))), "refused 4 place 55")
    put("both_4_and_13", changed(unclosed(frames=((5, 0, b""), (4, 0, b""))), 17, u64(0)), "refused 4 place 17")
    # The header's three fields are not trusted.
    for name, at, field in (
        ("count_1", 5, u32(1)),
        ("count_top", 5, u32(2**32 - 1)),
        ("count_1000001", 5, u32(1_000_001)),
        ("index_offset_52", 9, u64(52)),
        ("index_offset_74", 9, u64(74)),
        ("index_offset_1", 9, u64(1)),
        ("index_offset_top", 9, u64(TOP)),
        ("user_offset_94", 25, u64(94)),
        ("user_offset_74", 25, u64(74)),
        ("user_offset_top", 25, u64(TOP)),
    ):
        put(f"unclosed_with_{name}", changed(one, at, field), kept_one)
    for name, at, field in (
        ("count_0", 5, u32(0)),
        ("count_2", 5, u32(2)),
        ("index_offset_0", 9, u64(0)),
        ("index_offset_75", 9, u64(75)),
        ("index_offset_top", 9, u64(TOP)),
        ("user_offset_0", 25, u64(0)),
        ("user_offset_74", 25, u64(74)),
        ("user_offset_top", 25, u64(TOP)),
        ("index_byte_wrong", 80, b"\x01"),
        ("index_number_wrong", 74, u32(1_000_000)),
        ("user_table_wrong", 94, u32(1)),
    ):
        put(f"closed_with_{name}", changed(WORKED, at, field), kept_one)
    for n in range(75, 98):
        put(f"closed_cut_at_{n}", WORKED[:n], kept_one)
    put("closed_and_a_byte_behind", WORKED + b"\0", kept_one)
    put("closed_with_user_tags_cut", build(user=((b"SITE", b"Krk"),))[:-1], kept_one)
    put("closed_with_a_frame_behind", WORKED + GHOST, kept_one)
    # Each step of the closing, as it reached the card.
    pieces = recorded_pieces(IMAGE, NO_TAGS, [(t, e, sized(s)) for t, e, s in ((1000, 40, b"a" * 150), (1500, 41, b"b" * 150))])
    total = sum(len(data) for _, data in pieces)
    end, tail = 52 + 2 * 170, 36 + 4
    for m in (end - 1, end, end + 1, end + 35, end + 36, end + 39, end + tail):
        put(f"closing_after_byte_{m}", stored(pieces, m), "repaired kept 222 count 1" if m < end else f"repaired kept {end} count 2")
    for back in range(20, -1, -1):
        whole = back <= 6  # index offset 0x0188: its two low bytes are stored first
        put(f"closing_{back:02}_bytes_missing", stored(pieces, total - back), "refused 16" if whole else f"repaired kept {end} count 2")
    # Frames that the walk does not take.
    for at in range(4):
        put(f"mark_byte_{at}_wrong", changed(one, 52 + at, bytes([one[52 + at] ^ 1])), kept_none)
    for size in (3, 16_777_216, 16_777_217, 2**32 - 1):
        put(f"size_{size}_for_2", changed(one, 68, u32(size)), kept_none)
    put("size_1_for_2", changed(one, 68, u32(1)), "repaired kept 73 count 1 index 73 user 93 tail 24")
    put("size_0_for_2", changed(one, 68, u32(0)), "repaired kept 72 count 1")
    put("no_frame_but_garbage", unclosed(frames=()) + b"garbage", kept_none)
    put("frame_then_garbage", one + b"garbage", kept_one)
    put("frame_then_a_byte_then_frame", one + b"\0" + GHOST, kept_one)
    put("frame_then_frame_without_mark", one + GHOST[4:], kept_one)
    put("frame_then_half_mark", one + MARK[:2], kept_one)
    put("frame_then_zeros", one + bytes(60), kept_one)
    two_frames = unclosed(frames=TWO_FRAMES)
    for n in (74, 75, 78, 90, 94, 95, 96, 97):
        put(f"two_frames_cut_at_{n}", two_frames[:n], "repaired kept 97 count 2 index 97 user 133 tail 40" if n == 97 else kept_one)
    put("two_frames_first_mark_wrong", changed(two_frames, 52, b"\0"), kept_none)
    put("two_frames_first_size_reaches_the_end", changed(two_frames, 68, u32(25)), "repaired kept 97 count 1")
    put("two_frames_first_size_past_the_end", changed(two_frames, 68, u32(26)), kept_none)
    # Ghosts.
    haunted = unclosed(frames=HAUNTED)
    ghost_end = 72 + 6 + len(GHOST)
    put("ghosts_whole", haunted, f"repaired kept {ghost_end + 22} count 2")
    put("ghosts_second_frame_cut", haunted[:-1], f"repaired kept {ghost_end} count 1")
    put("ghosts_first_frame_cut", haunted[: ghost_end - 1], kept_none)
    put("ghost_is_all_that_is_whole", unclosed(frames=((1, 1, GHOST + b"xx"),))[:-1], kept_none)
    # Times.
    for name, times, wanted in (
        ("equal", (5, 5), "repaired"),
        ("falling", (5, 4), "refused 13"),
        ("falling_third", (5, 6, 5), "refused 13"),
        ("falling_then_rising", (5, 4, 9), "refused 13"),
        ("span_at_limit", (-9, SPAN - 9), "repaired"),
        ("span_over_limit", (-9, SPAN - 8), "refused 13"),
        ("span_over_limit_from_first_only", (0, 10, SPAN + 1), "refused 13"),
        ("broken_in_the_last_of_five", (1, 2, 3, 4, 3), "refused 13"),
        ("earliest_then_latest", (EARLIEST, LATEST), "refused 13"),
        ("latest_then_earliest", (LATEST, EARLIEST), "refused 13"),
        ("minus_1_then_latest", (-1, LATEST), "refused 13"),
        ("earliest_twice", (EARLIEST, EARLIEST), "repaired"),
        ("latest_twice", (LATEST, LATEST), "repaired"),
        ("one_earliest", (EARLIEST,), "repaired"),
        ("one_latest", (LATEST,), "repaired"),
    ):
        put(f"times_{name}", unclosed(frames=tuple((t, 0, b"x") for t in times)), wanted)
    put("times_falling_in_closed_file", build(frames=((5, 0, b""), (4, 0, b""))), "refused 13")
    put("times_falling_in_a_cut_frame", unclosed(frames=((5, 0, b""), (4, 0, b"ab")))[:-1], "repaired kept 72 count 1")
    put("times_falling_and_no_room", unclosed(frames=((5, 0, b""), (4, 0, b""))), "refused 13", room=0)
    # Room.
    put("room_exact", one, kept_one, room=24)
    put("room_one_short", one, "refused 9", room=23)
    put("room_none", one, "refused 9", room=0)
    put("no_frame_room_exact", one[:73], kept_none, room=8)
    put("no_frame_room_one_short", one[:73], "refused 9", room=7)
    put("two_frames_room_exact", two_frames, "repaired kept 97", room=40)
    put("two_frames_room_one_short", two_frames, "refused 9", room=39)
    put("both_4_and_9", one[:51], "refused 4 place 48", room=0)
    many = unclosed(frames=tuple((i, i, b"") for i in range(1800)))
    put("frames_1800_room_exact", many, "repaired kept 36052 count 1800", room=28_808)
    put("frames_1800_room_one_short", many, "refused 9", room=28_807)
    # More than one section, configurations, tags.
    sections = ((b"A", b"x"), (b"B", b""), (b"a", b"yz"))
    rich = unclosed(frames=((1, 2, b"ab", b"", b"c"), (3, 4, b"", b"d", b"")), sections=sections, system=((b"T", b"v"),))
    put("rich_whole", rich, f"repaired kept {len(rich)} count 2")
    put("rich_one_byte_short", rich[:-1], f"repaired kept {len(rich) - 29} count 1")
    put("rich_last_section_size_cut", rich[:-3], f"repaired kept {len(rich) - 29} count 1")
    put("rich_no_frame", rich[: len(rich) - 29 - 31], "repaired kept")
    put("rich_in_system_table", rich[: len(rich) - 29 - 31 - 1], f"refused 4 place {len(rich) - 29 - 31 - 1}")


def random_repairs(v):
    """Recordings cut and changed at random."""
    random = Random(4)
    for i in range(60):
        times = sorted(random.randrange(50) for _ in range(random.randrange(5)))
        frames = tuple((t, random.randrange(99), MARK[: random.randrange(5)] + GHOST * random.randrange(2)) for t in times)
        file = bytearray((build if random.randrange(2) else unclosed)(frames=frames))
        for _ in range(random.randrange(3)):
            file[random.randrange(len(file)) if random.randrange(3) else 5 + random.randrange(28)] ^= 1 << random.randrange(8)
        cut = random.randrange(2) * random.randrange(60)
        v.put(f"repair_random_{i:02}", of_repair(8 + 16 * random.randrange(8), bytes(file[: max(0, len(file) - cut)])))


# ---- (3) saving tags ----

TAGS = ((b"SITE", b"Krk"), (b"OBS", b"Ana"), (b"NOTE", b""), (b"FILTER", b"R"))

# Changes that agree with those tags, and one that conflicts, by its kind.
AGREE = ((b"OBS", b"Ana", b"Eva"), (b"FREE", ABSENT, b"f"), (b"NOTE", b"", ABSENT), (b"FILTER", b"R", ABSENT))
WRONG = {
    "present_seen_absent": (b"SITE", ABSENT, b"x"),
    "absent_seen_value": (b"X", b"Krk", b"x"),
    "absent_seen_empty": (b"X", b"", b"x"),
    "other_value": (b"SITE", b"Hvar", b"x"),
    "value_seen_empty": (b"SITE", b"", b"x"),
    "prefix_of_the_value": (b"SITE", b"Kr", ABSENT),
    "longer_than_the_value": (b"SITE", b"Krk!", ABSENT),
    "case_of_the_value": (b"SITE", b"krk", ABSENT),
    "case_of_the_name": (b"site", b"Krk", ABSENT),
}


def malformed_sheets():
    """Sheets that no release took: name, place of the first fault, bytes."""
    yield "no_bytes", 0, b""
    yield "empty_and_a_byte_behind", 1, b"\x00\x00"
    yield "one_claimed_none_there", 1, b"\x01"
    yield "changes_65_claimed", 0, b"\x41" + P11_SHEET[1:]
    yield "changes_65", 0, sheet(*((b"T%d" % i, ABSENT, b"") for i in range(65)))
    yield "changes_255", 0, sheet(*((b"T%d" % i, ABSENT, ABSENT) for i in range(255)))
    yield "one_byte_left_over", 10, P11_SHEET + b"\0"
    yield "second_change_not_claimed", 10, P11_SHEET + change(b"B", ABSENT, b"x")
    yield "second_change_missing", 10, b"\x02" + P11_SHEET[1:]
    yield "seen_kind_3", 3, b"\x01\x01A\x03\x00"
    yield "seen_kind_3_with_value", 3, b"\x01\x01A\x03\x01x\x00"
    yield "seen_kind_255", 3, b"\x01\x01A\xff\x00"
    yield "new_kind_2", 4, b"\x01\x01A\x00\x02"
    yield "new_kind_3", 4, b"\x01\x01A\x00\x03"
    yield "new_kind_3_with_value", 4, b"\x01\x01A\x00\x03\x01x"
    yield "new_kind_255", 4, b"\x01\x01A\x00\xff"
    yield "name_empty", 1, sheet((b"", ABSENT, b"x"))
    yield "name_empty_second", 7, sheet((b"A", ABSENT, b"x"), (b"", ABSENT, ABSENT))
    yield "name_twice", 7, sheet((b"A", ABSENT, b"x"), (b"A", ABSENT, b"x"))
    yield "name_twice_first_and_third", 20, sheet((b"SITE", b"Krk", b"x"), (b"A", ABSENT, b"x"), (b"SITE", b"Krk", ABSENT))
    yield "name_twice_of_64", 432, sheet(*((b"T%d" % (i % 63), ABSENT, b"") for i in range(64)))
    yield "values_in_the_other_order", 8, b"\x01\x04SITE\x01\x01\x03Krk\x01A"
    yield "name_length_past_the_end", 3, b"\x01\xffA\x00\x00"
    yield "value_length_past_the_end", 7, b"\x01\x01A\x00\x01\xffx"


def commit_vectors(v):
    def put(name, changes, expected, room=300, user=TAGS, file=None):
        v.put("commit_" + name, of_commit(room, changes, build(user=user) if file is None else file), expected)

    def place(number):
        return f"refused 11 place {number}"

    put("p11", P11_SHEET, "committed 11", file=WORKED)
    put("p12", P11_SHEET, place(0), file=WORKED[:94] + P11_TABLE)
    put("p11_room_exact", P11_SHEET, "committed 11", file=WORKED, room=11)
    put("p11_room_one_short", P11_SHEET, "refused 9", file=WORKED, room=10)
    put("p11_no_room", P11_SHEET, "refused 9", file=WORKED, room=0)
    size = len(table(*TAGS))
    put("empty_sheet_empty_table", sheet(), "committed 4", user=())
    put("empty_sheet", sheet(), f"committed {size}")
    put("empty_sheet_room_exact", sheet(), f"committed {size}", room=size)
    put("empty_sheet_room_one_short", sheet(), "refused 9", room=size - 1)
    put("empty_sheet_1000_tags", sheet(), "committed 4004", user=many_tags(1000), room=4004)
    put("empty_sheet_haunted_file", sheet(), "committed 4", file=build(frames=HAUNTED))
    # Malformed sheets.
    for name, where, data in malformed_sheets():
        put(f"sheet_{name}", data, f"refused 10 place {where}")
    for byte in (0, 31, 127, 128, 255):
        put(f"sheet_name_byte_{byte:03}", sheet((b"A" + bytes([byte]), ABSENT, b"x")), "refused 10 place 3")
        put(f"sheet_new_byte_{byte:03}", sheet((b"A", ABSENT, b"x" + bytes([byte]))), "refused 10 place 7")
        put(f"sheet_seen_byte_{byte:03}", sheet((b"A", b"x" + bytes([byte]), ABSENT)), "refused 10 place 6")
    full = sheet((b"SITE", b"Krk", b"Hvar"), (b"NEW", ABSENT, b"n"))
    for n in range(1, len(full)):
        put(f"sheet_cut_to_{n:02}", full[:n], f"refused 10 place {n}")
    put("sheet_not_cut", full, "committed")
    put("bytes_032_and_126", sheet((b" ~", ABSENT, b"~ "), (b"~", ABSENT, b" ")), "committed")
    put("value_empty_new", sheet((b"X", ABSENT, b"")), f"committed {size + 3}")
    put("value_empty_for_a_value", sheet((b"SITE", b"Krk", b"")), f"committed {size - 3}")
    put("value_empty_seen", sheet((b"NOTE", b"", b"now")), f"committed {size + 3}")
    put("changes_64", sheet(*((b"T%02d" % i, ABSENT, b"%d" % i) for i in range(64))), "committed", room=900)
    put("name_and_value_of_255", sheet((b"n" * 255, ABSENT, b"v" * 255)), f"committed {size + 512}", room=900)
    # Removal, change, addition.
    put("remove_first", sheet((b"SITE", b"Krk", ABSENT)), f"committed {size - 9}")
    put("remove_middle", sheet((b"OBS", b"Ana", ABSENT)), f"committed {size - 8}")
    put("remove_last", sheet((b"FILTER", b"R", ABSENT)), f"committed {size - 9}")
    put("remove_all", sheet(*((name, value, ABSENT) for name, value in TAGS)), "committed 4")
    put("remove_all_in_other_order", sheet(*((name, value, ABSENT) for name, value in TAGS[::-1])), "committed 4", room=4)
    put("remove_unseen", sheet((b"OBS", UNSEEN, ABSENT)), "refused 10 place 5")
    put("remove_the_only_tag", sheet((b"A", b"b", ABSENT)), "committed 4", user=((b"A", b"b"),))
    put("absent_stays_absent", sheet((b"X", ABSENT, ABSENT)), f"committed {size}")
    put("absent_stays_absent_unseen", sheet((b"X", UNSEEN, ABSENT)), "refused 10 place 3")
    put("absent_stays_absent_empty_table", sheet((b"X", ABSENT, ABSENT)), "committed 4", user=())
    put("change_first", sheet((b"SITE", b"Krk", b"Hvar")), f"committed {size + 1}")
    put("change_middle", sheet((b"OBS", b"Ana", b"Eva!")), f"committed {size + 1}")
    put("change_middle_unseen", sheet((b"OBS", UNSEEN, b"Eva!")), "refused 10 place 5")
    put("change_last", sheet((b"FILTER", b"R", b"G")), f"committed {size}")
    put("change_to_the_same", sheet((b"SITE", b"Krk", b"Krk")), f"committed {size}")
    put("change_all_in_other_order", sheet(*((n, val, val + b"+") for n, val in TAGS[::-1])), f"committed {size + 4}")
    put("add_one", sheet((b"X", ABSENT, b"y")), f"committed {size + 4}")
    put("add_one_unseen", sheet((b"X", UNSEEN, b"y")), "refused 10 place 3")
    put("add_three_in_sheet_order", sheet((b"Z", ABSENT, b"1"), (b"A", ABSENT, b"2"), (b"M", ABSENT, b"3")), f"committed {size + 12}")
    put("add_differs_by_case", sheet((b"site", ABSENT, b"y")), f"committed {size + 7}")
    put("add_prefix_of_a_name", sheet((b"SIT", ABSENT, b"y")), f"committed {size + 6}")
    put("add_longer_than_a_name", sheet((b"SITES", ABSENT, b"y")), f"committed {size + 8}")
    put("add_name_of_the_system_table", sheet((b"CAM", ABSENT, b"y")), "committed 10", file=build(system=((b"CAM", b"x"),)))
    put("seen_value_of_the_system_table", sheet((b"CAM", b"x", b"y")), place(0), file=build(system=((b"CAM", b"x"),)))
    put("add_before_change_in_the_sheet", sheet((b"X", ABSENT, b"y"), (b"SITE", b"Krk", b"S")), "committed")
    mixed = ((b"NEW2", ABSENT, b"2"), (b"OBS", b"Ana", ABSENT), (b"FILTER", b"R", b"Ha"))
    mixed += ((b"NEW1", ABSENT, b"1"), (b"GONE", ABSENT, ABSENT))
    put("mixed", sheet(*mixed), f"committed {size - 8 + 1 + 14}")
    put("mixed_room_exact", sheet(*mixed), f"committed {size + 7}", room=size + 7)
    put("mixed_room_one_short", sheet(*mixed), "refused 9", room=size + 6)
    put("mixed_in_other_order", sheet(*mixed[::-1]), f"committed {size + 7}")
    put("shorter_room_exact", sheet((b"SITE", b"Krk", ABSENT)), "committed", room=size - 9)
    put("shorter_room_one_short", sheet((b"SITE", b"Krk", ABSENT)), "refused 9", room=size - 10)
    # Conflicts of each kind, at each place behind places that agree.
    for kind, one in WRONG.items():
        for at in range(5) if kind in ("present_seen_absent", "absent_seen_value", "other_value") else (0, 3):
            put(f"conflict_{kind}_at_{at}", sheet(*AGREE[:at], one, *AGREE[at:]), place(at))
    put("conflict_empty_seen_absent", sheet((b"NOTE", ABSENT, b"x")), place(0))
    put("conflict_empty_seen_value", sheet((b"NOTE", b"x", b"x")), place(0))
    put("conflict_that_asks_for_what_is", sheet((b"SITE", b"Hvar", b"Krk")), place(0))
    put("conflict_two_the_lower_told", sheet(AGREE[0], (b"SITE", ABSENT, b"x"), (b"X", b"y", b"z")), place(1))
    put("conflict_two_first_and_last", sheet((b"X", b"y", b"z"), *AGREE, (b"SITE", ABSENT, b"x")), place(0))
    put("conflict_all", sheet(*((name, b"?", b"!") for name, _ in TAGS)), place(0))
    put("conflict_at_63_of_64", sheet(*((b"T%02d" % i, ABSENT, b"") for i in range(63)), (b"SITE", ABSENT, b"")), place(63), room=900)
    put("conflict_seen_what_the_sheet_adds", sheet((b"A", ABSENT, b"1"), (b"B", b"1", b"2")), place(1))
    # Two members with the same form open.
    form = build(user=TAGS)
    ana = sheet((b"OBS", b"Ana", b"Eva"), (b"NOTE", b"", b"clouds"))
    bob = sheet((b"SITE", b"Krk", b"Hvar"), (b"NOTE", b"", b"wind"))
    out = bytearray(300)
    length = model.commit(form, ana, out)
    after = form[: model.number_at(form, 25, 8)] + bytes(out[:length])
    put("two_members_first", ana, "committed", file=form)
    put("two_members_second_refused", bob, place(1), file=after)
    put("two_members_second_looks_again", sheet((b"SITE", b"Krk", b"Hvar"), (b"NOTE", b"clouds", b"wind")), "committed", file=after)
    put("two_members_first_again", ana, place(0), file=after)
    # A full table.
    full = many_tags(1000)
    put("full_and_one_more", sheet((b"new", ABSENT, b"")), "refused 17", user=full, room=6000)
    put("full_and_one_more_unseen", sheet((b"new", UNSEEN, b"")), "refused 10 place 5", user=full, room=6000)
    put("full_one_changed", sheet((full[0][0], b"", b"x")), "committed 4005", user=full, room=6000)
    put("full_one_out_one_in", sheet((full[5][0], b"", ABSENT), (b"new", ABSENT, b"")), "committed 4005", user=full, room=4005)
    put("full_one_in_one_out", sheet((b"new", ABSENT, b""), (full[5][0], b"", ABSENT)), "committed 4005", user=full, room=6000)
    one_for_two = sheet((full[5][0], b"", ABSENT), (b"new", ABSENT, b""), (b"too", ABSENT, b""))
    put("full_one_out_two_in", one_for_two, "refused 17", user=full, room=6000)
    put("full_absent_stays_absent", sheet((b"new", ABSENT, ABSENT)), "committed 4004", user=full, room=6000)
    put("full_one_out", sheet((full[999][0], b"", ABSENT)), "committed 4000", user=full, room=4000)
    put("of_999_one_more", sheet((b"new", ABSENT, b"")), "committed 4005", user=full[:999], room=4005)
    put("of_999_two_more", sheet((b"new", ABSENT, b""), (b"too", ABSENT, b"")), "refused 17", user=full[:999], room=6000)
    put("of_937_64_more", sheet(*((b"n%02d" % i, ABSENT, b"") for i in range(64))), "refused 17", user=full[:937], room=6000)
    put("of_936_64_more", sheet(*((b"n%02d" % i, ABSENT, b"") for i in range(64))), "committed", user=full[:936], room=6000)
    # Where two lines hold.
    put("both_10_and_11", sheet((b"SITE", ABSENT, b"x"), (b"A\x7f", ABSENT, b"x")), "refused 10 place 12")
    put("both_10_and_11_left_over", sheet((b"SITE", ABSENT, b"x")) + b"\0", "refused 10 place 10")
    put("both_10_and_9", P11_SHEET[:-1], "refused 10 place 9", room=0)
    put("both_11_and_17", sheet((b"new", ABSENT, b""), (full[0][0], b"x", b"y")), place(1), user=full, room=6000)
    put("both_11_and_9", P11_SHEET, place(0), room=0)
    put("both_17_and_9", sheet((b"new", ABSENT, b"")), "refused 17", user=full, room=0)
    for number, refusal, file in refused_files():
        put(f"file_refused_{number}", P11_SHEET, refusal, file=file)
    put("both_7_and_10", b"", f"refused 7 place {len(RICH) - 1}", file=RICH[:-1])
    put("both_5_and_10", b"\xff", "refused 5", file=changed(RICH, 25, u64(0)))
    put("both_7_and_9", P11_SHEET, f"refused 7 place {len(RICH) - 1}", file=RICH[:-1], room=0)
    put("unclosed", P11_SHEET, "refused 5", file=unclosed())


def look_vectors(v):
    def put(name, changes, expected, user=TAGS, file=None):
        v.put("look_" + name, of_look(changes, build(user=user) if file is None else file), expected)

    def shows(name, changes, *places, **other):
        """A look that is accepted, and the places that conflict."""
        put(name, sheet(*changes), f"looked {len(changes)} set {sum(1 << place for place in places)}", **other)

    put("p11", P11_SHEET, "looked 1 set 0", file=WORKED)
    put("p12", P11_SHEET, "looked 1 set 1", file=WORKED[:94] + P11_TABLE)
    shows("no_changes", ())
    shows("no_changes_empty_table", (), user=())
    # Changes that agree, whatever they ask for.
    shows("agree_all", AGREE)
    shows("agree_values", [(name, value, ABSENT) for name, value in TAGS])
    shows("agree_values_in_other_order", [(name, value, b"new") for name, value in TAGS[::-1]])
    shows("agree_absent", ((b"X", ABSENT, b"x"), (b"Y", ABSENT, ABSENT), (b"SIT", ABSENT, b""), (b"SITES", ABSENT, b"")))
    shows("agree_absent_empty_table", ((b"SITE", ABSENT, b"x"),), user=())
    # Conflicts of each kind, among changes that agree.
    for at, (kind, one) in enumerate(WRONG.items()):
        at %= 5
        shows(f"conflict_{kind}_at_{at}", (*AGREE[:at], one, *AGREE[at:]), at)
    shows("conflict_empty_seen_absent", ((b"NOTE", ABSENT, b"x"),), 0)
    shows("conflict_empty_seen_value", ((b"NOTE", b"x", b"x"),), 0)
    shows("conflict_that_asks_for_what_is", ((b"SITE", b"Hvar", b"Krk"), (b"X", b"x", ABSENT)), 0, 1)
    shows("conflict_seen_what_the_sheet_adds", ((b"A", ABSENT, b"1"), (b"B", b"1", b"2")), 1)
    shows("conflict_seen_value_of_the_system_table", ((b"CAM", b"x", b"y"),), 0, file=build(system=((b"CAM", b"x"),)))
    # Several at once.
    one, two, three = (b"SITE", ABSENT, b"x"), (b"X", b"y", b"z"), (b"Y", b"", ABSENT)
    shows("conflicts_0_2_5", (one, AGREE[0], two, *AGREE[1:3], three), 0, 2, 5)
    shows("conflicts_first_and_last", (two, *AGREE, one), 0, 5)
    shows("conflicts_side_by_side", (*AGREE[:2], one, two, three, *AGREE[2:]), 2, 3, 4)
    shows("conflicts_all", [(name, b"?", b"!") for name, _ in TAGS], 0, 1, 2, 3)
    # Sets as wide as they get.
    for name, places in {
        "none": (),
        "0_62_63": (0, 62, 63),
        "63": (63,),
        "31_32_33": (31, 32, 33),
        "every_other": range(1, 64, 2),
        "all_but_63": range(63),
        "all": range(64),
    }.items():
        shows(f"of_64_{name}", [(b"T%02d" % i, b"" if i in places else ABSENT, b"") for i in range(64)], *places)
    # Where a commit is refused behind 10, a look is not.
    full = many_tags(1000)
    shows("where_commit_is_17", ((b"new", ABSENT, b""),), user=full)
    shows("where_commit_is_11_ahead_of_17", ((b"new", ABSENT, b""), (full[999][0], b"x", b"y"), (full[0][0], b"", b"y")), 1, user=full)
    shows("where_commit_is_9", ((b"n" * 255, ABSENT, b"v" * 255),))
    # Refusals.
    for name, where, data in (
        ("no_bytes", 0, b""),
        ("empty_and_a_byte_behind", 1, b"\x00\x00"),
        ("changes_65", 0, sheet(*((b"T%d" % i, ABSENT, b"") for i in range(65)))),
        ("one_byte_left_over", 10, P11_SHEET + b"\0"),
        ("second_change_missing", 10, b"\x02" + P11_SHEET[1:]),
        ("seen_kind_3", 3, b"\x01\x01A\x03\x00"),
        ("name_twice", 7, sheet((b"A", ABSENT, b"x"), (b"A", ABSENT, b"x"))),
        ("unseen_all", 6, sheet((b"SITE", UNSEEN, b"x"), (b"NOTE", UNSEEN, ABSENT), (b"X", UNSEEN, b"x"), (b"Y", UNSEEN, ABSENT))),
        ("unseen_among_conflicts", 14, sheet(one, (b"OBS", UNSEEN, b"x"), (b"X", b"", b"x"), (b"Y", UNSEEN, b"x"))),
        ("name_bad_behind_a_conflict", 12, sheet(one, (b"A\x7f", ABSENT, b"x"))),
        ("left_over_behind_a_conflict", 10, sheet(one) + b"\0"),
    ):
        put(f"sheet_{name}", data, f"refused 10 place {where}")
    for number, refusal, file in refused_files():
        put(f"file_refused_{number}", P11_SHEET, refusal, file=file)
    put("both_7_and_10", b"", f"refused 7 place {len(RICH) - 1}", file=RICH[:-1])
    put("both_5_and_10", b"\xff", "refused 5", file=changed(RICH, 25, u64(0)))
    put("unclosed", P11_SHEET, "refused 5", file=unclosed())


def random_commits(v):
    """Small tables and sheets over the same few names, drawn at random; a look at every fourth."""
    random = Random(5)

    def draw(values):
        return values[random.randrange(len(values))]

    names, values = (b"A", b"B", b"a", b"AB", b"C"), (b"", b"x", b"y", b"xy")
    for i in range(80):
        user = {draw(names): draw(values) for _ in range(random.randrange(5))}
        changes = {}
        for _ in range(random.randrange(5)):
            name = draw(names)
            right = user.get(name, ABSENT)
            changes[name] = (name, draw((right, right, right, right, draw(values))), draw((ABSENT, draw(values), draw(values))))
        data = sheet(*changes.values())
        if random.randrange(8) == 0:
            data = data[: random.randrange(len(data) + 1)]
        file = build(frames=(), user=user.items())
        v.put(f"commit_random_{i:02}", of_commit(random.randrange(12, 40), data, file))
        if i % 4 == 0:
            v.put(f"look_random_{i:02}", of_look(data, file))


# ---- (3) old sheets ----

# Three changes that say what was seen.
SEEN = ((b"SITE", b"Krk", b"x"), (b"NEW", ABSENT, b"n"), (b"OBS", b"Ana", ABSENT))  # the seen kinds at 6, 18 and 26


def nobody_looked(changes, *places):
    """The changes with "nobody looked" at these places, or at all."""
    return [(name, UNSEEN, new) if at in places or not places else (name, seen, new) for at, (name, seen, new) in enumerate(changes)]


def unseen_sheets():
    """Sheets with seen kind 2: name, bytes, the place of refusal 10, and the converter's place of it, None where it takes the sheet."""
    for at, place in enumerate((6, 18, 26)):
        yield f"{('first', 'middle', 'last')[at]}_of_three", sheet(*nobody_looked(SEEN, at)), place, None
    yield "last_of_64", sheet(*((b"T%02d" % i, UNSEEN if i == 63 else ABSENT, ABSENT) for i in range(64))), 383, None
    yield "behind_a_conflict", sheet((b"SITE", ABSENT, b"x"), (b"OBS", UNSEEN, b"x")), 14, None
    # A fault behind the kind is told by the converter alone.
    yield "ahead_of_the_end", bytes.fromhex("01 01 41 02"), 3, 4
    yield "with_a_value_behind_it", bytes.fromhex("01 01 41 02 01 78 00"), 3, 6
    yield "ahead_of_new_kind_2", bytes.fromhex("01 01 41 02 02"), 3, 4
    yield "ahead_of_seen_kind_3", bytes.fromhex("02 01 41 02 00 01 42 03 00"), 3, 7
    yield "ahead_of_a_bad_name", sheet((b"A", UNSEEN, ABSENT), (b"B\x7f", ABSENT, b"x")), 3, 7
    yield "ahead_of_its_name_again", sheet((b"A", UNSEEN, ABSENT), (b"A", UNSEEN, ABSENT)), 3, 5
    yield "ahead_of_one_left_over", sheet((b"A", UNSEEN, ABSENT)) + b"\0", 3, 5
    # A fault ahead of it is told by all three.
    yield "behind_a_bad_name", sheet((b"A\x7f", UNSEEN, b"x")), 3, 3
    yield "behind_a_name_used_twice", sheet((b"A", ABSENT, ABSENT), (b"A", UNSEEN, ABSENT)), 5, 5
    yield "behind_seen_kind_3", bytes.fromhex("02 01 41 03 00 01 42 02 00"), 3, 3
    yield "behind_65_changes_claimed", bytes.fromhex("41 01 41 02 00"), 0, 0


def unseen_vectors(v):
    file = build(user=TAGS)
    for name, data, place, converters in unseen_sheets():
        v.put("commit_unseen_" + name, of_commit(300, data, file), f"refused 10 place {place}")
        v.put("look_unseen_" + name, of_look(data, file), f"refused 10 place {place}")
        if converters is not None:
            v.put("convert_unseen_" + name, of_convert(300, data, file), f"refused 10 place {converters}")
    v.put("commit_unseen_no_room", of_commit(0, sheet(*nobody_looked(SEEN)), file), "refused 10 place 6")
    v.put("commit_unseen_file_refused_7", of_commit(300, sheet(*nobody_looked(SEEN)), file[:-1]), f"refused 7 place {len(file) - 1}")
    v.put("look_unseen_file_refused_7", of_look(sheet(*nobody_looked(SEEN)), file[:-1]), f"refused 7 place {len(file) - 1}")


def convert_vectors(v):
    def put(name, data, expected, room=300, user=TAGS, file=None, new=b""):
        """`new` is what is written; behind it the room stays as it was."""
        out = new + lent(room)[len(new) :]
        file = build(user=user) if file is None else file
        v.put("convert_" + name, of_convert(room, data, file), f"{expected} out {hex_check(out)}")

    def gives(name, old, new, **other):
        """The changes of an old sheet, and those that they become."""
        new = sheet(*new)
        put(name, sheet(*old), f"converted {len(new)}", new=new, **other)

    def keeps(name, changes, **other):
        gives(name, changes, changes, **other)

    def fills(name, changes, *places, **other):
        """A sheet that becomes these changes, where it has "nobody looked" at these places, or at all."""
        gives(name, nobody_looked(changes, *places), changes, **other)

    # What a sheet says was seen stays as it is, right or wrong.
    keeps("no_changes", ())
    keeps("no_changes_empty_table", (), user=())
    keeps("p11", ((b"SITE", ABSENT, b"A"),), file=WORKED)
    keeps("p12_conflict", ((b"SITE", ABSENT, b"A"),), file=WORKED[:94] + P11_TABLE)
    keeps("agree", AGREE)
    keeps("conflict_all", [(name, b"?", b"!") for name, _ in TAGS])
    for kind in ("present_seen_absent", "absent_seen_value", "other_value"):
        fills(f"conflict_{kind}", (AGREE[0], WRONG[kind], AGREE[3]), 0, 2)
    largest = [(b"n" * 253 + b"%02d" % i, b"s" * 255, b"v" * 255) for i in range(64)]
    keeps("largest", largest, user=(), room=49_281)
    # Each thing that the table may have.
    fills("absent", ((b"X", ABSENT, b"y"),))
    fills("absent_stays_absent", ((b"X", ABSENT, ABSENT),))
    fills("absent_empty_table", ((b"SITE", ABSENT, b"y"),), user=())
    fills("present", ((b"SITE", b"Krk", b"x"),))
    fills("present_new_is_the_same", ((b"SITE", b"Krk", b"Krk"),))
    fills("present_removed", ((b"OBS", b"Ana", ABSENT),))
    fills("empty_value", ((b"NOTE", b"", b"now"),))
    fills("empty_value_removed", ((b"NOTE", b"", ABSENT),))
    fills("name_and_value_of_255", ((b"n" * 255, b"v" * 255, b"w" * 255),), user=((b"n" * 255, b"v" * 255),), room=771)
    fills("bytes_032_and_126", ((b" ~", b"~ ", b" "),), user=((b" ~", b"~ "),))
    # Each place, and the order of the sheet.
    for at, place in enumerate(("first", "middle", "last")):
        fills(f"{place}_of_three", SEEN, at)
    fills("all_of_three", SEEN)
    fills("all_in_other_order", [(name, value, b"new") for name, value in TAGS[::-1]])
    mixed = ((b"NEW2", ABSENT, b"2"), (b"OBS", b"Ana", ABSENT), (b"FILTER", b"R", b"Ha"), (b"NEW1", ABSENT, b"1"), (b"GONE", ABSENT, ABSENT))
    fills("mixed", mixed, 2, 3)
    fills("mixed_in_other_order", mixed[::-1], 1, 2)
    many = [(b"T%02d" % i, b"%d" % (7 * i)) for i in range(64)]
    fills("of_64_absent", [(name, ABSENT, b"") for name, _ in many], user=(), room=449)
    fills("of_64_present", [(name, value, b"") for name, value in many], user=many[::-1], room=900)
    fills("of_64_every_other_present", [(name, ABSENT if i % 2 else value, ABSENT) for i, (name, value) in enumerate(many)], user=many[::2], room=900)
    fills("of_64_last", [(name, value, b"") for name, value in many], 63, user=many, room=900)
    longest = [(name, b"s" * 255) for name, _, _ in largest]
    fills("of_64_grown_by_16384", [(name, value, ABSENT) for name, value in longest], user=longest, room=32_897)
    # The name decides, all of it, and in the user table alone.
    fills("name_of_the_system_table", ((b"CAM", ABSENT, b"y"),), file=build(system=((b"CAM", b"x"),)))
    fills("name_of_both_tables", ((b"CAM", b"u", b"y"),), file=build(system=((b"CAM", b"s"),), user=((b"CAM", b"u"),)))
    fills("names_differ_by_case", ((b"site", ABSENT, b"x"), (b"SITE", b"Krk", b"x"), (b"Site", ABSENT, b"x")))
    prefixes = ((b"SITES", b"3"), (b"S", b"1"), (b"SITE", b"2"))
    fills("names_prefix_of_each_other", ((b"S", b"1", b""), (b"SI", ABSENT, b""), (b"SITE", b"2", b""), (b"SITES", b"3", b"")), user=prefixes)
    fills("name_is_a_value", ((b"Krk", ABSENT, b"x"), (b"R", ABSENT, b"x")))
    fills("haunted_file", ((b"SITE", b"Krk", b"x"),), file=build(frames=HAUNTED, user=TAGS))
    fills("rich_file", ((b"NOTE", b"", b"x"), (b"CAMERA", ABSENT, ABSENT), (b"SITE", b"Krk", ABSENT)), file=RICH)
    # 17 is not tested.
    full = many_tags(1000)
    fills("full_and_one_more", ((b"new", ABSENT, b""),), user=full)
    fills("full_last_tag", ((full[999][0], b"", ABSENT),), user=full)
    # Room.
    present, absent = ((b"SITE", b"Krk", b"x"),), ((b"X", ABSENT, b"y"),)  # 10 bytes become 14, and 7 stay 7
    fills("room_exact", present, room=14)
    put("room_one_short", sheet(*nobody_looked(present)), "refused 9", room=13)
    put("room_of_the_old_sheet", sheet(*nobody_looked(present)), "refused 9", room=10)
    put("no_room", sheet(*nobody_looked(present)), "refused 9", room=0)
    fills("room_exact_absent", absent, room=7)
    put("room_one_short_absent", sheet(*nobody_looked(absent)), "refused 9", room=6)
    keeps("room_exact_unchanged", AGREE, room=len(sheet(*AGREE)))
    put("room_one_short_unchanged", sheet(*AGREE), "refused 9", room=len(sheet(*AGREE)) - 1)
    keeps("no_changes_room_exact", (), room=1)
    put("no_changes_no_room", sheet(), "refused 9", room=0)
    # Malformed sheets.
    for name, where, data in malformed_sheets():
        put(f"sheet_{name}", data, f"refused 10 place {where}")
    for byte in (31, 127):
        put(f"sheet_name_byte_{byte:03}", sheet((b"A" + bytes([byte]), UNSEEN, b"x")), "refused 10 place 3")
        put(f"sheet_new_byte_{byte:03}", sheet((b"A", UNSEEN, b"x" + bytes([byte]))), "refused 10 place 7")
        put(f"sheet_seen_byte_{byte:03}", sheet((b"A", b"x" + bytes([byte]), ABSENT)), "refused 10 place 6")
    put("sheet_changes_65_unseen", sheet(*((b"T%d" % i, UNSEEN, b"") for i in range(65))), "refused 10 place 0")
    old = sheet((b"X", UNSEEN, b"y"), (b"N", b"a", ABSENT))
    for n in range(len(old)):
        put(f"sheet_cut_to_{n:02}", old[:n], f"refused 10 place {n}")
    fills("sheet_not_cut", ((b"X", ABSENT, b"y"), (b"N", b"a", ABSENT)), 0)
    # Files that do not open, and where two lines hold.
    for number, refusal, file in refused_files():
        put(f"file_refused_{number}", old, refusal, file=file)
    put("unclosed", old, "refused 5", file=unclosed())
    put("both_7_and_10", b"\x01\x01A\x03\x00", f"refused 7 place {len(RICH) - 1}", file=RICH[:-1])
    put("both_5_and_10", b"\xff", "refused 5", file=changed(RICH, 25, u64(0)))
    put("both_7_and_9", old, f"refused 7 place {len(RICH) - 1}", file=RICH[:-1], room=0)
    put("both_10_and_9", old[:-1], f"refused 10 place {len(old) - 1}", room=0)
    put("both_10_and_9_kind_3", b"\x02\x01A\x02\x00\x01B\x03\x00", "refused 10 place 7", room=3)


def drawn(random, values):
    return values[random.randrange(len(values))]


def draw_old_sheet(random, values):
    """A small table and the changes of an old sheet over the same few names: the tags, the changes, and what these become."""
    names = (b"A", b"B", b"a", b"AB", b"C")
    tags = {drawn(random, names): drawn(random, values) for _ in range(random.randrange(6))}
    old, new = {}, {}
    for _ in range(random.randrange(8)):
        name = drawn(random, names)
        right = tags.get(name, ABSENT)
        seen = drawn(random, (right, right, right, UNSEEN, UNSEEN, UNSEEN, UNSEEN, drawn(random, (ABSENT, *values))))
        after = drawn(random, (ABSENT, drawn(random, values), drawn(random, values)))
        old[name], new[name] = (name, seen, after), (name, right if seen == UNSEEN else seen, after)
    return tags, list(old.values()), list(new.values())


def broken(random, data):
    """The bytes with one fault put in, which now and then leaves them legal: cut, a byte changed, put in or taken out, one left over."""
    at, byte = random.randrange(len(data) + 1), bytes([drawn(random, VALUES)])
    turn = random.randrange(5)
    if turn == 0:
        return data[:at]
    if turn == 1:
        return data[:at] + byte + data[at + 1 :]
    if turn == 2:
        return data[:at] + byte + data[at:]
    if turn == 3:
        return data[:at] + data[at + 1 :]
    return data + byte


def random_conversions(v):
    """Small tables and old sheets, drawn at random, in rooms about the answer; some with a fault in the sheet, a few with one in the file."""
    random = Random(7)
    for i in range(60):
        tags, old, new = draw_old_sheet(random, (b"", b"x", b"y", b"xy"))
        file, data, wanted = build(frames=(), user=tags.items()), sheet(*old), sheet(*new)
        room = max(0, len(wanted) + drawn(random, (-2, -1, 0, 0, 1, 2, 3, 9, 20)))
        expected = f"converted {len(wanted)} out {hex_check(wanted + lent(room)[len(wanted) :])}" if room >= len(wanted) else "refused 9"
        if i % 5 == 4:
            data, expected = broken(random, data), ""
        if i % 15 == 7:
            file, expected = broken(random, file), ""
        v.put(f"convert_random_{i:02}", of_convert(room, data, file), expected)


# ---- (3) the browser, a tag by its name ----


def browser_vectors(v):
    def put(name, number, data, expected):
        v.put("browse_" + name, of_browse(number, data), expected)

    three = table(*TAGS[:3])
    put("0_of_3", 0, three, "tag name 5 4 value 10 3 next 1 walk 3")
    put("1_of_3", 1, three, "tag name 14 3 value 18 3 next 2")
    put("2_of_3", 2, three, "tag name 22 4 value 27 0 next 3")
    put("3_of_3", 3, three, "end next 3")
    put("4_of_3", 4, three, "end next 4")
    for name, number in BEYOND + (("2_to_32_and_1", 2**32 + 1), ("top_less_1", TOP - 1)):
        put(f"{name}_of_3", number, three, f"end next {number}")
        put(f"{name}_of_malformed", number, three[:-1], f"refused 7 place 26 next {number}")
    put("0_of_none", 0, table(), "end next 0 walk 0 cbf29ce484222325")
    put("1_of_none", 1, table(), "end next 1")
    put("top_of_none", TOP, table(), f"end next {TOP}")
    for number in (0, 1, 3, 4):
        put(f"{number}_one_byte_short", number, three[:-1], f"refused 7 place 26 next {number}")
        put(f"{number}_one_byte_long", number, three + b"\0", f"refused 7 place 27 next {number}")
    put("no_bytes", 0, b"", "refused 7 place 0 next 0 walk refused 7 place 0")
    put("three_zeros", 0, bytes(3), "refused 7 place 0 next 0")
    put("five_zeros", 0, bytes(5), "refused 7 place 4 next 0")
    for n in range(len(table(TAGS[0]))):
        put(f"table_cut_to_{n:02}", 0, table(TAGS[0])[:n], f"refused 7 place {n if n >= 4 else 0} next 0")
    put("one_tag_more_claimed", 0, u32(4) + three[4:], "refused 7 place 27 next 0")
    put("one_tag_fewer_claimed", 0, u32(2) + three[4:], "refused 7 place 21 next 0")
    for name, data, place in bad_tables():
        put(f"over_{name}", 0, data, f"refused 7 place {place} next 0 walk refused 7 place {place}")
    put("second_tag_bad_first_asked", 0, table((b"A", b"x"), (b"", b"")), "refused 7 place 8 next 0")
    for name, data, count in good_tables():
        put(f"last_of_{name}", count - 1, data, "tag name")
        put(f"end_of_{name}", count, data, f"end next {count}")
    for number in (0, 1, 500, 998, 1001):
        put(f"{number}_of_1000", number, table(*many_tags(1000)), "tag name" if number < 1000 else f"end next {number}")


def named_vectors(v):
    def put(name, tag, data, expected):
        v.put("named_" + name, of_named(tag, data), expected)

    four = table(*TAGS)
    put("first", b"SITE", four, "tag name 5 4 value 10 3")
    put("second", b"OBS", four, "tag name 14 3 value 18 3")
    put("empty_value", b"NOTE", four, "tag name 22 4 value 27 0")
    put("last", b"FILTER", four, "tag name 28 6 value 35 1")
    put("absent", b"X", four, "absent")
    put("empty_name", b"", four, "absent")
    put("empty_name_empty_table", b"", table(), "absent")
    put("in_empty_table", b"SITE", table(), "absent")
    put("prefix_of_a_name", b"SIT", four, "absent")
    put("longer_than_a_name", b"SITES", four, "absent")
    put("other_case", b"site", four, "absent")
    put("a_value_is_no_name", b"Krk", four, "absent")
    put("name_and_its_value", b"SITE\x03Krk", four, "absent")
    put("illegal_bytes", b"\x00\xff", four, "absent")
    nested = table((b"ABC", b"1"), (b"AB", b"2"), (b"A", b"3"), (b"ABCD", b"4"))
    for name in (b"A", b"AB", b"ABC", b"ABCD"):
        put(f"of_nested_{name.decode().lower()}", name, nested, "tag name")
    put("of_nested_bc", b"BC", nested, "absent")
    put("differ_by_case_small", b"a", table((b"A", b"1"), (b"a", b"2")), "tag name 9 1 value 11 1")
    put("differ_by_case_capital", b"A", table((b"A", b"1"), (b"a", b"2")), "tag name 5 1 value 7 1")
    put("value_equal_to_the_name_before", b"B", table((b"A", b"B"), (b"B", b"A")), "tag name 9 1 value 11 1")
    put("of_255_bytes", b"n" * 255, table((b"m" * 255, b""), (b"n" * 255, b"v" * 255)), "tag name 262 255 value 518 255")
    put("of_254_bytes", b"n" * 254, table((b"m" * 255, b""), (b"n" * 255, b"v" * 255)), "absent")
    put("one_space", b" ", table((b"  ", b""), (b" ", b"")), "tag name 9 1 value 11 0")
    put("last_of_1000", many_tags(1000)[999][0], table(*many_tags(1000)), "tag name")
    put("absent_in_1000", b"zz", table(*many_tags(1000)), "absent")
    put("over_no_bytes", b"A", b"", "refused 7 place 0")
    put("over_one_byte_short", b"SITE", four[:-1], "refused 7 place 35")
    put("over_one_byte_long", b"SITE", four + b"\0", "refused 7 place 36")
    put("empty_name_over_one_byte_long", b"", four + b"\0", "refused 7 place 36")
    put("found_before_a_malformed_tag", b"SITE", table(TAGS[0], (b"", b"")), "refused 7 place 13")
    put("the_empty_name_itself", b"", table((b"", b"x")), "refused 7 place 4")
    for name, data, place in bad_tables():
        put(f"over_{name}", b"SITE", data, f"refused 7 place {place} walk refused 7 place {place}")


# ---- (4) places ----

PAIR = build(named_sections(b"IMAGE", b"STATUS"), frames=())  # the names' bytes from 35 and 49, the offsets at 40 and 55, both 63
THREE = with_names(b"A", b"B", b"C")  # names at 34, 44 and 54, the offsets behind them at 36, 46 and 56, all 64


def places_of_definitions():
    """Files refused 3: name, file, place."""
    yield "first_offset_64", changed(PAIR, 40, u64(64)), 40
    yield "first_offset_62", changed(PAIR, 40, u64(62)), 40
    yield "first_offset_64_and_dash_at_52", changed(changed(PAIR, 40, u64(64)), 52, b"-"), 52
    yield "dash_at_52", changed(PAIR, 52, b"-"), 52
    yield "second_offset_62", changed(PAIR, 55, u64(62)), 55
    yield "both_offsets_64", changed(changed(PAIR, 40, u64(64)), 55, u64(64)), 40
    # What does not end the reading is told where it stands ahead of what does.
    falls = changed(THREE, 46, u64(63))
    yield "offset_falls_ahead_of_a_bad_name", changed(falls, 55, b"-"), 46
    yield "offset_falls_ahead_of_an_empty_name", changed(falls, 54, b"\x00"), 46
    yield "offset_falls_ahead_of_the_end_in_a_name", falls[:55], 46
    yield "offset_falls_ahead_of_the_end_in_an_offset", falls[:60], 46
    yield "offset_falls_behind_a_bad_name", changed(falls, 45, b"-"), 45
    yield "offset_falls_behind_a_name_used_twice", changed(falls, 45, b"A"), 44
    yield "offset_falls_ahead_of_a_name_used_twice", changed(falls, 55, b"B"), 46
    yield "offset_falls_in_the_section_whose_name_is_used_twice", changed(changed(THREE, 56, u64(63)), 55, b"A"), 54
    yield "name_used_twice_ahead_of_a_bad_name", changed(changed(THREE, 45, b"A"), 55, b"-"), 44
    yield "name_used_twice_behind_a_bad_name", changed(changed(THREE, 45, b"-"), 55, b"A"), 45
    yield "name_used_twice_ahead_of_the_end_in_its_offset", changed(THREE, 45, b"A")[:50], 44
    # What the first offset has to be is known at the end of the definitions only.
    wrong = changed(THREE, 36, u64(63))
    yield "first_offset_wrong_and_a_bad_name", changed(wrong, 55, b"-"), 55
    yield "first_offset_wrong_and_an_empty_name", changed(wrong, 44, b"\x00"), 44
    yield "first_offset_wrong_and_the_end_in_a_name", wrong[:55], 55
    yield "first_offset_wrong_and_the_end_in_an_offset", wrong[:60], 56
    yield "first_offset_65_and_the_end_in_an_offset", changed(THREE, 36, u64(65))[:60], 46  # behind 65 the second offset, 64, falls
    yield "first_offset_65_and_a_bad_name", changed(changed(THREE, 36, u64(65)), 55, b"-"), 46
    yield "first_offset_wrong_and_a_name_used_twice", changed(wrong, 45, b"A"), 36
    yield "first_offset_wrong_and_a_name_used_twice_and_a_bad_name", changed(changed(wrong, 45, b"A"), 55, b"-"), 44
    yield "first_offset_wrong_and_sections_9", changed(wrong, 33, b"\x09"), 33
    yield "names_abba", with_names(b"A", b"B", b"B", b"A"), 54
    yield "names_abab", with_names(b"A", b"B", b"A", b"B"), 54
    yield "names_abcc_and_a_bad_first", changed(with_names(b"A", b"B", b"C", b"C"), 35, b"_"), 35
    yield "offset_too_far_behind_one_that_falls", changed(falls, 56, u64(2**40)), 46
    yield "offset_too_far", changed(THREE, 56, u64(64 + 65_536)), 56


def places_of_tables():
    """Tables with faults of which the first is told, whatever follows the table: name, bytes, place."""
    yield "name_used_twice_and_its_value_bad", bytes.fromhex("02000000 01 41 00 01 41 01 07"), 7
    yield "names_abba", table((b"A", b""), (b"B", b""), (b"B", b""), (b"A", b"")), 10
    yield "names_abab", table((b"A", b""), (b"B", b""), (b"A", b""), (b"B", b"")), 10
    yield "value_bad_ahead_of_its_name_again", table((b"A", b"\x07"), (b"A", b"")), 7
    yield "value_bad_behind_a_name_used_twice", table((b"A", b""), (b"A", b""), (b"B", b"\x07")), 7
    yield "value_bad_ahead_of_a_name_used_twice", table((b"A", b""), (b"B", b"x\x07"), (b"A", b"")), 11
    yield "name_and_value_bad", table((b"\x07", b"\x07")), 5
    yield "name_empty_and_value_bad", table((b"", b"\x07")), 4
    yield "value_bad_ahead_of_a_bad_name", table((b"A", b"\x7f"), (b"\x1f", b"")), 7
    yield "name_bad_ahead_of_a_name_used_twice", table((b"A", b""), (b"B\x7f", b""), (b"A", b"")), 9
    yield "name_used_twice_ahead_of_a_bad_name", table((b"A", b""), (b"A", b""), (b"B\x7f", b"")), 7
    yield "two_bad_bytes_in_a_value", table((b"A", b"x\x00y\xff")), 8
    yield "two_bad_bytes_in_a_name", table((b"xy\x00\xff", b"")), 7
    yield "tags_1001_claimed_and_a_bad_name", u32(1001) + table((b"\x07", b""))[4:], 0


def places_at_an_end():
    """Tables that are lent alone, or end the file, and run out of bytes or have some left over: name, bytes, place."""
    yield "value_bad_ahead_of_the_end", u32(1) + b"\x01A\x05a\x07", 8
    yield "value_bad_at_the_first_byte_ahead_of_the_end", u32(1) + b"\x01A\xff\x07", 7
    yield "name_bad_ahead_of_the_end", u32(1) + b"\x05A\x07", 6
    yield "name_runs_out", u32(1) + b"\x05AB", 7
    yield "value_runs_out", u32(1) + b"\x01A\x05ab", 9
    yield "name_used_twice_and_no_value", u32(2) + b"\x01A\x00\x01A", 7
    yield "name_runs_out_that_begins_as_the_first", u32(2) + b"\x01A\x00\x02A", 9
    yield "no_second_tag", u32(2) + b"\x01A\x00", 7
    yield "count_of_three_bytes", b"\xff\xff\xff", 0
    yield "one_left_over", table((b"A", b"x")) + b"\x07", 8
    yield "one_tag_left_over", u32(1) + table((b"A", b"x"), (b"A", b"\x07"))[4:], 8
    yield "name_used_twice_and_one_left_over", table((b"A", b""), (b"A", b"")) + b"\0", 7
    yield "value_bad_and_one_left_over", table((b"A", b"\x07")) + b"\0", 7


def places_of_sheets():
    """Sheets refused 10: name, bytes, place."""
    yield "name_bad_ahead_of_the_end", bytes.fromhex("01 05 41 07"), 3
    yield "name_runs_out", bytes.fromhex("01 05 41 42"), 4
    yield "no_seen_kind", bytes.fromhex("01 01 41"), 3
    yield "no_new_kind", bytes.fromhex("01 01 41 00"), 4
    yield "no_new_kind_behind_a_value", bytes.fromhex("01 01 41 01 01 78"), 6
    yield "no_new_value", bytes.fromhex("01 01 41 00 01"), 5
    yield "new_value_runs_out", bytes.fromhex("01 01 41 00 01 05 61"), 7
    yield "new_value_bad_ahead_of_the_end", bytes.fromhex("01 01 41 00 01 05 61 07"), 7
    yield "seen_value_runs_out", bytes.fromhex("01 01 41 01 05 61"), 6
    yield "seen_value_bad_ahead_of_a_wrong_kind", bytes.fromhex("01 01 41 01 01 07 05"), 5
    yield "seen_kind_wrong_ahead_of_the_end", bytes.fromhex("01 01 41 03"), 3
    yield "new_kind_wrong_behind_a_value", bytes.fromhex("01 01 41 01 01 78 02"), 6
    yield "both_kinds_wrong", bytes.fromhex("01 01 41 03 02"), 3
    yield "name_empty_and_kinds_wrong", bytes.fromhex("01 00 03 03"), 1
    yield "names_abba", sheet(*((name, ABSENT, ABSENT) for name in (b"A", b"B", b"B", b"A"))), 9
    yield "name_used_twice_and_its_kind_wrong", bytes.fromhex("02 01 41 00 00 01 41 03 00"), 5
    yield "name_used_twice_and_no_kind", bytes.fromhex("02 01 41 00 00 01 41"), 5
    yield "kind_wrong_ahead_of_a_name_used_twice", bytes.fromhex("02 01 41 00 05 01 41 00 00"), 4
    yield "value_bad_ahead_of_a_name_used_twice", sheet((b"A", ABSENT, b"\x1f"), (b"A", ABSENT, b"")), 6
    yield "value_bad_behind_a_name_used_twice", sheet((b"A", ABSENT, b""), (b"A", ABSENT, b"\x1f")), 6
    yield "name_used_twice_and_one_left_over", sheet((b"A", ABSENT, b""), (b"A", ABSENT, b"")) + b"\0", 6
    yield "name_bad_and_changes_65_claimed", bytes.fromhex("41 01 07"), 0
    yield "one_left_over_behind_a_value", sheet((b"A", ABSENT, b"x")) + b"\x07", 7


def places_of_lists():
    """Set-up lists: name, bytes, number, place. 10 asks whether the bytes are all there and none left over, and nothing else."""
    yield "configuration_cut_short", bytes.fromhex("01 05 49 4D 41 47 45 05 00 61 62 63"), 10, 9
    yield "no_configuration", bytes.fromhex("01 01 41 05 00"), 10, 5
    yield "half_a_length", bytes.fromhex("01 01 41 05"), 10, 3
    yield "bad_character_ahead_of_the_end", bytes.fromhex("01 05 2D 41"), 10, 4
    yield "bad_character_and_all_there", bytes.fromhex("01 05 2D 41 42 43 44 00 00"), 3, 2
    yield "bad_character_last_and_all_there", bytes.fromhex("01 05 41 42 43 44 2D 00 00"), 3, 6
    yield "name_empty_ahead_of_the_end", bytes.fromhex("01 00"), 10, 2
    yield "name_empty_and_all_there", bytes.fromhex("01 00 00 00"), 3, 1
    yield "sections_9_and_the_end", bytes.fromhex("09 01 41 00 00"), 10, 5
    yield "sections_9_and_a_bad_character", set_up(*named_sections(*EIGHT, b"-")), 3, 0
    yield "sections_0_and_one_left_over", bytes.fromhex("00 07"), 10, 1
    yield "names_abba", set_up(*named_sections(b"A", b"B", b"B", b"A")), 3, 9
    yield "name_used_twice_ahead_of_a_bad_one", set_up(*named_sections(b"A", b"A", b"-")), 3, 5
    yield "name_used_twice_behind_a_bad_one", set_up(*named_sections(b"A", b"-", b"A")), 3, 6
    yield "name_used_twice_and_one_left_over", set_up(*named_sections(b"A", b"A")) + b"\0", 10, 9
    yield "name_used_twice_and_the_end", set_up(*named_sections(b"A", b"A"))[:-1], 10, 7
    yield "name_used_twice_behind_configurations", set_up((b"A", b"-xy"), (b"A", b"")), 3, 8
    yield "bad_character_in_a_configuration_alone", set_up((b"A", b"-\x00\xff")), 0, None


def place_vectors(v):
    v.open("place_pair", PAIR, 0)
    v.open("place_three", THREE, 0)
    for name, file, place in places_of_definitions():
        v.open("place_3_" + name, file, 3, place)
        v.put("repair_place_3_" + name, of_repair(200, file), f"refused 3 place {place}")
    v.open("place_4_system_offset_1048", changed(WORKED, 17, u64(1048)), 4, 1048)
    v.put("repair_place_4_system_offset_1048", of_repair(200, changed(WORKED, 17, u64(1048))), "refused 4 place 1048")
    v.open("place_4_offset_low_and_table_bad", changed(build(system_table=table((b"", b""))), 17, u64(47)), 4, 17)
    alone = [*places_of_tables(), *places_at_an_end()]
    for name, data, place in places_of_tables():
        v.open("place_4_" + name, build(system_table=data), 4, 48 + place)
        v.put("repair_place_4_" + name, of_repair(200, unclosed(system_table=data)), f"refused 4 place {48 + place}")
    for name, data, place in alone:
        file, refusal = build(user_table=data), f"refused 7 place {94 + place}"
        v.open("place_7_" + name, file, 7, 94 + place)
        v.put("commit_place_7_" + name, of_commit(200, P11_SHEET, file), refusal)
        v.put("begin_place_4_" + name, of_begin(NEW, 4, 200, IMAGE, data), f"refused 4 place {place}")
        v.put("browse_place_7_" + name, of_browse(0, data), f"refused 7 place {place} next 0 walk refused 7 place {place}")
        v.put("named_place_7_" + name, of_named(b"A", data), f"refused 7 place {place} walk refused 7 place {place}")
    # Frames and parts are refused as opening is, with the same place, whatever is asked for.
    dash = changed(changed(PAIR, 40, u64(64)), 52, b"-")
    v.put("frame_place_3", of_frame(0, dash), "refused 3 place 52")
    v.put("frame_place_4", of_frame(TOP, build(system_table=table((b"A", b"\x07")))), "refused 4 place 55")
    v.put("frame_place_7", of_frame(0, build(user_table=table((b"A", b"\x07")))), "refused 7 place 101")
    for kind, name in enumerate(KINDS):
        v.put(f"part_place_3_{name}", of_part(kind, 0, 0, dash), "refused 3 place 52 part of 0")
        v.put(f"part_place_4_{name}", of_part(kind, TOP, 0, changed(WORKED, 17, u64(1048))), "refused 4 place 1048 part of 0")
        v.put(f"part_place_7_{name}", of_part(kind, 0, 0, WORKED + b"\x07"), "refused 7 place 98 part of 0")
    for name, data, place in places_of_sheets():
        v.put("commit_place_10_" + name, of_commit(200, data, build(user=TAGS)), f"refused 10 place {place}")
    for name, data, number, place in places_of_lists():
        wanted = refused(Refusal(number, place)) if number else "given 0"
        v.put(f"begin_place_{number}_" + name, of_begin(NEW, 4, 200, data, NO_TAGS), wanted)


# ---- (5) sweeps ----

# Ends of the byte classes and what stands beside them, lengths, counts and kinds, and the letters of the names below.
VALUES = bytes([0, 1, 2, 3, 4, 5, 8, 9, 16, 31, 32, 33, 45, 46, 47, 48, 57, 58, 64, 65, 66, 67, 90, 91, 96, 97, 122, 123, 126, 127, 255])


def sweeps(v):
    def put(name, kind, base, other=None, calls=1):
        inputs = len(base) * 32 * calls
        v.put("sweep_" + name, of_sweep(kind, VALUES, base, other), f"sweep inputs {inputs}")

    tags = ((b"A", b"B"), (b"B", b""), (b"C", b"xy"))
    twice, bad = table((b"A", b""), (b"B", b"x"), (b"A", b"y")), table((b"A", b"\x07"), (b"B", b""))
    small = build(((b"A", b"xy"), (b"B", b""), (b"C", b"z")), ((b"A", b"B"), (b"B", b"")), ((5, 6, b"", b"p", b""),), tags)
    # Over files with a fault two faults meet, now the one ahead and now the other.
    files = {
        "worked": WORKED,
        "rich": RICH,
        "small": small,
        "no_frames": with_names(b"A", b"B"),
        "first_offset_wrong": changed(THREE, 36, u64(63)),
        "second_offset_falls": changed(THREE, 46, u64(63)),
        "names_abba": with_names(b"A", b"B", b"B", b"A"),
        "second_name_bad": with_names(b"A", b"-", b"C"),
        "system_offset_low": changed(small, 17, u64(60)),
        "system_table_bad": build(system_table=bad, frames=()),
        "system_name_twice": build(system_table=twice, frames=()),
        "user_table_bad": build(user_table=bad),
        "user_name_twice": build(user_table=twice),
        "one_left_over": WORKED + b"\x07",
    }
    for name, file in files.items():
        put("open_" + name, b"F", file)
        put("repair_" + name, b"R", file)
    sheets = {
        "p11": P11_SHEET,
        "all_kinds": sheet((b"A", b"B", b"x"), (b"B", b"", ABSENT), (b"D", ABSENT, b"yz"), (b"C", b"xy", ABSENT)),
        "names_abba": sheet(*((name, dict(tags)[name], b"x") for name in (b"A", b"B", b"B", b"A"))),
        "kind_wrong": bytes.fromhex("02 01 41 01 01 42 05 01 42 01 00 00"),
        "value_bad": sheet((b"A", b"B", b"x\x07"), (b"B", b"", b"")),
        "one_left_over": sheet((b"A", b"B", ABSENT), (b"B", b"", ABSENT)) + b"\x07",
        "no_changes": sheet(),
        "old": sheet((b"A", UNSEEN, b"x"), (b"B", b"", ABSENT), (b"D", UNSEEN, b"yz"), (b"C", UNSEEN, ABSENT)),
        "old_last": sheet((b"A", b"B", b"x"), (b"B", UNSEEN, ABSENT)),
        "old_names_abba": sheet(*((name, UNSEEN, b"x") for name in (b"A", b"B", b"B", b"A"))),
        "old_kind_wrong": bytes.fromhex("02 01 41 02 05 01 42 01 01 78 00"),
        "old_one_left_over": sheet((b"A", UNSEEN, ABSENT), (b"B", UNSEEN, ABSENT)) + b"\x07",
    }
    for name, data in sheets.items():
        put("saving_sheet_" + name, b"S", data, small, calls=3)
    for name in ("worked", "user_table_bad", "user_name_twice"):
        put("saving_file_" + name, b"U", files[name], P11_SHEET, calls=3)
    put("saving_file_small", b"U", small, sheets["all_kinds"], calls=3)
    put("saving_file_small_old", b"U", small, sheets["old"], calls=3)
    lists = {
        "image": IMAGE,
        "two": set_up((b"AB", b"xyz"), (b"C", b"")),
        "three": set_up((b"A", b""), (b"B", b"-\x00"), (b"C", b"z")),
        "names_abba": set_up(*named_sections(b"A", b"B", b"B", b"A")),
        "name_bad": set_up((b"A", b"x"), (b"-", b""), (b"C", b"")),
        "eight": set_up(*named_sections(*EIGHT)),
        "one_left_over": IMAGE + b"\x07",
    }
    for name, data in lists.items():
        put("begin_list_" + name, b"L", data, NO_TAGS)
    put("begin_list_three_table_bad", b"L", lists["three"], bad)
    tables = {
        "no_tags": NO_TAGS,
        "three_tags": table(*tags),
        "four_tags": table(*TAGS),
        "name_twice": twice,
        "names_abba": table((b"A", b""), (b"B", b""), (b"B", b""), (b"A", b"")),
        "value_bad": bad,
        "one_left_over": table(*tags) + b"\x07",
    }
    for name, data in tables.items():
        put("begin_table_" + name, b"T", data, IMAGE)
        put("browse_" + name, b"B", data, calls=3)
    put("begin_table_of_no_bytes", b"T", b"", IMAGE)


def no_vectors(v):
    v.put("no_vector_empty", b"", "no vector")
    for first in (0, 32, 65, 79, 100, 120, 255):
        v.put(f"no_vector_first_byte_{first:03}", bytes([first]) + WORKED, "no vector")
    v.put("no_vector_frame_short", of_frame(0, b"")[:-1], "no vector")
    v.put("no_vector_part_short", of_part(0, 0, 0, b"")[:-1], "no vector")
    v.put("no_vector_add_short", of_add(BEGUN, 20, 22, 1000, 40, b"")[:-1], "no vector")
    v.put("no_vector_begin_short", of_begin(NEW, 4, 52, b"", b"")[:-1], "no vector")
    v.put("no_vector_begin_list_short", of_begin(NEW, 4, 52, IMAGE, b"")[:-1], "no vector")
    v.put("no_vector_close_short", of_close(ONE_ADDED, b"", 20)[:-1], "no vector")
    v.put("no_vector_close_notes_short", of_close(ONE_ADDED, ONE_NOTE, 20)[:-1], "no vector")
    v.put("no_vector_repair_short", b"r\x00", "no vector")
    for name, kind in (("commit", b"m"), ("look", b"l"), ("convert", b"v")):
        v.put(f"no_vector_{name}_short", kind + b"\x00\x01\x00", "no vector")
        v.put(f"no_vector_{name}_sheet_short", of_saving(kind, 9, P11_SHEET, b"")[:-1], "no vector")
    v.put("no_vector_browse_short", of_browse(0, b"")[:-1], "no vector")
    v.put("no_vector_named_alone", b"n", "no vector")
    v.put("no_vector_named_name_short", of_named(b"SITE", b"")[:-1], "no vector")
    for first in b"FRB":
        v.put(f"no_vector_sweep_{first:03}_values_short", of_sweep(bytes([first]), VALUES, b"")[:-1], "no vector")
        v.put(f"no_vector_sweep_{first:03}_alone", bytes([first]), "no vector")
    for first in b"SULT":
        v.put(f"no_vector_sweep_{first:03}_values_short", bytes([first]) + short(VALUES), "no vector")
        v.put(f"no_vector_sweep_{first:03}_other_short", of_sweep(bytes([first]), VALUES, b"", P11_SHEET)[:-1], "no vector")
        v.put(f"no_vector_sweep_{first:03}_alone", bytes([first]), "no vector")
    v.put("no_vector_whole_short", of_whole(IMAGE, NO_TAGS, ())[:-1], "no vector")
    v.put("no_vector_whole_frame_short", of_whole(IMAGE, NO_TAGS, ONE_FRAME)[:-1], "no vector")
    v.put("frame_no_file", of_frame(0, b""), "refused 1")
    v.put("part_no_file", of_part(0, 0, 0, b""), "refused 1 part of 0")
    v.put("commit_no_file", of_commit(20, P11_SHEET, b""), "refused 1")
    v.put("look_no_file", of_look(P11_SHEET, b""), "refused 1")
    v.put("convert_no_file", of_convert(20, P11_SHEET, b""), "refused 1")


# ---- checks of the model ----


def number_of(call, *arguments):
    """The number that a call is refused with, with the place where it carries one; 0 for none."""
    try:
        call(*arguments)
    except Refusal as refusal:
        return refusal.number if refusal.place is None else (refusal.number, refusal.place)
    return 0


def check_marked_examples():
    """P1 to P12, and what the document has run by program as well."""
    opening_number = model.opening_number
    assert len(WORKED) == 98 and build() == WORKED
    assert len(model.open_file(WORKED).frames) == 1
    assert opening_number(WORKED[:97]) == 7
    assert opening_number(changed(WORKED, 4, b"\x02")) == 2
    assert opening_number(changed(WORKED, 9, u64(0))) == 5
    assert opening_number(changed(WORKED, 9, u64(75))) == 6
    assert opening_number(changed(WORKED, 5, u32(2))) == 6
    assert opening_number(WORKED[:33]) == 1
    out = bytearray(24)
    answer = model.repair(unclosed()[:73], out)
    assert answer == (52, 0, 52, 56, 8) and out[:8] == bytes(8)
    answer = model.repair(unclosed()[:74], out)
    assert model.repaired_file(unclosed(), answer, out) == WORKED
    assert number_of(model.repair, unclosed()[:51], out) == (4, 48)
    assert model.commit(WORKED, P11_SHEET, out) == 11 and out[:11] == P11_TABLE
    assert number_of(model.commit, WORKED[:94] + P11_TABLE, P11_SHEET, out) == (11, 0)
    one = State(*ONE_ADDED)
    assert number_of(model.add, one, bytearray(36), bytearray(99), 999, 0, sized(b"")) == 13
    assert number_of(model.add, one, bytearray(36), bytearray(99), 1000, 0, sized(b"")) == 0
    largest, notes = bytearray(16_777_216 + 20), bytearray(36)
    assert number_of(model.add, one, notes, largest, 1000, 0, sized(bytes(16_777_216))) == 0
    assert number_of(model.add, one, notes, largest + b"\0", 1000, 0, sized(bytes(16_777_217))) == 14


def check_looks(v):
    """A commit is refused what a look is, and 11 exactly where a look shows a conflict, at the lowest."""
    for name, vector in v.all.items():
        if vector[:1] != b"m":
            continue
        look, commit = line_of(b"l" + vector[1:]), v.lines[name]
        conflicts = int(look.split()[-1]) if look.startswith("looked") else 0
        lowest = (conflicts & -conflicts).bit_length() - 1
        expected = f"refused 11 place {lowest}" if conflicts else look if look.startswith("refused") else ""
        assert commit.startswith(expected and expected + " "), (name, look, commit)
        assert conflicts or not commit.startswith("refused 11"), (name, look, commit)


def whole_answer(call, file, data, room):
    """All that a commit or a conversion hands back: its length or its refusal in words, and the lent bytes, which a refusal leaves as they were."""
    out = lent(room)
    try:
        return call(file, data, out), out
    except Refusal as refusal:
        assert out == lent(room)
        return refused(refusal), out


def is_refused(answer, *numbers):
    return isinstance(answer, str) and int(answer.split()[1]) in numbers


def refused_now(file, old):
    """The refusal that a look and a commit give an old sheet in this release."""
    commit, _ = whole_answer(model.commit, file, old, 0)
    look, _ = whole_answer(lambda file, data, _: model.look(file, data), file, old, 0)
    assert commit == look
    return commit


def seen_places(data):
    """The places of the seen kinds of a legal sheet, old or new."""
    at, places = 1, []
    for _ in range(data[0]):
        at += 1 + data[at]
        places.append(at)
        for _ in range(2):
            at += 2 + data[at + 1] if data[at] == 1 else 1
    assert at == len(data)
    return places


# What the checks of the converter have to come upon.
TO_SEE = ("cases", "refused 1 to 7", "refused 10", "converted", "with nobody looked", "unchanged")
TO_SEE += ("whose commit is accepted", "refused 11", "refused 17", "commits compared", "of these refused 9")


def check_refused_conversion(file, old, given, saw):
    """A refused conversion: refused in no room as well, and in this release for the same fault, or for "nobody looked" ahead of it."""
    assert whole_answer(model.convert, file, old, 0)[0] == given
    now = refused_now(file, old)
    if now != given:
        place, old_place = int(now.split()[-1]), int(given.split()[-1])
        assert is_refused(now, 10) and is_refused(given, 10) and place < old_place and old[place] == 2
    saw["refused 10" if is_refused(given, 10) else "refused 1 to 7"] += 1


def check_new_sheet(file, old, new, saw):
    """What was written: no "nobody looked", and the old sheet where it had none."""
    unseen = [at for at in seen_places(old) if old[at] == 2]
    assert all(new[at] in (0, 1) for at in seen_places(new))
    assert len(new) <= min(len(old) + 256 * len(unseen), 49_281)
    if unseen:
        assert refused_now(file, old) == f"refused 10 place {unseen[0]}"
    else:
        assert new == old
    saw["with nobody looked" if unseen else "unchanged"] += 1


def check_conversion(file, old, room, saw, wanted=None):
    """What #111 wants of a file and an old sheet, in this room and in those about the answers; `saw` counts what came of it.

    `wanted` is the sheet that it has to become, where that is known from how it was made.
    """
    saw["cases"] += 1
    most = len(old) + 64 * 256
    before, _ = whole_answer(model.old_commit, file, old, len(file) + len(old))
    given, out = whole_answer(model.convert, file, old, most)
    # 1 to 7 and 10 are exactly the old commit's, places and all.
    if is_refused(before, 1, 2, 3, 4, 5, 6, 7, 10) or isinstance(given, str):
        assert given == before and wanted is None
        check_refused_conversion(file, old, given, saw)
        return
    new = bytes(out[:given])
    assert out[given:] == lent(most - given) and wanted in (None, new)
    check_new_sheet(file, old, new, saw)
    for other in {room, given - 1, given}:
        expected = (given, new + lent(other)[given:]) if other >= given else ("refused 9", lent(other))
        assert whole_answer(model.convert, file, old, other) == expected
    for other in {room} if isinstance(before, str) else {room, before - 1, before}:
        answer = whole_answer(model.old_commit, file, old, other)
        assert whole_answer(model.commit, file, new, other) == answer
        saw["commits compared"] += 1
        saw["of these refused 9"] += is_refused(answer[0], 9)
    saw["converted"] += 1
    saw[before[:10] if isinstance(before, str) else "whose commit is accepted"] += 1


def draw_long_sheet(random, names, tags):
    """An old sheet over these names, and what it becomes."""
    old, new = [], []
    for name in names:
        right, after = tags.get(name, ABSENT), drawn(random, (ABSENT, b"", b"n" * random.randrange(256)))
        seen = drawn(random, (right, UNSEEN, UNSEEN, UNSEEN))
        old.append((name, seen, after))
        new.append((name, right, after))
    return sheet(*old), sheet(*new)


def drawn_conversions(random):
    """Files and old sheets: file, sheet, and what it becomes where that is known."""
    for i in range(200_000):
        values = (b"", b"x", b"y", b"xy") if i % 20 else (b"", b"x", b"v" * 255, b"w" * 200)
        tags, old, new = draw_old_sheet(random, values)
        file, old, new = build(frames=(), user=tags.items()), sheet(*old), sheet(*new)
        if i % 4 == 3:
            old, new = broken(random, old), None
        if i % 15 == 5:
            file, new = broken(random, file), None
        yield file, old, new
    # Up to 64 changes, with long values, and over tables that are full or nearly so.
    for _ in range(200):
        tags = {b"T%02d" % i: b"v" * random.randrange(256) for i in range(64) if random.randrange(2)}
        yield build(frames=(), user=tags.items()), *draw_long_sheet(random, [b"T%02d" % i for i in range(random.randrange(65))], tags)
    for _ in range(40):
        many = many_tags(1064)
        tags = dict(many[: 1000 - drawn(random, (0, 0, 1, 8, 30))])
        names = [name for name, _ in many[900:] if random.randrange(3) == 0][:64]
        yield build(frames=(), user=tags.items()), *draw_long_sheet(random, names, tags)


def check_conversions(v):
    """The converter against the old commit: every vector of the converter, and files and sheets drawn at random."""
    saw, random = dict.fromkeys(TO_SEE, 0), Random(8)
    for name, vector in v.all.items():
        if vector[:1] == b"v" and v.lines[name] != "no vector":
            fields = Fields(vector[1:])
            room, old = fields.number(2), fields.bytes(fields.number(2))
            check_conversion(fields.rest(), old, room, saw)
    for file, old, new in drawn_conversions(random):
        check_conversion(file, old, random.randrange(60), saw, new)
    assert all(saw.values()), saw
    print("conversions:", ", ".join(f"{count:,} {word}" for word, count in saw.items()))


def check_readings():
    """The readings of document 01 that are easy to get wrong, and numbers near the top."""
    opening_number = model.opening_number
    for n in range(99):
        assert opening_number(WORKED[:n]) == answer_of_cut(n)[0]
    assert opening_number(changed(WORKED, 25, u64(74))) == 6
    assert opening_number(changed(WORKED, 9, u64(98))) == 6
    assert opening_number(changed(WORKED, 9, u64(TOP))) == opening_number(changed(WORKED, 25, u64(TOP))) == 5
    assert opening_number(changed(WORKED, 17, u64(TOP))) == 4
    assert opening_number(changed(WORKED, 40, u64(TOP))) == 3
    assert opening_number(changed(WORKED, 68, u32(2**32 - 1))) == 6
    big = ((b"A", bytes(65_535)),)
    assert opening_number(build(big, frames=())) == 0
    assert opening_number(build(((b"A", bytes(65_536)),), frames=())) == 4
    assert opening_number(build(big + ((b"B", bytes(65_535)),), frames=())) == 0
    assert opening_number(build(((b"A", bytes(65_536)), (b"B", b"")), frames=())) == 3
    assert opening_number(build(frames=((1, 2, bytes(16_777_216)),))) == 0
    assert opening_number(build(frames=((1, 2, bytes(16_777_217)),))) == 6
    notes, out = bytearray(4), bytearray(99)
    nine = set_up(*named_sections(*EIGHT, b"S8"))
    for listed, wanted in ((b"\0", (3, 0)), (b"\0\0", (10, 1)), (b"\xff", (10, 1)), (b"", (10, 0)), (nine, (3, 0))):
        assert number_of(model.begin, State(*NEW), notes, out, listed, NO_TAGS) == wanted


def check_recordings():
    """Recordings at random: they open with their frames; a repair of any cut opens and holds the whole frames before the cut."""
    random = Random(6)
    for _ in range(40):
        sections = 1 + random.randrange(3)
        names = tuple((b"S%d" % i, b"c" * random.randrange(4)) for i in range(sections))
        times = sorted(random.randrange(-(2**31), 2**31) for _ in range(random.randrange(5)))
        frames = [(t, random.randrange(2**32), *(GHOST[: random.randrange(30)] for _ in names)) for t in times]
        system = ((b"T", b"v" * random.randrange(3)),)
        pieces = recorded_pieces(set_up(*names), table(*system), [(t, e, sized(*parts)) for t, e, *parts in frames])
        total = sum(len(data) for _, data in pieces)
        assert stored(pieces, total) == build(names, system, frames)
        ends = [len(pieces[0][1])]
        for _, data in pieces[1 : 1 + len(frames)]:
            ends.append(ends[-1] + len(data))
        for m in range(ends[0], total + 1):
            file, out = stored(pieces, m), bytearray(200)
            kept = sum(end <= m for end in ends) - 1
            if number_of(model.repair, file, out) == 0:
                answer = model.repair(file, out)
                assert (answer.kept, answer.count) == (ends[kept], kept)
                assert model.repaired_file(file, answer, out) == build(names, system, frames[:kept])
            else:
                assert file == build(names, system, frames)


def main():
    check_marked_examples()
    check_readings()
    check_recordings()
    v = Vectors()
    readers = (opening, frame_reader, part_reader)
    recorder = (begin_vectors, add_vectors, random_recorder_vectors, close_vectors, whole_recordings, repair_vectors, random_repairs)
    tags = (commit_vectors, look_vectors, random_commits, unseen_vectors, convert_vectors, random_conversions, browser_vectors, named_vectors)
    for group in (*readers, *recorder, *tags, place_vectors, sweeps, no_vectors):
        group(v)
    check_looks(v)
    check_conversions(v)
    v.write()
    print(len(v.all), "vectors,", sum(map(len, v.all.values())), "bytes")


if __name__ == "__main__":
    main()
