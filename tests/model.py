"""Document 01 in plain Python, with the places of request #102, the look and commit of #108 and the converter of #111: an implementation of its
own, by which the vectors' answers were computed.

It was written from the documents alone, without a look at the library under test. Each public call of the library stands here as a
function: open_file, frame, part and part_refusal, begin, add, close, repair, look, commit, convert, browse, walk_tags, tag_by_name. A refused call
raises Refusal with the document's number. Lent outputs are bytearrays; every test of a call comes before its first write, so that a refusal changes
nothing. Python's whole numbers have no width, so no sum or difference here can wrap. One function is no call any more: old_commit, which is commit
as it was before #111, for the checks of the converter alone.

What is lent is read front to back, and the reading stops at the first fault: its place is the one that the refusal carries. A fault of a
string is at the byte that breaks its rule, or at the end of the bytes where they run out; any other is at the start of its field.
"""

from collections import namedtuple

# The header's fixed places and the limits of the layout.
MAGIC = b"FSTF"
MARK = bytes([0xFF, 0x22, 0x01, 0xEE])
REVISION_AT, COUNT_AT, INDEX_AT, SYSTEM_AT, USER_AT, HEADER_LENGTH = 4, 5, 9, 17, 25, 33
MOST_SECTIONS = 8
MOST_CONFIGURATION = 65_535
MOST_TAGS = 1_000
MOST_SECTION_BYTES = 16_777_216
MOST_FRAMES = 1_000_000
MOST_TIME_SPAN = 4_294_967_295
MOST_FILE = 2**40
LARGEST_TABLE = 512_004
MOST_USER_OFFSET = MOST_FILE - LARGEST_TABLE
MOST_CHANGES = 64

# The refusal numbers.
NOT_FSTF, REVISION, SECTIONS, SYSTEM_TABLE, NOT_CLOSED, INDEX, USER_TABLE = 1, 2, 3, 4, 5, 6, 7
NO_SUCH_ITEM, NO_ROOM, SHEET, CONFLICT, STAGE, CLOCK, FRAME_SHAPE, FULL, WHOLE, TABLE_FULL = 8, 9, 10, 11, 12, 13, 14, 15, 16, 17

# Those that carry a place: the first fault's in the lent bytes, and for 11 the number of a change.
PLACED = (SECTIONS, SYSTEM_TABLE, USER_TABLE, SHEET, CONFLICT)

# The recorder's stages.
FRESH, RUNNING, CLOSING, CLOSED = 0, 1, 2, 3

# The kinds of an entry of a sheet. The last was a seen kind until #111; since then it is read by the converter alone.
ABSENT, VALUE, NOBODY_LOOKED = 0, 1, 2

# The items that can be read as a part of the file.
SECTION, SECTION_NAME, CONFIGURATION, SYSTEM_NAME, SYSTEM_VALUE, USER_NAME, USER_VALUE = range(7)

Part = namedtuple("Part", "at length")
Tag = namedtuple("Tag", "name value")  # two Parts
Front = namedtuple("Front", "names configurations system frames_at")  # what tests 1 to 4 find
Frame = namedtuple("Frame", "at length time exposure sections")  # sections: Parts
Opened = namedtuple("Opened", "front frames user")
State = namedtuple("State", "stage piece sections frames first last end")
Piece = namedtuple("Piece", "place length")
Repaired = namedtuple("Repaired", "kept count index_offset user_offset tail_length")
Change = namedtuple("Change", "name seen_at seen_kind seen new_kind new")  # seen_at: the place of the seen kind in the sheet
Compared = namedtuple("Compared", "tags changes conflicts")  # (name, value) pairs, Changes, numbers of changes from the lowest on
Looked = namedtuple("Looked", "changes set")  # how many changes, and 2^i for each change i that conflicts


class Refusal(Exception):
    """A refused call: the number, and the place for those that carry one."""

    def __init__(self, number, place=None):
        super().__init__(number, place)
        assert (place is not None) == (number in PLACED), (number, place)
        self.number = number
        self.place = place


def refuse_if(holds, number, place=None):
    if holds:
        raise Refusal(number, place)


# ---- numbers and strings ----


def number_at(data, at, width):
    """The unsigned little-endian number of `width` bytes at `at`, or None where they are not all there."""
    if at + width > len(data):
        return None
    return int.from_bytes(data[at : at + width], "little")


def signed_at(data, at):
    return int.from_bytes(data[at : at + 8], "little", signed=True)


def u32(number):
    return number.to_bytes(4, "little")


def u64(number):
    return number.to_bytes(8, "little")


def i64(number):
    return number.to_bytes(8, "little", signed=True)


def taken(data, part):
    return bytes(data[part.at : part.at + part.length])


def end_of(part):
    return part.at + part.length


def is_any_byte(byte):
    return True


def is_section_byte(byte):
    return 48 <= byte <= 57 or 65 <= byte <= 90 or 97 <= byte <= 122


def is_tag_byte(byte):
    return 32 <= byte <= 126


def short_string_at(data, at, least, is_legal, number):
    """The Part of a short string's bytes, without the length byte, byte by byte.

    Refused `number` at the length byte where that is below `least`, at the first byte that is not legal, at the end of the bytes where
    they run out.
    """
    refuse_if(at >= len(data), number, len(data))
    part = Part(at + 1, data[at])
    refuse_if(part.length < least, number, at)
    for place in range(part.at, end_of(part)):
        refuse_if(place >= len(data), number, len(data))
        refuse_if(not is_legal(data[place]), number, place)
    return part


def new_name_at(data, at, names, is_legal, number):
    """The Part of a name that is none of `names`; it joins them. Refused at its start where it is one."""
    name = short_string_at(data, at, 1, is_legal, number)
    refuse_if(taken(data, name) in names, number, at)
    names.append(taken(data, name))
    return name


def times_hold(times):
    """The time rule over all frames' times."""
    ordered = all(a <= b for a, b in zip(times, times[1:]))
    return ordered and all(t - times[0] <= MOST_TIME_SPAN for t in times)


# ---- tables ----


def table_at(data, at, number):
    """The legal table that starts at `at`: its tags and its end. Refused `number` where it is malformed or runs past the end."""
    count = number_at(data, at, 4)
    refuse_if(count is None or count > MOST_TAGS, number, at)
    at += 4
    tags, names = [], []
    for _ in range(count):
        name = new_name_at(data, at, names, is_tag_byte, number)
        value = short_string_at(data, end_of(name), 0, is_tag_byte, number)
        tags.append(Tag(name, value))
        at = end_of(value)
    return tags, at


def exact_table(data, at, number):
    """The tags of the legal table that is all the bytes from `at` on."""
    tags, end = table_at(data, at, number)
    refuse_if(end != len(data), number, end)
    return tags


def table_bytes(tags):
    """The table in file form, from (name, value) pairs."""
    return u32(len(tags)) + b"".join(bytes([len(n)]) + n + bytes([len(v)]) + v for n, v in tags)


# ---- frames, the walk, the index ----


def section_parts_at(data, at, sections):
    """The Parts of `sections` sizes and their bytes from `at` on, or None where they break the rule or run out of bytes."""
    parts = []
    for _ in range(sections):
        size = number_at(data, at, 4)
        if size is None or size > MOST_SECTION_BYTES or at + 4 + size > len(data):
            return None
        parts.append(Part(at + 4, size))
        at += 4 + size
    return parts


def whole_frame_at(file, at, sections):
    """The whole frame that stands at `at`, or None. Its time is not asked."""
    if at + 16 > len(file) or file[at : at + 4] != MARK:
        return None
    parts = section_parts_at(file, at + 16, sections)
    if parts is None:
        return None
    return Frame(at, end_of(parts[-1]) - at, signed_at(file, at + 4), number_at(file, at + 12, 4), parts)


def walk(file, at, sections, most=MOST_FRAMES):
    """Whole frames one behind the other, until the first place without one or `most` of them."""
    frames = []
    while len(frames) < most:
        found = whole_frame_at(file, at, sections)
        if found is None:
            break
        frames.append(found)
        at += found.length
    return frames


def end_of_frames(frames, start):
    return frames[-1].at + frames[-1].length if frames else start


def index_length(frames):
    return 4 + 16 * frames


def index_entry(since_first, at, length):
    return u32(since_first) + u64(at) + u32(length)


def index_bytes(frames):
    return u32(len(frames)) + b"".join(index_entry(f.time - frames[0].time, f.at, f.length) for f in frames)


# ---- opening ----


def definitions_of(file):
    """Test 3: the Parts of the section names, the configuration offsets.

    What the first offset has to be is known at the end of the definitions only. So a name used twice, and an offset against its
    rule, do not end the reading; the lowest place found is the one told.
    """
    count = file[HEADER_LENGTH]
    refuse_if(not 1 <= count <= MOST_SECTIONS, SECTIONS, HEADER_LENGTH)
    at = HEADER_LENGTH + 1
    names, offsets, faults = [], [], []
    try:
        for _ in range(count):
            name = short_string_at(file, at, 1, is_section_byte, SECTIONS)
            if taken(file, name) in [taken(file, other) for other in names]:
                faults.append(at)
            names.append(name)
            at = end_of(name)
            offset = number_at(file, at, 8)
            refuse_if(offset is None, SECTIONS, at)
            if offsets and not 0 <= offset - offsets[-1] <= MOST_CONFIGURATION:
                faults.append(at)
            offsets.append(offset)
            at += 8
        refuse_if(offsets[0] != at, SECTIONS, end_of(names[0]))
    except Refusal as end:
        faults.append(end.place)
    if faults:
        raise Refusal(SECTIONS, min(faults))
    return names, offsets


def front_of(file):
    """Tests 1 to 4, in number order."""
    refuse_if(len(file) < HEADER_LENGTH + 1 or file[:4] != MAGIC, NOT_FSTF)
    refuse_if(file[REVISION_AT] != 1, REVISION)
    names, offsets = definitions_of(file)
    system_offset = number_at(file, SYSTEM_AT, 8)
    refuse_if(not 0 <= system_offset - offsets[-1] <= MOST_CONFIGURATION, SYSTEM_TABLE, SYSTEM_AT)
    tags, frames_at = table_at(file, system_offset, SYSTEM_TABLE)
    ends = offsets[1:] + [system_offset]
    configurations = [Part(start, end - start) for start, end in zip(offsets, ends)]
    return Front(names, configurations, tags, frames_at)


def test_closed(file):
    """Test 5."""
    index_offset, user_offset = number_at(file, INDEX_AT, 8), number_at(file, USER_AT, 8)
    refuse_if(index_offset == 0 or user_offset == 0, NOT_CLOSED)
    refuse_if(index_offset > len(file) or user_offset > len(file), NOT_CLOSED)
    refuse_if(user_offset > MOST_USER_OFFSET, NOT_CLOSED)


def indexed_frames(file, front):
    """Test 6: the frames that the header counts."""
    count = number_at(file, COUNT_AT, 4)
    index_offset, user_offset = number_at(file, INDEX_AT, 8), number_at(file, USER_AT, 8)
    refuse_if(count > MOST_FRAMES, INDEX)
    frames = walk(file, front.frames_at, len(front.names), count)
    refuse_if(len(frames) < count, INDEX)
    refuse_if(end_of_frames(frames, front.frames_at) != index_offset, INDEX)
    refuse_if(not times_hold([f.time for f in frames]), INDEX)
    refuse_if(user_offset < index_offset or file[index_offset:user_offset] != index_bytes(frames), INDEX)
    return frames


def open_file(file):
    """Opening: tests 1 to 7."""
    front = front_of(file)
    test_closed(file)
    frames = indexed_frames(file, front)
    user = exact_table(file, number_at(file, USER_AT, 8), USER_TABLE)
    return Opened(front, frames, user)


def opening_number(file):
    """The number that opening gives, 0 for none."""
    try:
        open_file(file)
    except Refusal as refusal:
        return refusal.number
    return 0


# ---- reading items ----


def item(items, i):
    refuse_if(i >= len(items), NO_SUCH_ITEM)
    return items[i]


def frame(file, i):
    """Frame i."""
    return item(open_file(file).frames, i)


def find_part(file, kind, i, j):
    """Where the item's bytes are; j is the section's number in frame i and else not used."""
    opened = open_file(file)
    if kind == SECTION:
        return item(item(opened.frames, i).sections, j)
    if kind == SECTION_NAME:
        return item(opened.front.names, i)
    if kind == CONFIGURATION:
        return item(opened.front.configurations, i)
    tag = item(opened.front.system if kind in (SYSTEM_NAME, SYSTEM_VALUE) else opened.user, i)
    return tag.name if kind in (SYSTEM_NAME, USER_NAME) else tag.value


def part(file, kind, i, j):
    """An item as a part of the lent file; refused, the empty part at its start."""
    try:
        return find_part(file, kind, i, j)
    except Refusal:
        return Part(0, 0)


def part_refusal(file, kind, i, j):
    """The refusal for the same arguments as `part`, or None."""
    try:
        find_part(file, kind, i, j)
    except Refusal as refusal:
        return refusal
    return None


# ---- the tag browser, a tag by its name ----


def browse(table, number):
    """The browser at `number`: the tag or None for the end, and the number it then holds."""
    tags = exact_table(table, 0, USER_TABLE)
    return (tags[number], number + 1) if number < len(tags) else (None, number)


def walk_tags(table):
    """The tags of a table one after another, each with the number of tags behind it."""
    tags = exact_table(table, 0, USER_TABLE)
    return [(tag, len(tags) - 1 - i) for i, tag in enumerate(tags)]


def tag_by_name(table, name):
    """The tag of that name, or None. Over bytes that are not exactly a legal table it is refused as the browser is."""
    tags = exact_table(table, 0, USER_TABLE)
    return next((tag for tag in tags if taken(table, tag.name) == name), None)


# ---- the recorder ----


def limits_hold(state):
    """The limits that 12 names for a state past fresh."""
    return (
        1 <= state.sections <= MOST_SECTIONS
        and state.frames <= MOST_FRAMES
        and (state.stage != CLOSING or state.piece <= 4)
        and 0 <= state.last - state.first <= MOST_TIME_SPAN
        and fits(state.end, state.frames)
    )


def fits(end, frames):
    """15's limit: the frames end at `end`, and the index and the largest table behind them stay within 2^40."""
    return end + index_length(frames) + LARGEST_TABLE <= MOST_FILE


def fill(output, data, at=0):
    output[at : at + len(data)] = data


def set_up_of(data):
    """A set-up list, whole: the Parts of its names and of its configurations. 10 where it runs out of bytes or has bytes left over.

    That is all that 10 asks here: a string of any bytes is taken.
    """
    refuse_if(len(data) < 1, SHEET, 0)
    at = 1
    pairs = []
    for _ in range(data[0]):
        name = short_string_at(data, at, 0, is_any_byte, SHEET)
        length = number_at(data, end_of(name), 2)
        refuse_if(length is None, SHEET, end_of(name))
        configuration = Part(end_of(name) + 2, length)
        refuse_if(end_of(configuration) > len(data), SHEET, configuration.at)
        pairs.append((name, configuration))
        at = end_of(configuration)
    refuse_if(at != len(data), SHEET, at)
    return pairs


def test_set_up_names(data, pairs):
    """Test 3 of a complete set-up list: its count, then its names, counted in the list."""
    refuse_if(not 1 <= len(pairs) <= MOST_SECTIONS, SECTIONS, 0)
    names = []
    for name, _ in pairs:
        new_name_at(data, name.at - 1, names, is_section_byte, SECTIONS)


def opening_piece(pairs, system_table):
    """Everything up to the first frame, with count, index offset and user offset zero."""
    offset = HEADER_LENGTH + 1 + sum(1 + len(name) + 8 for name, _ in pairs)
    definitions = bytes([len(pairs)])
    for name, configuration in pairs:
        definitions += bytes([len(name)]) + name + u64(offset)
        offset += len(configuration)
    header = MAGIC + bytes([1]) + u32(0) + u64(0) + u64(offset) + u64(0)
    return header + definitions + b"".join(configuration for _, configuration in pairs) + system_table


def begin(state, notes, out, set_up_list, system_table):
    """The begin call: 12, 10, 3, 4, 9."""
    refuse_if(state.stage != FRESH, STAGE)
    pairs = set_up_of(set_up_list)
    test_set_up_names(set_up_list, pairs)
    exact_table(system_table, 0, SYSTEM_TABLE)
    texts = [(taken(set_up_list, name), taken(set_up_list, configuration)) for name, configuration in pairs]
    piece = opening_piece(texts, system_table)
    refuse_if(len(out) < len(piece) or len(notes) < 4, NO_ROOM)
    fill(out, piece)
    fill(notes, u32(0))
    return State(RUNNING, 0, len(pairs), 0, 0, 0, len(piece)), Piece(0, len(piece))


def add(state, notes, out, time, exposure, sections):
    """The frame call: 12, 14, 15, 13, 9."""
    refuse_if(state.stage != RUNNING or not limits_hold(state), STAGE)
    parts = section_parts_at(sections, 0, state.sections)
    refuse_if(parts is None or end_of(parts[-1]) != len(sections), FRAME_SHAPE)
    count = state.frames + 1
    data = MARK + i64(time) + u32(exposure) + sections
    end = state.end + len(data)
    refuse_if(count > MOST_FRAMES or not fits(end, count), FULL)
    first = time if state.frames == 0 else state.first
    last = time if state.frames == 0 else state.last
    refuse_if(time < last or time - first > MOST_TIME_SPAN, CLOCK)
    refuse_if(len(out) < len(data) or len(notes) < index_length(count), NO_ROOM)
    fill(out, data)
    fill(notes, u32(count))
    fill(notes, index_entry(time - first, state.end, len(data)), 16 * count - 12)
    return State(RUNNING, 0, state.sections, count, first, time, end), Piece(state.end, len(data))


def closing_piece(state, notes, piece):
    """The place and the bytes of a piece of the closing. 9 where the notes are shorter than the index."""
    length = index_length(state.frames)
    user_offset = state.end + length
    if piece == 0:
        refuse_if(len(notes) < length, NO_ROOM)
        return state.end, bytes(notes[:length])
    return {
        1: (user_offset, u32(0)),
        2: (COUNT_AT, u32(state.frames)),
        3: (USER_AT, u64(user_offset)),
        4: (INDEX_AT, u64(state.end)),
    }[piece]


def close(state, notes, out):
    """The close call: 12, 9."""
    refuse_if(state.stage not in (RUNNING, CLOSING) or not limits_hold(state), STAGE)
    piece = state.piece if state.stage == CLOSING else 0
    place, data = closing_piece(state, notes, piece)
    refuse_if(len(out) < len(data), NO_ROOM)
    fill(out, data)
    after = state._replace(stage=CLOSING, piece=piece + 1) if piece < 4 else state._replace(stage=CLOSED, piece=0)
    return after, Piece(place, len(data))


# ---- repair ----


def repair(file, out):
    """Repair: 1 to 4, 16, 13, 15, 9. The tail is put into `out`."""
    front = front_of(file)
    refuse_if(opening_number(file) == 0, WHOLE)
    frames = walk(file, front.frames_at, len(front.names))
    kept = end_of_frames(frames, front.frames_at)
    refuse_if(not times_hold([f.time for f in frames]), CLOCK)
    refuse_if(not fits(kept, len(frames)), FULL)
    index = index_bytes(frames)
    tail = index + table_bytes([])
    refuse_if(len(out) < len(tail), NO_ROOM)
    fill(out, tail)
    return Repaired(kept, len(frames), kept, kept + len(index), len(tail))


def repaired_file(file, answer, out):
    """The kept bytes with the three header fields set, then the tail."""
    kept = bytearray(file[: answer.kept])
    fill(kept, u32(answer.count), COUNT_AT)
    fill(kept, u64(answer.index_offset), INDEX_AT)
    fill(kept, u64(answer.user_offset), USER_AT)
    return bytes(kept + out[: answer.tail_length])


# ---- saving tags ----


def optional_value_at(sheet, at, greatest):
    """A kind up to `greatest` and, for kind 1, the value directly behind it: the kind, the value or None, the end."""
    kind = number_at(sheet, at, 1)
    refuse_if(kind is None or kind > greatest, SHEET, at)
    if kind != VALUE:
        return kind, None, at + 1
    value = short_string_at(sheet, at + 1, 0, is_tag_byte, SHEET)
    return kind, taken(sheet, value), end_of(value)


def changes_of(sheet, greatest_seen):
    """The changes of a sheet whose seen kinds go up to `greatest_seen`. 10 where it is malformed."""
    refuse_if(len(sheet) < 1 or sheet[0] > MOST_CHANGES, SHEET, 0)
    at = 1
    changes, names = [], []
    for _ in range(sheet[0]):
        name = new_name_at(sheet, at, names, is_tag_byte, SHEET)
        seen_at = end_of(name)
        seen_kind, seen, at = optional_value_at(sheet, seen_at, greatest_seen)
        new_kind, new, at = optional_value_at(sheet, at, VALUE)
        changes.append(Change(taken(sheet, name), seen_at, seen_kind, seen, new_kind, new))
    refuse_if(at != len(sheet), SHEET, at)
    return changes


def tags_of(file):
    """Tests 1 to 7, and the user table's (name, value) pairs."""
    return [(taken(file, tag.name), taken(file, tag.value)) for tag in open_file(file).user]


def conflicts_of(tags, changes):
    """The numbers of the changes whose seen entry is not the table's. Where nobody looked, as in old sheets, there is nothing to compare."""
    before = dict(tags)
    return [i for i, change in enumerate(changes) if change.seen_kind != NOBODY_LOOKED and before.get(change.name) != change.seen]


def compared(file, sheet, greatest_seen):
    """Tests 1 to 7 and 10, and what they find, with every seen entry compared."""
    tags = tags_of(file)
    changes = changes_of(sheet, greatest_seen)
    return Compared(tags, changes, conflicts_of(tags, changes))


def changed_table(tags, changes):
    """The (name, value) pairs after the commit: a dict keeps its order, and a changed name its place."""
    table = dict(tags)
    for change in changes:
        if change.new_kind == VALUE:
            table[change.name] = change.new
        else:
            table.pop(change.name, None)
    return list(table.items())


def save(found, out):
    """Tests 11, 17 and 9. The new user table is put into `out`; its length is the answer."""
    if found.conflicts:
        raise Refusal(CONFLICT, min(found.conflicts))
    after = changed_table(found.tags, found.changes)
    refuse_if(len(after) > MOST_TAGS, TABLE_FULL)
    table = table_bytes(after)
    refuse_if(len(out) < len(table), NO_ROOM)
    fill(out, table)
    return len(table)


def look(file, sheet):
    """A look: 1 to 7, 10."""
    found = compared(file, sheet, VALUE)
    return Looked(len(found.changes), sum(2**i for i in found.conflicts))


def commit(file, sheet, out):
    """A commit: 1 to 7, 10, 11, 17, 9."""
    return save(compared(file, sheet, VALUE), out)


def old_commit(file, sheet, out):
    """A commit before #111, which took "nobody looked"."""
    return save(compared(file, sheet, NOBODY_LOOKED), out)


# ---- the converter ----


def seen_entry(value):
    """The seen entry that says what the table has: the value of a name, or None for a name that it has not."""
    return bytes([ABSENT]) if value is None else bytes([VALUE, len(value)]) + value


def filled_in(sheet, changes, tags):
    """The sheet with what the table has wherever nobody looked. All other bytes are taken over as they stand."""
    before = dict(tags)
    written, at = b"", 0
    for change in changes:
        if change.seen_kind == NOBODY_LOOKED:
            written += sheet[at : change.seen_at] + seen_entry(before.get(change.name))
            at = change.seen_at + 1
    return written + sheet[at:]


def convert(file, sheet, out):
    """The converter of old sheets: 1 to 7, 10, 9. The new sheet is put into `out`; its length is the answer."""
    tags = tags_of(file)
    answer = filled_in(sheet, changes_of(sheet, NOBODY_LOOKED), tags)
    refuse_if(len(out) < len(answer), NO_ROOM)
    fill(out, answer)
    return len(answer)
