//! Each public call on both sides, the library through its C face and the rival: what the rival answers is put in the shape of the face, every
//! member, and compared with what the library answers. Lent bytes are compared whole. Whatever differs is printed and counted.

use crate::build::number;
use crate::calls as ours;
use crate::raw::*;
use rival::Refusal;
use std::collections::HashSet;
use std::fmt::Debug;

#[derive(Clone, Copy)]
pub enum Call {
    New,
    Open,
    Frame,
    FrameOf,
    Part,
    PartOf,
    Begin,
    Add,
    Close,
    Repair,
    Look,
    Commit,
    Convert,
    TagAt,
    TagNamed,
    FirstTag,
    NextTag,
}

/// The numbers of include/fstf.h, 0 to 17; a last count is for those that it does not have.
const NUMBERS: usize = 18;

/// Each call with the numbers that must be met; 0 is acceptance. Repair's 15 needs a file of 2^40 bytes.
const CALLS: [(&str, &[u64]); 17] = [
    ("fstf_new", &[0]),
    ("fstf_open", &[0, 1, 2, 3, 4, 5, 6, 7]),
    ("fstf_frame", &[0, 1, 2, 3, 4, 5, 6, 7, 8]),
    ("fstf_frame_of", &[0, 1, 2, 3, 4, 5, 6, 7, 8]),
    ("fstf_part", &[0, 1, 2, 3, 4, 5, 6, 7, 8]),
    ("fstf_part_of", &[0, 1, 2, 3, 4, 5, 6, 7, 8]),
    ("fstf_begin", &[0, 12, 10, 3, 4, 9]),
    ("fstf_add", &[0, 12, 14, 15, 13, 9]),
    ("fstf_close", &[0, 12, 9]),
    ("fstf_repair", &[0, 1, 2, 3, 4, 16, 13, 9]),
    ("fstf_look", &[0, 1, 2, 3, 4, 5, 6, 7, 10]),
    ("fstf_commit", &[0, 1, 2, 3, 4, 5, 6, 7, 10, 11, 17, 9]),
    ("fstf_convert", &[0, 1, 2, 3, 4, 5, 6, 7, 10, 9]),
    ("fstf_tag_at", &[0, 7]),
    ("fstf_tag_named", &[0, 7]),
    ("fstf_first_tag", &[0, 7]),
    // A refusal is passed through, whatever its number: those that the header does not have are counted as one.
    ("fstf_next_tag", &[0, 7, 11, NUMBERS as u64]),
];

/// What the commit of a converted sheet must be seen to answer: its file and its sheet are legal.
const AFTER_CONVERSION: [u64; 4] = [0, 11, 17, 9];

/// The numbers that carry the place of a fault, which each call that has them must be seen to give.
const PLACED: [u64; 4] = [3, 4, 7, 10];

/// Differences printed before the run is given up.
const ENOUGH: u64 = 5;

pub struct Sides {
    pub seed: u64,
    pub group: &'static str,
    pub case: u64,
    pub inputs: u64,
    pub differences: u64,
    met: [[u64; NUMBERS + 1]; CALLS.len()],
    /// Accepted, at the end of a table or where there is no such tag.
    without_tag: [u64; CALLS.len()],
    /// Call, number and place of faults that were answered, but for place 0: all of them would stand there if no place were told.
    places: HashSet<(usize, u64, u64)>,
    /// The changes that any look showed to conflict: the bits of all its sets, which must be met each.
    conflicting: u64,
    /// Looks that showed more than one conflict.
    several_conflicts: u64,
    /// Changes that a conversion filled in as absent and with a value, and sheets that came back as they were.
    filled: [u64; 2],
    unchanged: u64,
    /// What the commits of converted sheets answered.
    after_conversion: [u64; NUMBERS + 1],
}

/// Lent bytes: as given, and as each side left them.
struct Lent {
    before: Vec<u8>,
    ours: Vec<u8>,
    theirs: Vec<u8>,
}

impl Lent {
    fn new(bytes: &[u8]) -> Lent {
        Lent { before: bytes.to_vec(), ours: bytes.to_vec(), theirs: bytes.to_vec() }
    }

    fn agree(&self) -> bool {
        self.ours == self.theirs
    }

    /// A refusal leaves all bytes, an acceptance those from `answer` on.
    fn kept_from(&self, answer: usize) -> bool {
        self.ours.get(answer..) == self.before.get(answer..)
    }
}

/// What is printed of an input with the bytes that were lent.
fn with_lent(input: &dyn Fn() -> String, lent: &[&Lent]) -> String {
    let mut all = input();
    for bytes in lent {
        all += &format!("\n  lent {}", shown(&bytes.before));
        all += &format!("\n  left by the library {}", shown(&bytes.ours));
        all += &format!("\n  left by the rival   {}", shown(&bytes.theirs));
    }
    all
}

/// What is printed of a byte string: short ones whole.
fn shown(bytes: &[u8]) -> String {
    if bytes.len() <= 600 {
        let hex: Vec<String> = bytes.iter().map(|byte| format!("{:02X}", byte)).collect();
        return format!("{} bytes {}", bytes.len(), hex.join(" "));
    }
    let hash = bytes
        .iter()
        .fold(0xCBF2_9CE4_8422_2325_u64, |hash, byte| (hash ^ u64::from(*byte)).wrapping_mul(0x0100_0000_01B3));
    format!("{} bytes, FNV-1a {:016X}", bytes.len(), hash)
}

/// The rival's state for the numbers of a state of the face, where any stage over 3 is closed.
fn their_state(recorder: FstfRecorder) -> rival::State {
    rival::State {
        stage: match recorder.stage {
            0 => rival::Stage::Fresh,
            1 => rival::Stage::Running,
            2 => rival::Stage::Closing(recorder.piece),
            _ => rival::Stage::Closed,
        },
        sections: recorder.sections,
        frames: recorder.frames,
        first: recorder.first,
        last: recorder.last,
        end: recorder.end,
    }
}

fn flat_state(state: rival::State) -> FstfRecorder {
    let (stage, piece) = match state.stage {
        rival::Stage::Fresh => (0, 0),
        rival::Stage::Running => (1, 0),
        rival::Stage::Closing(piece) => (2, piece),
        rival::Stage::Closed => (3, 0),
    };
    FstfRecorder {
        stage,
        piece,
        sections: state.sections,
        frames: state.frames,
        first: state.first,
        last: state.last,
        end: state.end,
    }
}

fn flat_taken(given: FstfRecorder, answer: Result<(rival::State, rival::Piece), Refusal>) -> FstfTaken {
    match answer {
        Ok((state, piece)) => {
            FstfTaken { refused: 0, place: 0, start: piece.place, length: piece.length, recorder: flat_state(state) }
        }
        Err(Refusal { number, place }) => FstfTaken { refused: number, place, start: 0, length: 0, recorder: given },
    }
}

fn flat_tag(answer: Result<Option<rival::Tag>, Refusal>) -> FstfTag {
    let none = FstfTag { refused: 0, place: 0, found: 0, name: 0, name_length: 0, value: 0, value_length: 0 };
    match answer {
        Ok(Some(tag)) => FstfTag {
            refused: 0,
            place: 0,
            found: 1,
            name: tag.name,
            name_length: tag.name_length,
            value: tag.value,
            value_length: tag.value_length,
        },
        Ok(None) => none,
        Err(Refusal { number, place }) => FstfTag { refused: number, place, ..none },
    }
}

fn flat_stop(stop: Option<rival::Stop>) -> FstfCursor {
    match stop {
        Some(rival::Stop { tag, left }) => FstfCursor {
            refused: 0,
            place: 0,
            found: 1,
            name: tag.name,
            name_length: tag.name_length,
            value: tag.value,
            value_length: tag.value_length,
            left,
        },
        None => FstfCursor::default(),
    }
}

/// The rival's stop for the numbers of a cursor of the face, which is at a tag where its `found` is not 0.
fn their_stop(at: FstfCursor) -> Option<rival::Stop> {
    if at.found == 0 {
        return None;
    }
    let tag = rival::Tag { name: at.name, name_length: at.name_length, value: at.value, value_length: at.value_length };
    Some(rival::Stop { tag, left: at.left })
}

/// The item that a kind of the face names; a kind that is none asks for a frame that no file has.
fn their_item(kind: u64, i: u64, j: u64) -> rival::Item {
    match kind {
        0 => rival::Item::Section(i, j),
        1 => rival::Item::SectionName(i),
        2 => rival::Item::Configuration(i),
        3 => rival::Item::SystemName(i),
        4 => rival::Item::SystemValue(i),
        5 => rival::Item::UserName(i),
        6 => rival::Item::UserValue(i),
        _ => rival::Item::Section(u64::MAX, j),
    }
}

fn within(file: &[u8], start: u64, length: u64) -> bool {
    matches!(start.checked_add(length), Some(end) if end <= file.len() as u64)
}

/// The law of look and commit: what refuses the one refuses the other at the same place, and commit is refused 11 exactly where look shows a conflict, at
/// the lowest.
fn as_looked(looked: FstfLooked, committed: FstfCommitted) -> bool {
    let answered = (committed.refused, committed.place);
    if looked.refused != 0 {
        return answered == (looked.refused, looked.place);
    }
    if looked.conflicts != 0 {
        return answered == (11, u64::from(looked.conflicts.trailing_zeros()));
    }
    [(0, 0), (17, 0), (9, 0)].contains(&answered)
}

/// The law of look and convert: what refuses a file for the one refuses it for the other, and a sheet that look takes comes back as it is. Where look finds
/// a fault in the sheet, convert finds it there too, unless it is a kind that says nobody looked: that is filled in, if no fault is further on.
fn as_looked_at(looked: FstfLooked, sheet: &[u8], converted: FstfConverted, out: &[u8]) -> bool {
    let answered = (converted.refused, converted.place);
    if looked.refused == 0 {
        let same = out.get(..sheet.len()) == Some(sheet) && converted.length == sheet.len() as u64;
        return if out.len() < sheet.len() { answered == (9, 0) } else { answered == (0, 0) && same };
    }
    if answered == (looked.refused, looked.place) {
        return true;
    }
    let place = looked.place as usize;
    if looked.refused != 10 || sheet.get(place) != Some(&2) {
        return false;
    }
    match answered {
        (10, further) => further > looked.place,
        (0, 0) => out[..place] == sheet[..place] && out[place] < 2,
        _ => answered == (9, 0),
    }
}

/// The seen kinds of a sheet that both sides take.
fn seen_kinds(sheet: &[u8]) -> Vec<u8> {
    let mut kinds = Vec::new();
    let mut at = 1;
    for _ in 0..sheet[0] {
        at += 1 + usize::from(sheet[at]);
        kinds.push(sheet[at]);
        for _seen_and_new in 0..2 {
            at += if sheet[at] == 1 { 2 + usize::from(sheet[at + 1]) } else { 1 };
        }
    }
    kinds
}

fn flat_committed(answer: Result<u64, Refusal>) -> FstfCommitted {
    match answer {
        Ok(length) => FstfCommitted { refused: 0, place: 0, length },
        Err(Refusal { number, place }) => FstfCommitted { refused: number, place, length: 0 },
    }
}

/// The refusal of an item that is not there, by the numbers of an opening.
fn refused_by(numbers: FstfOpened) -> (u64, u64) {
    match numbers.refused {
        0 => (8, 0),
        refused => (refused, numbers.place),
    }
}

impl Sides {
    pub fn new(seed: u64) -> Sides {
        Sides {
            seed,
            group: "",
            case: 0,
            inputs: 0,
            differences: 0,
            met: [[0; NUMBERS + 1]; CALLS.len()],
            without_tag: [0; CALLS.len()],
            places: HashSet::new(),
            conflicting: 0,
            several_conflicts: 0,
            filled: [0; 2],
            unchanged: 0,
            after_conversion: [0; NUMBERS + 1],
        }
    }

    pub fn enough(&self) -> bool {
        self.differences >= ENOUGH
    }

    /// Counts a number, and prints the input and both answers where they differ.
    fn settle(&mut self, call: Call, refused: u64, agree: bool, input: &dyn Fn() -> String, answers: [&dyn Debug; 2]) {
        self.inputs += 1;
        self.met[call as usize][(refused as usize).min(NUMBERS)] += 1;
        if !agree {
            self.differ(call, input, answers);
        }
    }

    /// Prints the input and both answers.
    fn differ(&mut self, call: Call, input: &dyn Fn() -> String, answers: [&dyn Debug; 2]) {
        self.differences += 1;
        if self.differences > ENOUGH {
            return;
        }
        println!("seed {} group {} case {}: {}", self.seed, self.group, self.case, CALLS[call as usize].0);
        println!("  {}", input());
        println!("  library {:?}", answers[0]);
        println!("  rival   {:?}", answers[1]);
    }

    fn settle_lent(
        &mut self,
        call: Call,
        refused: u64,
        agree: bool,
        lent: &[&Lent],
        input: &dyn Fn() -> String,
        answers: [&dyn Debug; 2],
    ) {
        let same = lent.iter().all(|bytes| bytes.agree());
        self.settle(call, refused, agree && same, &|| with_lent(input, lent), answers);
    }

    /// What both sides could miss together: an answer that is known from how the bytes were made.
    pub fn known(&mut self, holds: bool, what: &str, bytes: &[u8]) {
        if holds {
            return;
        }
        self.differences += 1;
        println!("seed {} group {} case {}: not so: {}", self.seed, self.group, self.case, what);
        println!("  {}", shown(bytes));
    }

    pub fn fresh(&mut self) -> FstfRecorder {
        let ours = ours::new();
        let theirs = flat_state(rival::State::new());
        self.settle(Call::New, 0, ours == theirs, &String::new, [&ours, &theirs]);
        ours
    }

    pub fn open(&mut self, file: &[u8]) -> FstfOpened {
        let ours = ours::open(file);
        let none = FstfOpened {
            refused: 0,
            place: 0,
            frames: 0,
            sections: 0,
            system_tags: 0,
            user_tags: 0,
            system: 0,
            start: 0,
            index: 0,
            user: 0,
        };
        let theirs = match rival::open(file) {
            Ok(opened) => FstfOpened {
                refused: 0,
                place: 0,
                frames: opened.frames,
                sections: opened.sections,
                system_tags: opened.system_tags,
                user_tags: opened.user_tags,
                // The rival does not hand it out: the header's own field.
                system: number(file, 17, 8),
                start: opened.start,
                index: opened.index,
                user: opened.user,
            },
            Err(Refusal { number, place }) => FstfOpened { refused: number, place, ..none },
        };
        let input = || format!("file {}", shown(file));
        self.settle(Call::Open, ours.refused, ours == theirs, &input, [&ours, &theirs]);
        self.count_place(Call::Open, ours.refused, ours.place);
        ours
    }

    /// A frame by its number, from the file and from the numbers of its opening.
    pub fn frame(&mut self, file: &[u8], opened: FstfOpened, i: u64) -> FstfFrame {
        let ours = ours::frame(file, i);
        let none = FstfFrame { refused: 0, place: 0, start: 0, length: 0, time: 0, exposure: 0 };
        let theirs = match rival::frame(file, i) {
            Ok(frame) => FstfFrame {
                refused: 0,
                place: 0,
                start: frame.place,
                length: frame.length,
                time: frame.time,
                exposure: u64::from(frame.exposure),
            },
            Err(Refusal { number, place }) => FstfFrame { refused: number, place, ..none },
        };
        let input = || format!("frame {} of file {}", i, shown(file));
        self.settle(Call::Frame, ours.refused, ours == theirs, &input, [&ours, &theirs]);
        self.count_place(Call::Frame, ours.refused, ours.place);
        let held = ours::frame_of(file, opened, i);
        self.settle(Call::FrameOf, held.refused, held == theirs, &input, [&held, &theirs]);
        self.count_place(Call::FrameOf, held.refused, held.place);
        ours
    }

    /// A part by its kind and numbers, from the file and from the numbers of its opening.
    pub fn part(&mut self, file: &[u8], opened: FstfOpened, kind: u64, i: u64, j: u64) -> FstfPart {
        let ours = ours::part(file, kind, i, j);
        let theirs = match rival::part(file, their_item(kind, i, j)) {
            Ok((start, length)) => FstfPart { refused: 0, place: 0, start, length },
            Err(Refusal { number, place }) => FstfPart { refused: number, place, start: 0, length: 0 },
        };
        let input = || format!("kind {} numbers {} {} of file {}", kind, i, j, shown(file));
        self.settle(Call::Part, ours.refused, ours == theirs, &input, [&ours, &theirs]);
        self.count_place(Call::Part, ours.refused, ours.place);
        let held = ours::part_of(file, opened, kind, i, j);
        self.settle(Call::PartOf, held.refused, held == theirs, &input, [&held, &theirs]);
        self.count_place(Call::PartOf, held.refused, held.place);
        ours
    }

    /// A frame by any numbers, which the rival does not know: it lies in the file, or is refused as the opening was, place and all, or 8.
    pub fn frame_of(&mut self, file: &[u8], numbers: FstfOpened, i: u64) {
        let ours = ours::frame_of(file, numbers, i);
        let (refused, place) = refused_by(numbers);
        let none = FstfFrame { refused, place, start: 0, length: 0, time: 0, exposure: 0 };
        let inside = ours.refused == 0 && within(file, ours.start, ours.length);
        let agree = ours == none || inside && numbers.refused == 0;
        let input = || format!("frame {} by {:?} of file {}", i, numbers, shown(file));
        self.settle(Call::FrameOf, ours.refused, agree, &input, [&ours, &"in the file, or refused"]);
    }

    /// A part by any numbers, as `frame_of`.
    pub fn part_of(&mut self, file: &[u8], numbers: FstfOpened, kind: u64, i: u64, j: u64) {
        let ours = ours::part_of(file, numbers, kind, i, j);
        let (refused, place) = refused_by(numbers);
        let none = FstfPart { refused, place, start: 0, length: 0 };
        let inside = ours.refused == 0 && within(file, ours.start, ours.length);
        let agree = ours == none || inside && numbers.refused == 0;
        let input = || format!("kind {} numbers {} {} by {:?} of file {}", kind, i, j, numbers, shown(file));
        self.settle(Call::PartOf, ours.refused, agree, &input, [&ours, &"in the file, or refused"]);
    }

    /// What the call answered, the notes and the output.
    pub fn begin(
        &mut self,
        given: FstfRecorder,
        setup: &[u8],
        system: &[u8],
        notes: &[u8],
        out: &[u8],
    ) -> (FstfTaken, Vec<u8>, Vec<u8>) {
        let mut notes = Lent::new(notes);
        let mut out = Lent::new(out);
        let ours = ours::begin(given, setup, system, &mut notes.ours, &mut out.ours);
        let state = their_state(given);
        let answer = rival::begin(state, setup, system, &mut notes.theirs, &mut out.theirs);
        let theirs = flat_taken(given, answer);
        let written = if ours.refused == 0 { 4 } else { 0 };
        let kept = notes.kept_from(written) && out.kept_from(ours.length as usize);
        let agree = ours == theirs && kept;
        let input = || format!("{:?}\n  set-up {}\n  system {}", given, shown(setup), shown(system));
        self.settle_lent(Call::Begin, ours.refused, agree, &[&notes, &out], &input, [&ours, &theirs]);
        self.count_place(Call::Begin, ours.refused, ours.place);
        (ours, notes.ours, out.ours)
    }

    /// What the call answered, the notes and the output.
    pub fn add(
        &mut self,
        given: FstfRecorder,
        time: i64,
        exposure: u32,
        sections: &[u8],
        notes: &[u8],
        out: &[u8],
    ) -> (FstfTaken, Vec<u8>, Vec<u8>) {
        let mut notes = Lent::new(notes);
        let mut out = Lent::new(out);
        let ours = ours::add(given, time, exposure, sections, &mut notes.ours, &mut out.ours);
        let state = their_state(given);
        let answer = rival::add(state, time, exposure, sections, &mut notes.theirs, &mut out.theirs);
        let theirs = flat_taken(given, answer);
        let refused = ours.refused != 0;
        let kept = out.kept_from(ours.length as usize) && (!refused || notes.kept_from(0));
        let agree = ours == theirs && kept;
        let input = || format!("{:?} time {} exposure {}\n  sections {}", given, time, exposure, shown(sections));
        self.settle_lent(Call::Add, ours.refused, agree, &[&notes, &out], &input, [&ours, &theirs]);
        (ours, notes.ours, out.ours)
    }

    /// What the call answered, and the output.
    pub fn close(&mut self, given: FstfRecorder, notes: &[u8], out: &[u8]) -> (FstfTaken, Vec<u8>) {
        let mut out = Lent::new(out);
        let ours = ours::close(given, notes, &mut out.ours);
        let theirs = flat_taken(given, rival::close(their_state(given), notes, &mut out.theirs));
        let agree = ours == theirs && out.kept_from(ours.length as usize);
        let input = || format!("{:?}\n  notes {}", given, shown(notes));
        self.settle_lent(Call::Close, ours.refused, agree, &[&out], &input, [&ours, &theirs]);
        (ours, out.ours)
    }

    /// What the call answered, and the output.
    pub fn repair(&mut self, file: &[u8], out: &[u8]) -> (FstfRepaired, Vec<u8>) {
        let mut out = Lent::new(out);
        let ours = ours::repair(file, &mut out.ours);
        let none = FstfRepaired { refused: 0, place: 0, kept: 0, count: 0, index: 0, user: 0, tail: 0 };
        let theirs = match rival::repair(file, &mut out.theirs) {
            Ok(repaired) => FstfRepaired {
                refused: 0,
                place: 0,
                kept: repaired.kept,
                count: repaired.count,
                index: repaired.index,
                user: repaired.user,
                tail: repaired.tail,
            },
            Err(Refusal { number, place }) => FstfRepaired { refused: number, place, ..none },
        };
        let agree = ours == theirs && out.kept_from(ours.tail as usize);
        let input = || format!("file {}", shown(file));
        self.settle_lent(Call::Repair, ours.refused, agree, &[&out], &input, [&ours, &theirs]);
        self.count_place(Call::Repair, ours.refused, ours.place);
        (ours, out.ours)
    }

    pub fn look(&mut self, file: &[u8], sheet: &[u8]) -> FstfLooked {
        let ours = ours::look(file, sheet);
        let theirs = match rival::look(file, sheet) {
            Ok(rival::Looked { changes, conflicts }) => FstfLooked { refused: 0, place: 0, changes, conflicts },
            Err(Refusal { number, place }) => FstfLooked { refused: number, place, changes: 0, conflicts: 0 },
        };
        let input = || format!("file {}\n  sheet {}", shown(file), shown(sheet));
        self.settle(Call::Look, ours.refused, ours == theirs, &input, [&ours, &theirs]);
        self.count_place(Call::Look, ours.refused, ours.place);
        self.conflicting |= ours.conflicts;
        self.several_conflicts += u64::from(ours.conflicts.count_ones() > 1);
        ours
    }

    /// What the call answered, and the output. `looked` is what look answered to the same file and sheet, which commit has to bear out.
    pub fn commit(&mut self, file: &[u8], sheet: &[u8], looked: FstfLooked, out: &[u8]) -> (FstfCommitted, Vec<u8>) {
        let mut out = Lent::new(out);
        let ours = ours::commit(file, sheet, &mut out.ours);
        let theirs = flat_committed(rival::commit(file, sheet, &mut out.theirs));
        let agree = ours == theirs && as_looked(looked, ours) && out.kept_from(ours.length as usize);
        let input = || format!("file {}\n  sheet {}\n  {:?}", shown(file), shown(sheet), looked);
        self.settle_lent(Call::Commit, ours.refused, agree, &[&out], &input, [&ours, &theirs]);
        self.count_place(Call::Commit, ours.refused, ours.place);
        (ours, out.ours)
    }

    /// What the call answered, and the output. `looked` is what look answered to the same file and sheet, which convert has to bear out.
    pub fn convert(&mut self, file: &[u8], sheet: &[u8], looked: FstfLooked, out: &[u8]) -> (FstfConverted, Vec<u8>) {
        let mut out = Lent::new(out);
        let ours = ours::convert(file, sheet, &mut out.ours);
        let theirs = match rival::convert(file, sheet, &mut out.theirs) {
            Ok(length) => FstfConverted { refused: 0, place: 0, length },
            Err(Refusal { number, place }) => FstfConverted { refused: number, place, length: 0 },
        };
        let kept = out.kept_from(ours.length as usize);
        let agree = ours == theirs && kept && out.agree() && as_looked_at(looked, sheet, ours, &out.ours);
        let input = || format!("file {}\n  sheet {}\n  {:?}", shown(file), shown(sheet), looked);
        self.settle_lent(Call::Convert, ours.refused, agree, &[&out], &input, [&ours, &theirs]);
        self.count_place(Call::Convert, ours.refused, ours.place);
        if agree && ours.refused == 0 {
            self.count_filled(sheet, &out.ours[..ours.length as usize]);
        }
        (ours, out.ours)
    }

    /// Each kind that says nobody looked has become another, and every other is as it was.
    fn count_filled(&mut self, old: &[u8], new: &[u8]) {
        let (before, after) = (seen_kinds(old), seen_kinds(new));
        self.unchanged += u64::from(old == new);
        let mut filled = before.len() == after.len();
        for (before, after) in before.into_iter().zip(after) {
            match (before, after) {
                (2, 0 | 1) => self.filled[usize::from(after)] += 1,
                _ => filled &= before == after && after < 2,
            }
        }
        self.known(filled, "a conversion replaces each kind 2 of what was seen, and no other", old);
    }

    /// The commit of a converted sheet on both sides. What the library answers is held against the rival's commit of the old sheet as well, as it was
    /// before request #111: number, place, table and the bytes behind it.
    pub fn commit_of_converted(
        &mut self,
        file: &[u8],
        old: &[u8],
        new: &[u8],
        looked: FstfLooked,
        out: &[u8],
    ) -> FstfCommitted {
        let (ours, left) = self.commit(file, new, looked, out);
        let mut lent = Lent { ours: left, ..Lent::new(out) };
        let theirs = flat_committed(rival::commit_of_old_sheet(file, old, &mut lent.theirs));
        self.after_conversion[(ours.refused as usize).min(NUMBERS)] += 1;
        if ours != theirs || !lent.agree() {
            let input = || format!("file {}\n  old sheet {}\n  converted {}", shown(file), shown(old), shown(new));
            self.differ(Call::Commit, &|| with_lent(&input, &[&lent]), [&ours, &theirs]);
        }
        ours
    }

    pub fn tag_at(&mut self, table: &[u8], number: u64) -> FstfTag {
        let ours = ours::tag_at(table, number);
        let theirs = flat_tag(rival::tag_at(table, number));
        let input = || format!("number {} of table {}", number, shown(table));
        self.settle(Call::TagAt, ours.refused, ours == theirs, &input, [&ours, &theirs]);
        self.count_tag(Call::TagAt, ours.refused, ours.found);
        self.count_place(Call::TagAt, ours.refused, ours.place);
        ours
    }

    pub fn tag_named(&mut self, table: &[u8], name: &[u8]) -> FstfTag {
        let ours = ours::tag_named(table, name);
        let theirs = flat_tag(rival::tag_named(table, name));
        let input = || format!("name {}\n  table {}", shown(name), shown(table));
        self.settle(Call::TagNamed, ours.refused, ours == theirs, &input, [&ours, &theirs]);
        self.count_tag(Call::TagNamed, ours.refused, ours.found);
        self.count_place(Call::TagNamed, ours.refused, ours.place);
        ours
    }

    pub fn first_tag(&mut self, table: &[u8]) -> FstfCursor {
        let ours = ours::first_tag(table);
        let theirs = match rival::first_tag(table) {
            Ok(stop) => flat_stop(stop),
            Err(Refusal { number, place }) => FstfCursor { refused: number, place, ..FstfCursor::default() },
        };
        let input = || format!("table {}", shown(table));
        self.settle(Call::FirstTag, ours.refused, ours == theirs, &input, [&ours, &theirs]);
        self.count_tag(Call::FirstTag, ours.refused, ours.found);
        self.count_place(Call::FirstTag, ours.refused, ours.place);
        ours
    }

    /// The cursor behind any: a refusal is passed through with its place, the end stays.
    pub fn next_tag(&mut self, table: &[u8], at: FstfCursor) -> FstfCursor {
        let ours = ours::next_tag(table, at);
        let theirs = match at.refused {
            0 => flat_stop(their_stop(at).and_then(|stop| rival::next_tag(table, stop))),
            refused => FstfCursor { refused, place: at.place, ..FstfCursor::default() },
        };
        let input = || format!("{:?} of table {}", at, shown(table));
        self.settle(Call::NextTag, ours.refused, ours == theirs, &input, [&ours, &theirs]);
        self.count_tag(Call::NextTag, ours.refused, ours.found);
        // Any place is passed through, but only a fault of the table counts as one.
        let passed = Refusal { number: ours.refused, place: ours.place };
        if ours.refused == 7 && rival::first_tag(table) == Err(passed) {
            self.count_place(Call::NextTag, ours.refused, ours.place);
        }
        ours
    }

    fn count_tag(&mut self, call: Call, refused: u64, found: u64) {
        self.without_tag[call as usize] += u64::from(refused == 0 && found == 0);
    }

    fn count_place(&mut self, call: Call, refused: u64, place: u64) {
        if place != 0 && PLACED.contains(&refused) {
            self.places.insert((call as usize, refused, place));
        }
    }

    /// At how many places other than 0 a call found its faults.
    fn places_of(&self, call: usize, refused: u64) -> usize {
        self.places.iter().filter(|met| (met.0, met.1) == (call, refused)).count()
    }

    /// What was met of the sets that look answers, and how much of it is lacking: each change has to conflict in some sheet, and several in one.
    fn report_of_sets(&self) -> (String, usize) {
        let places = self.conflicting.count_ones();
        let mut line = format!(", conflicts at {} of 64 places, several at once {}", places, self.several_conflicts);
        if places == 64 && self.several_conflicts > 0 {
            return (line, 0);
        }
        line += " NEVER MET";
        (line, 1)
    }

    /// What was met of conversions, and how much of it is lacking: both ways to fill in a kind, sheets that stay, and each answer of a commit.
    fn report_of_conversions(&self) -> (String, usize) {
        let [absent, value] = self.filled;
        let mut counts = vec![
            (", changes filled in as absent ".to_string(), absent),
            (", with a value ".to_string(), value),
            (", sheets unchanged ".to_string(), self.unchanged),
        ];
        for number in AFTER_CONVERSION {
            let answer = if number == 0 { "accepted".to_string() } else { number.to_string() };
            counts.push((format!(", then committed {}: ", answer), self.after_conversion[number as usize]));
        }
        let mut line = String::new();
        let mut lacking = 0;
        for (what, times) in counts {
            line += &format!("{}{}", what, times);
            if times == 0 {
                line += " NEVER MET";
                lacking += 1;
            }
        }
        (line, lacking)
    }

    /// Prints how often each number of each call was met, and at how many places; answers how many of its order were never met, or met outside it, or
    /// were met at no place.
    pub fn report(&self) -> usize {
        let mut lacking = 0;
        for (call, (name, order)) in CALLS.iter().enumerate() {
            let (met, without) = (&self.met[call], self.without_tag[call]);
            let mut line = format!("{}:", name);
            for number in *order {
                let times = met[*number as usize];
                match *number {
                    0 => line += &format!(" accepted {}", times),
                    refused => line += &format!(", {}: {}", refused, times),
                }
                if times == 0 {
                    lacking += 1;
                    line += " NEVER MET";
                }
                if PLACED.contains(number) {
                    let places = self.places_of(call, *number);
                    line += &format!(" at {} places", places);
                    if places == 0 {
                        lacking += 1;
                        line += " BUT 0";
                    }
                }
            }
            for (number, times) in met.iter().enumerate() {
                if *times > 0 && !order.contains(&(number as u64)) {
                    lacking += 1;
                    line += &format!(", NOT IN ITS ORDER {}: {}", number, times);
                }
            }
            // of the accepted ones some find a tag, and some find none
            if name.contains("_tag") {
                line += &format!(", accepted without a tag {}", without);
                if without == 0 || without == met[0] {
                    lacking += 1;
                    line += " NEVER MET, OR ALWAYS";
                }
            }
            if call == Call::Look as usize {
                let (sets, never) = self.report_of_sets();
                line += &sets;
                lacking += never;
            }
            if call == Call::Convert as usize {
                let (conversions, never) = self.report_of_conversions();
                line += &conversions;
                lacking += never;
            }
            println!("{}", line);
        }
        lacking
    }
}
