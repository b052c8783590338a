//! The recorder: whole recordings call by call, states that no call handed out, set-up lists.

use crate::build::*;
use crate::files;
use crate::random::Random;
use crate::raw::FstfRecorder;
use crate::sides::Sides;

/// An output that is nothing but room.
fn ample(random: &mut Random, answer: usize) -> Vec<u8> {
    let more = random.size(20);
    random.bytes(answer + more)
}

/// An output of a length around the answer's.
fn around(random: &mut Random, answer: usize) -> Vec<u8> {
    let length = random.room(answer);
    random.bytes(length)
}

/// Bytes of a card, which grows as they are stored.
fn store(card: &mut Vec<u8>, place: u64, bytes: &[u8]) {
    let place = place as usize;
    if card.len() < place + bytes.len() {
        card.resize(place + bytes.len(), 0);
    }
    card[place..place + bytes.len()].copy_from_slice(bytes);
}

/// What a recording has so far: the state and the notes that are passed on, and the card.
struct Session {
    state: FstfRecorder,
    notes: Vec<u8>,
    card: Vec<u8>,
    sections: usize,
    /// Cards of the session as they were after each byte stored while closing.
    closing: Vec<Vec<u8>>,
}

fn closing_length(state: FstfRecorder) -> usize {
    match (state.stage, state.piece) {
        (1, _) | (2, 0) => 4 + 16 * state.frames.min(1_000_000) as usize,
        (2, 1) | (2, 2) => 4,
        _ => 8,
    }
}

impl Session {
    fn new(sides: &mut Sides, random: &mut Random) -> Session {
        let length = match random.below(4) {
            0 => random.size(60),
            _ => 4 + 16 * 40,
        };
        Session {
            state: sides.fresh(),
            notes: random.bytes(length),
            card: Vec::new(),
            sections: 1,
            closing: Vec::new(),
        }
    }

    fn begin(&mut self, sides: &mut Sides, random: &mut Random) {
        let recording = recording(random);
        let setup = setup(&recording.sections).bytes;
        let system = table(&recording.system).bytes;
        let length = smallest_front(&recording);
        let out = if random.one_in(3) { around(random, length) } else { ample(random, length) };
        let (taken, notes, left) = sides.begin(self.state, &setup, &system, &self.notes, &out);
        if taken.refused != 0 {
            return;
        }
        self.state = taken.recorder;
        self.notes = notes;
        self.sections = recording.sections.len();
        store(&mut self.card, taken.start, &left[..taken.length as usize]);
    }

    fn add(&mut self, sides: &mut Sides, random: &mut Random) {
        let time = next_time(random, self.state);
        let count = if random.one_in(30) { random.size(9) } else { self.sections };
        let frame = frame(random, time, count);
        let mut given = sizes(&frame.sections).bytes;
        if random.one_in(30) {
            bend(random, &mut given);
        }
        let out = if random.one_in(3) { around(random, given.len() + 16) } else { ample(random, given.len() + 16) };
        let (taken, notes, left) = sides.add(self.state, time, frame.exposure, &given, &self.notes, &out);
        if taken.refused != 0 {
            return;
        }
        self.state = taken.recorder;
        self.notes = notes;
        store(&mut self.card, taken.start, &left[..taken.length as usize]);
    }

    fn close(&mut self, sides: &mut Sides, random: &mut Random) {
        let length = closing_length(self.state);
        let out = if random.one_in(3) { around(random, length) } else { ample(random, length) };
        let (taken, left) = sides.close(self.state, &self.notes, &out);
        if taken.refused != 0 {
            return;
        }
        self.state = taken.recorder;
        for (i, byte) in left[..taken.length as usize].iter().enumerate() {
            store(&mut self.card, taken.start + i as u64, &[*byte]);
            self.closing.push(self.card.clone());
        }
    }

    /// The call that the stage takes, most times; now and then from a state that is off by one, which does not move the session.
    fn step(&mut self, sides: &mut Sides, random: &mut Random) {
        if random.one_in(8) {
            let mut other = Session {
                state: off_by_one(random, self.state),
                notes: self.notes.clone(),
                card: self.card.clone(),
                sections: self.sections,
                closing: Vec::new(),
            };
            other.call(sides, random);
        }
        self.call(sides, random);
    }

    fn call(&mut self, sides: &mut Sides, random: &mut Random) {
        let expected = match self.state.stage {
            0 => 0,
            1 => 1 + random.below(8) / 7,
            _ => 2,
        };
        match if random.one_in(8) { random.below(3) } else { expected } {
            0 => self.begin(sides, random),
            1 => self.add(sides, random),
            _ => self.close(sides, random),
        }
    }
}

fn off_by_one(random: &mut Random, state: FstfRecorder) -> FstfRecorder {
    let mut other = state;
    let step = random.pick(&[1, u64::MAX]);
    match random.below(7) {
        0 => other.stage = state.stage.wrapping_add(step),
        1 => other.piece = state.piece.wrapping_add(step),
        2 => other.sections = state.sections.wrapping_add(step),
        3 => other.frames = state.frames.wrapping_add(step),
        4 => other.first = state.first.wrapping_add(step as i64),
        5 => other.last = state.last.wrapping_add(step as i64),
        _ => other.end = state.end.wrapping_add(step),
    }
    other
}

fn smallest_front(recording: &Recording) -> usize {
    Recording { frames: Vec::new(), ..recording.clone() }.unclosed().bytes.len()
}

/// A time that the rule takes, most times.
fn next_time(random: &mut Random, state: FstfRecorder) -> i64 {
    if state.frames == 0 {
        return times(random, 1)[0];
    }
    match random.below(16) {
        0 => state.last.wrapping_sub(1),
        1 => state.first.wrapping_add(TIME_SPAN + 1),
        2 => state.first.saturating_add(TIME_SPAN),
        3 => i64::MIN,
        4 => i64::MAX,
        5 => random.next() as i64,
        6..=9 => state.last,
        _ => state.last.saturating_add(random.size(20) as i64),
    }
}

/// One fault in sections in file form, or a set-up list.
fn bend(random: &mut Random, bytes: &mut Vec<u8>) {
    match random.below(4) {
        0 => bytes.push(random.next() as u8),
        1 => {
            let length = random.size(bytes.len());
            bytes.truncate(length);
        }
        _ if bytes.is_empty() => (),
        2 => {
            let at = random.size(bytes.len() - 1);
            bytes[at] = random.next() as u8;
        }
        _ => {
            let at = random.size(bytes.len() - 1);
            bytes[at] = bytes[at].wrapping_add(random.pick(&[1, 255]));
        }
    }
}

/// A recording from a fresh state, with calls out of order among them, and what is on the card at its end and at cuts of it.
pub fn session(sides: &mut Sides, random: &mut Random) {
    let mut session = Session::new(sides, random);
    for _ in 0..8 + random.size(30) {
        session.step(sides, random);
        if session.state.stage == 3 && random.one_in(2) {
            break;
        }
    }
    let card = session.card;
    files::card(sides, random, &card);
    let closed = session.state.stage == 3;
    let opened = sides.open(&card);
    sides.known(!closed || opened.refused == 0, "a recording that was closed opens", &card);
    for _ in 0..2 {
        let length = random.size(card.len());
        files::card(sides, random, &card[..length]);
    }
    if session.closing.is_empty() {
        return;
    }
    for _ in 0..3 {
        let cut = random.size(session.closing.len() - 1);
        files::card(sides, random, &session.closing[cut]);
    }
}

/// A recording of few frames without a wrong call, cut after every byte that closing stores, piece by piece.
pub fn each_cut_of_closing(sides: &mut Sides, random: &mut Random) {
    let mut session = Session {
        state: sides.fresh(),
        notes: random.bytes(4 + 16 * 5),
        card: Vec::new(),
        sections: 1,
        closing: Vec::new(),
    };
    while session.state.stage == 0 {
        session.begin(sides, random);
    }
    if session.card.len() > 2000 {
        return;
    }
    for _ in 0..random.size(5) {
        session.add(sides, random);
    }
    while session.state.stage != 3 {
        session.close(sides, random);
    }
    for cut in &session.closing {
        files::card(sides, random, cut);
    }
}

const LIMIT: u64 = 1 << 40;
const USER_TABLE_ROOM: u64 = 512_004;

fn made_up_time(random: &mut Random) -> i64 {
    let drawn = random.next() as i64;
    random.pick(&[0, 0, 1000, 1001, -1, i64::MIN, i64::MAX, TIME_SPAN, TIME_SPAN + 1, 1000 + TIME_SPAN, drawn])
}

/// The largest end of a state with so many frames.
fn most_end(frames: u64) -> u64 {
    LIMIT - USER_TABLE_ROOM - 4 - 16 * frames.min(1_000_000)
}

/// A state that obeys its limits, though no call need have handed it out.
fn lawful(random: &mut Random) -> FstfRecorder {
    let stage = random.pick(&[0, 1, 1, 1, 1, 2, 2, 3]);
    let frames = random.pick(&[0, 0, 1, 1, 2, 3, 5, 12, 999_999, 1_000_000]);
    let first = made_up_time(random);
    let step = random.pick(&[0, 1, TIME_SPAN]);
    let most = most_end(frames);
    let back = random.below(200);
    let anywhere = random.below(most);
    FstfRecorder {
        stage,
        piece: if stage == 2 { random.below(5) } else { random.near(0) },
        sections: 1 + random.below(8),
        frames,
        first,
        last: first.checked_add(step).unwrap_or(first),
        end: random.pick(&[0, 48, most, most - back, anywhere]),
    }
}

/// One member put where its limit breaks, or just does not.
fn spoil(random: &mut Random, state: &mut FstfRecorder) {
    let drawn = random.next();
    match random.below(6) {
        0 => state.stage = random.pick(&[2, 4, 256, u64::MAX, drawn]),
        1 => {
            state.stage = 2;
            state.piece = random.pick(&[4, 5, 6, 255, 256, 1 << 32, u64::MAX, drawn]);
        }
        2 => state.sections = random.pick(&[0, 1, 8, 9, 257, u64::MAX, drawn]),
        3 => state.frames = random.pick(&[1_000_000, 1_000_001, 1 << 32, 1 << 60, u64::MAX, drawn]),
        4 => {
            let past = state.first.wrapping_add(TIME_SPAN + 1);
            state.last = random.pick(&[
                state.first.wrapping_sub(1),
                past,
                past.wrapping_sub(1),
                i64::MIN,
                i64::MAX,
                drawn as i64,
            ]);
        }
        _ => {
            let most = most_end(state.frames);
            state.end = random.pick(&[most, most + 1, LIMIT, u64::MAX, u64::MAX - 512_008, drawn]);
        }
    }
}

/// A state that no call need have handed out: lawful, or not by one member or more.
fn made_up(random: &mut Random) -> FstfRecorder {
    let mut state = lawful(random);
    let spoiled = match random.below(10) {
        0..=5 => 0,
        6..=8 => 1,
        _ => 3,
    };
    for _ in 0..spoiled {
        spoil(random, &mut state);
    }
    state
}

/// All three calls from made-up states.
pub fn made_up_states(sides: &mut Sides, random: &mut Random) {
    let recording = small(random);
    let setup = setup(&recording.sections).bytes;
    let system = table(&recording.system).bytes;
    for _ in 0..12 {
        let state = made_up(random);
        let length = random.size(100);
        let notes = random.bytes(length);
        let out = around(random, smallest_front(&recording));
        sides.begin(state, &setup, &system, &notes, &out);

        let count = if random.one_in(8) { random.size(9) } else { state.sections.min(9) as usize };
        let time = next_time(random, state);
        let frame = frame(random, time, count);
        let given = sizes(&frame.sections).bytes;
        let length = 4 + 16 * (state.frames.min(20) as usize + 1);
        let notes = around(random, length);
        let out = around(random, given.len() + 16);
        sides.add(state, time, frame.exposure, &given, &notes, &out);

        // The end moved so that the frame just fits, or just does not.
        let with_it = 4 + 16 * (state.frames.min(1_000_000) + 1) + USER_TABLE_ROOM;
        let fits = LIMIT - with_it - given.len() as u64 - 16;
        let end = fits.wrapping_add(random.pick(&[0, 1, u64::MAX]));
        sides.add(FstfRecorder { end, ..state }, time, frame.exposure, &given, &notes, &out);

        let out = around(random, closing_length(state).min(400));
        sides.close(state, &notes, &out);
    }
}

/// Set-up lists and system tables, good and bad, for a fresh state.
pub fn setups(sides: &mut Sides, random: &mut Random) {
    let mut state = sides.fresh();
    for _ in 0..8 {
        let mut recording = recording(random);
        bend_sections(random, &mut recording.sections);
        let mut list = setup(&recording.sections);
        if random.one_in(4) {
            bend(random, &mut list.bytes);
        }
        let mut system = table(&recording.system);
        if random.one_in(5) {
            bend(random, &mut system.bytes);
        }
        if random.one_in(4) {
            // A fresh state's numbers are not looked at.
            state = FstfRecorder { stage: 0, ..made_up(random) };
        }
        let room = if random.one_in(3) { random.size(8) } else { 4 + random.size(30) };
        let notes = random.bytes(room);
        let length = smallest_front(&recording);
        let out = around(random, length);
        sides.begin(state, &list.bytes, &system.bytes, &notes, &out);
        let out = ample(random, length);
        sides.begin(state, &list.bytes, &system.bytes, &notes, &out);
    }
}

/// Sections in file form, good and bad, for a running state.
pub fn shapes(sides: &mut Sides, random: &mut Random) {
    for _ in 0..8 {
        let sections = 1 + random.below(8);
        let state = FstfRecorder { stage: 1, piece: 0, sections, frames: 0, first: 0, last: 0, end: 48 };
        let count = if random.one_in(4) { random.size(9) } else { sections as usize };
        let frame = frame(random, 5, count);
        let written = sizes(&frame.sections);
        let mut given = written.bytes;
        if random.one_in(2) {
            bend(random, &mut given);
        }
        if random.one_in(4) && !written.fields.is_empty() {
            let (at, width) = random.pick(&written.fields);
            let size = random.pick(&[0, 16_777_216, 16_777_217, u64::from(u32::MAX), 1 << 31]);
            if at + width <= given.len() {
                set_number(&mut given, at, width, size);
            }
        }
        let notes = around(random, 20);
        let out = around(random, given.len() + 16);
        sides.add(state, 5, frame.exposure, &given, &notes, &out);
    }
}
