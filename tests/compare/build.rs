//! Recordings, tables, set-up lists and sheets as bytes, written from document 01's layout: what both sides are given.

use crate::random::Random;
use std::collections::HashSet;

pub const MARK: [u8; 4] = [0xFF, 0x22, 0x01, 0xEE];
pub const TIME_SPAN: i64 = 4_294_967_295;

#[derive(Clone)]
pub struct Section {
    pub name: Vec<u8>,
    pub configuration: Vec<u8>,
}

#[derive(Clone)]
pub struct Tag {
    pub name: Vec<u8>,
    pub value: Vec<u8>,
}

#[derive(Clone)]
pub struct Frame {
    pub time: i64,
    pub exposure: u32,
    pub sections: Vec<Vec<u8>>,
}

#[derive(Clone)]
pub struct Recording {
    pub sections: Vec<Section>,
    pub system: Vec<Tag>,
    pub frames: Vec<Frame>,
    pub user: Vec<Tag>,
}

/// Bytes, with the places where numbers stand and where structures start, for those who damage them.
#[derive(Default, Clone)]
pub struct Written {
    pub bytes: Vec<u8>,
    /// Place and width of each number.
    pub fields: Vec<(usize, usize)>,
    pub starts: Vec<usize>,
}

impl Written {
    pub fn number(&mut self, value: u64, width: usize) {
        self.fields.push((self.bytes.len(), width));
        self.bytes.extend_from_slice(&value.to_le_bytes()[..width]);
    }

    pub fn short(&mut self, bytes: &[u8]) {
        self.number(bytes.len() as u64, 1);
        self.bytes.extend_from_slice(bytes);
    }

    pub fn start(&mut self) {
        self.starts.push(self.bytes.len());
    }

    fn tags(&mut self, tags: &[Tag]) {
        self.start();
        self.number(tags.len() as u64, 4);
        for tag in tags {
            self.start();
            self.short(&tag.name);
            self.short(&tag.value);
        }
    }

    fn frame(&mut self, frame: &Frame) {
        self.start();
        self.number(u64::from(u32::from_le_bytes(MARK)), 4);
        self.number(frame.time as u64, 8);
        self.number(u64::from(frame.exposure), 4);
        for section in &frame.sections {
            self.number(section.len() as u64, 4);
            self.bytes.extend_from_slice(section);
        }
    }
}

pub fn table(tags: &[Tag]) -> Written {
    let mut written = Written::default();
    written.tags(tags);
    written
}

pub fn setup(sections: &[Section]) -> Written {
    let mut written = Written::default();
    written.number(sections.len() as u64, 1);
    for section in sections {
        written.start();
        written.short(&section.name);
        written.number(section.configuration.len() as u64, 2);
        written.bytes.extend_from_slice(&section.configuration);
    }
    written
}

/// The sections of a frame, in file form.
pub fn sizes(sections: &[Vec<u8>]) -> Written {
    let mut written = Written::default();
    for section in sections {
        written.start();
        written.number(section.len() as u64, 4);
        written.bytes.extend_from_slice(section);
    }
    written
}

impl Recording {
    fn front(&self, count: u64, index: u64, user: u64) -> Written {
        let names: usize = self.sections.iter().map(|section| section.name.len() + 9).sum();
        let definitions_end = 34 + names;
        let configurations: usize = self.sections.iter().map(|section| section.configuration.len()).sum();
        let mut written = Written::default();
        written.bytes.extend_from_slice(b"FSTF");
        written.number(1, 1);
        written.number(count, 4);
        written.number(index, 8);
        written.number((definitions_end + configurations) as u64, 8);
        written.number(user, 8);
        written.start();
        written.number(self.sections.len() as u64, 1);
        let mut offset = definitions_end;
        for section in &self.sections {
            written.start();
            written.short(&section.name);
            written.number(offset as u64, 8);
            offset += section.configuration.len();
        }
        for section in &self.sections {
            written.start();
            written.bytes.extend_from_slice(&section.configuration);
        }
        written.tags(&self.system);
        written
    }

    /// Front and frames, as they stand before closing.
    pub fn unclosed(&self) -> Written {
        let mut written = self.front(0, 0, 0);
        for frame in &self.frames {
            written.frame(frame);
        }
        written
    }

    /// The whole file.
    pub fn file(&self) -> Written {
        let front = self.front(0, 0, 0).bytes.len();
        let lengths: Vec<usize> = self.frames.iter().map(frame_length).collect();
        let index = front + lengths.iter().sum::<usize>();
        let user = index + 4 + 16 * self.frames.len();
        let mut written = self.front(self.frames.len() as u64, index as u64, user as u64);
        for frame in &self.frames {
            written.frame(frame);
        }
        written.start();
        written.number(self.frames.len() as u64, 4);
        let mut offset = front;
        for (frame, length) in self.frames.iter().zip(&lengths) {
            written.start();
            let since = frame.time.wrapping_sub(self.frames[0].time);
            written.number(since as u64 & 0xFFFF_FFFF, 4);
            written.number(offset as u64, 8);
            written.number(*length as u64, 4);
            offset += length;
        }
        written.tags(&self.user);
        written.start();
        written
    }
}

fn frame_length(frame: &Frame) -> usize {
    let contents: usize = frame.sections.iter().map(|section| 4 + section.len()).sum();
    16 + contents
}

/// The number of `width` bytes at `place`.
pub fn number(bytes: &[u8], place: usize, width: usize) -> u64 {
    let mut eight = [0; 8];
    eight[..width].copy_from_slice(&bytes[place..place + width]);
    u64::from_le_bytes(eight)
}

pub fn set_number(bytes: &mut [u8], place: usize, width: usize, value: u64) {
    bytes[place..place + width].copy_from_slice(&value.to_le_bytes()[..width]);
}

/// The file of document 01.
pub fn worked() -> Recording {
    Recording {
        sections: vec![Section { name: b"IMAGE".to_vec(), configuration: Vec::new() }],
        system: Vec::new(),
        frames: vec![Frame { time: 1000, exposure: 40, sections: vec![vec![0x34, 0x12]] }],
        user: Vec::new(),
    }
}

/// The smallest file: one section with a name of one byte, no frame.
pub fn smallest() -> Recording {
    Recording {
        sections: vec![Section { name: b"I".to_vec(), configuration: Vec::new() }],
        system: Vec::new(),
        frames: Vec::new(),
        user: Vec::new(),
    }
}

const NAME_BYTES: &[u8] = b"0123456789ABCDEFGHIJKLMNOPQRSTUVWXYZabcdefghijklmnopqrstuvwxyz";

fn name_length(random: &mut Random) -> usize {
    match random.below(40) {
        0 => 255,
        1 => 1 + random.size(254),
        2..=9 => 1,
        _ => 1 + random.size(7),
    }
}

/// Draws names until one is new; longer ones as more are taken.
fn distinct(taken: &mut HashSet<Vec<u8>>, random: &mut Random, draw: fn(&mut Random, usize) -> Vec<u8>) -> Vec<u8> {
    let mut length = name_length(random);
    loop {
        let name = draw(random, length);
        if taken.insert(name.clone()) {
            return name;
        }
        length = (length + 1).min(255);
    }
}

fn section_name(random: &mut Random, length: usize) -> Vec<u8> {
    (0..length).map(|_| random.pick(NAME_BYTES)).collect()
}

pub fn text(random: &mut Random, length: usize) -> Vec<u8> {
    (0..length).map(|_| 32 + random.size(94) as u8).collect()
}

fn configuration(random: &mut Random) -> Vec<u8> {
    let length = match random.below(300) {
        0 => 65_535,
        1 => random.size(65_535),
        2..=150 => 0,
        _ => random.size(20),
    };
    random.bytes(length)
}

pub fn sections(random: &mut Random) -> Vec<Section> {
    let count = if random.one_in(2) { 1 } else { 1 + random.size(7) };
    let mut taken = HashSet::new();
    (0..count)
        .map(|_| Section { name: distinct(&mut taken, random, section_name), configuration: configuration(random) })
        .collect()
}

pub fn tags(random: &mut Random, count: usize) -> Vec<Tag> {
    let mut taken = HashSet::new();
    (0..count)
        .map(|_| {
            let name = distinct(&mut taken, random, text);
            let length = match random.below(40) {
                0 => 255,
                1 => random.size(255),
                2..=9 => 0,
                _ => random.size(8),
            };
            Tag { name, value: text(random, length) }
        })
        .collect()
}

pub fn tag_count(random: &mut Random) -> usize {
    match random.below(600) {
        0 => 1000,
        1 => random.size(1000),
        2..=30 => random.size(40),
        31..=300 => 0,
        _ => random.size(5),
    }
}

/// The contents of a section; some hold what looks like a frame.
fn contents(random: &mut Random) -> Vec<u8> {
    let length = match random.below(60) {
        0 => random.size(600),
        1..=20 => 0,
        _ => random.size(12),
    };
    let mut bytes = random.bytes(length);
    if random.one_in(12) {
        bytes.extend_from_slice(&MARK);
        bytes.extend_from_slice(&[0; 20]);
    }
    bytes
}

pub fn frame(random: &mut Random, time: i64, sections: usize) -> Frame {
    Frame { time, exposure: random.next() as u32, sections: (0..sections).map(|_| contents(random)).collect() }
}

/// Times that never fall and stay within the span, from anywhere in the Int64s.
pub fn times(random: &mut Random, count: usize) -> Vec<i64> {
    let first = match random.below(6) {
        0 => i64::MIN,
        1 => i64::MAX - TIME_SPAN,
        2 => i64::MAX,
        3 => -1 - random.size(3) as i64,
        4 => random.next() as i64,
        _ => random.size(100_000) as i64,
    };
    let most = first.saturating_add(TIME_SPAN);
    let mut time = first;
    let mut times = Vec::with_capacity(count);
    for _ in 0..count {
        times.push(time);
        let step = match random.below(12) {
            0 => random.size(TIME_SPAN as usize) as i64,
            1 => TIME_SPAN,
            2..=5 => 0,
            6..=8 => 1,
            _ => random.size(1000) as i64,
        };
        time = time.saturating_add(step).min(most);
    }
    times
}

fn frame_count(random: &mut Random) -> usize {
    match random.below(200) {
        0 => random.size(300),
        1..=40 => 0,
        41..=80 => 1,
        _ => random.size(6),
    }
}

/// A legal recording of any shape.
pub fn recording(random: &mut Random) -> Recording {
    let sections = sections(random);
    let count = frame_count(random);
    let frames = times(random, count).into_iter().map(|time| frame(random, time, sections.len())).collect();
    let system = tag_count(random);
    let system = tags(random, system);
    let user = tag_count(random);
    let user = tags(random, user);
    Recording { sections, system, frames, user }
}

/// A legal recording of few bytes.
pub fn small(random: &mut Random) -> Recording {
    loop {
        let recording = recording(random);
        if recording.file().bytes.len() <= 400 {
            return recording;
        }
    }
}

/// Moves one frame's time to where the time rule may break.
pub fn bend_time(random: &mut Random, recording: &mut Recording) {
    if recording.frames.is_empty() {
        return;
    }
    let i = random.size(recording.frames.len() - 1);
    let first = recording.frames[0].time;
    let before = recording.frames[i.saturating_sub(1)].time;
    recording.frames[i].time = match random.below(7) {
        0 => before.wrapping_sub(1),
        1 => first.wrapping_add(TIME_SPAN),
        2 => first.wrapping_add(TIME_SPAN + 1),
        3 => i64::MIN,
        4 => i64::MAX,
        5 => before.wrapping_add(1),
        _ => random.next() as i64,
    };
}

/// One fault of the definitions rule, or none.
pub fn bend_sections(random: &mut Random, sections: &mut Vec<Section>) {
    let at = random.size(sections.len() - 1);
    match random.below(14) {
        0 => sections.clear(),
        1 => {
            while sections.len() < 9 {
                let name = format!("More{}", sections.len()).into_bytes();
                sections.push(Section { name, configuration: Vec::new() });
            }
        }
        2 => sections[at].name.clear(),
        3 => {
            let place = random.size(sections[at].name.len() - 1);
            let byte = random.pick(&[47, 58, 64, 91, 96, 123, 0, 32, 255]);
            sections[at].name[place] = byte;
        }
        4 => {
            let twice = sections[at].clone();
            sections.push(twice);
        }
        5 => {
            let mut other = sections[at].clone();
            other.name.make_ascii_lowercase();
            sections.push(other);
        }
        _ => (),
    }
}

/// One fault of the table rule, or none.
pub fn bend_tags(random: &mut Random, tags: &mut Vec<Tag>) {
    if tags.is_empty() {
        return;
    }
    let at = random.size(tags.len() - 1);
    let byte = random.pick(&[0, 31, 32, 126, 127, 128, 255]);
    match random.below(6) {
        0 => {
            let twice = Tag { name: tags[at].name.clone(), value: Vec::new() };
            tags.push(twice);
        }
        1 => tags[at].name.clear(),
        2 => {
            let place = random.size(tags[at].name.len() - 1);
            tags[at].name[place] = byte;
        }
        3 => tags[at].value.push(byte),
        4 if tags[at].value.len() == 255 => tags[at].value[254] = byte,
        _ => (),
    }
    for tag in tags {
        tag.value.truncate(255);
    }
}
