//! A recording that opened: its frames, sections and tags, as parts of the file's bytes.

use std::iter::FusedIterator;
use std::ops::Range;

use crate::calls;
use crate::date::Date;
use crate::form::between;
use crate::raw::{self, FstfCursor, FstfOpened};
use crate::refusal::{accepted, Refusal};

/// A recording that opened.
///
/// It lends the file's bytes, and holds the numbers of the opening: the file is opened once, and everything below is read by these numbers.
/// Nothing is copied; what is handed out are parts of the file.
#[derive(Debug, Clone, Copy)]
pub struct Recording<'a> {
    file: &'a [u8],
    opened: FstfOpened,
}

impl<'a> Recording<'a> {
    /// Opens a file that is lent as bytes. Refused 1 to 7: a file opens exactly when it is one that the layout describes. Of 3, 4 and 7,
    /// [`Refusal::spot`] tells which section or tag is at fault, and which character of it.
    pub fn open(file: &'a [u8]) -> Result<Recording<'a>, Refusal> {
        let opened = calls::open(file);
        accepted(opened.refusal())?;
        Ok(Recording { file, opened })
    }

    /// The bytes of the whole file.
    #[must_use]
    pub fn file(&self) -> &'a [u8] {
        self.file
    }

    /// The numbers of the opening, for the calls over plain slices.
    #[must_use]
    pub fn opened(&self) -> FstfOpened {
        self.opened
    }

    /// How many frames the recording has, 0 to 1,000,000.
    #[must_use]
    pub fn frame_count(&self) -> usize {
        self.opened.frames as usize
    }

    /// How many sections every frame has, 1 to 8.
    #[must_use]
    pub fn section_count(&self) -> usize {
        self.opened.sections as usize
    }

    /// A frame by its number, from 0. Refused 8.
    pub fn frame(&self, number: usize) -> Result<Frame<'a>, Refusal> {
        let found = calls::frame_of(self.file, self.opened, number as u64);
        accepted(found.refusal())?;
        Ok(Frame {
            recording: *self,
            number,
            place: found.start as usize,
            length: found.length as usize,
            time: found.time,
            exposure: found.exposure as u32,
        })
    }

    /// The frames, in the order in which they were taken.
    #[must_use]
    pub fn frames(&self) -> Frames<'a> {
        Frames { recording: *self, left: 0..self.frame_count() }
    }

    /// The frame of a time: the last one that was not taken after it. None where all frames are later, or there is none.
    ///
    /// It is found by halves, so that of 1,000,000 frames some 20 are looked at.
    #[must_use]
    pub fn frame_at(&self, time: i64) -> Option<Frame<'a>> {
        let later = self.first_number(|frame| frame.time() > time);
        self.frame(later.checked_sub(1)?).ok()
    }

    /// The frames from a time on: those that were not taken before it. The first of them is found by halves.
    #[must_use]
    pub fn frames_from(&self, time: i64) -> Frames<'a> {
        let first = self.first_number(|frame| frame.time() >= time);
        Frames { recording: *self, left: first..self.frame_count() }
    }

    // The number of the first frame that is so, or the count where none is; times never fall, so that all frames behind it are so too.
    fn first_number(&self, so: impl Fn(&Frame<'a>) -> bool) -> usize {
        let (mut low, mut high) = (0, self.frame_count());
        while low < high {
            let middle = low + (high - low) / 2;
            match self.frame(middle) {
                Ok(frame) if so(&frame) => high = middle,
                _ => low = middle + 1,
            }
        }
        low
    }

    /// The name of a section, by its number from 0: digits, capitals and small letters. Refused 8.
    pub fn section_name(&self, number: usize) -> Result<&'a str, Refusal> {
        self.part(raw::FSTF_SECTION_NAME, number, 0).map(text)
    }

    /// The configuration of a section, opaque bytes. Refused 8.
    pub fn configuration(&self, number: usize) -> Result<&'a [u8], Refusal> {
        self.part(raw::FSTF_CONFIGURATION, number, 0)
    }

    /// The sections that every frame has, by name and configuration.
    #[must_use]
    pub fn sections(&self) -> Sections<'a> {
        Sections { recording: *self, left: 0..self.section_count() }
    }

    /// The section of this name, if there is one. Names are equal by their bytes.
    #[must_use]
    pub fn section_named(&self, name: &str) -> Option<Section<'a>> {
        self.sections().find(|section| section.name == name)
    }

    /// The number of the section of this name, for [`Frame::section`].
    #[must_use]
    pub fn section_number(&self, name: &str) -> Option<usize> {
        self.sections().position(|section| section.name == name)
    }

    /// The tags that the camera's program wrote.
    #[must_use]
    pub fn system_tags(&self) -> Tags<'a> {
        Tags::new(self.system_table())
    }

    /// The tags that members wrote.
    #[must_use]
    pub fn user_tags(&self) -> Tags<'a> {
        Tags::new(self.user_table())
    }

    /// The value of the system tag of this name, if there is one. Names are equal by their bytes.
    #[must_use]
    pub fn system_tag(&self, name: &str) -> Option<&'a str> {
        value_of(self.system_tags(), name)
    }

    /// The value of the user tag of this name, if there is one: what a member who changes it has seen, see [`crate::Sheet`].
    #[must_use]
    pub fn user_tag(&self, name: &str) -> Option<&'a str> {
        value_of(self.user_tags(), name)
    }

    /// The system table as it stands in the file.
    #[must_use]
    pub fn system_table(&self) -> &'a [u8] {
        between(self.file, self.opened.system, self.opened.start)
    }

    /// The user table as it stands in the file, up to the file's end.
    #[must_use]
    pub fn user_table(&self) -> &'a [u8] {
        between(self.file, self.opened.user, self.file.len() as u64)
    }

    /// Where the user table starts: a commit leaves everything ahead of it.
    #[must_use]
    pub fn user_place(&self) -> usize {
        self.opened.user as usize
    }

    fn part(&self, kind: u64, i: usize, j: usize) -> Result<&'a [u8], Refusal> {
        let part = calls::part_of(self.file, self.opened, kind, i as u64, j as u64);
        accepted(part.refusal())?;
        Ok(between(self.file, part.start, part.start.saturating_add(part.length)))
    }
}

/// A recording that opened, with the bytes of its file: what [`crate::files::open`] answers.
///
/// It is opened once; [`OwnedRecording::recording`] lends it, as often as it is asked.
#[derive(Debug, Clone)]
pub struct OwnedRecording {
    file: Vec<u8>,
    opened: FstfOpened,
}

impl OwnedRecording {
    /// Opens a file's bytes and keeps them. Refused 1 to 7.
    pub fn open(file: Vec<u8>) -> Result<OwnedRecording, Refusal> {
        let opened = Recording::open(&file)?.opened;
        Ok(OwnedRecording { file, opened })
    }

    /// The recording, to be read.
    #[must_use]
    pub fn recording(&self) -> Recording<'_> {
        Recording { file: &self.file, opened: self.opened }
    }

    /// The bytes of the whole file.
    #[must_use]
    pub fn into_file(self) -> Vec<u8> {
        self.file
    }
}

/// Names and values of a file that opened are bytes 32 to 126 only, so that this takes all of them.
fn text(bytes: &[u8]) -> &str {
    std::str::from_utf8(bytes).unwrap_or_default()
}

fn value_of<'a>(mut tags: Tags<'a>, name: &str) -> Option<&'a str> {
    tags.find(|tag| tag.name == name).map(|tag| tag.value)
}

/// One frame: when it was taken, how long it was exposed, and the bytes of its sections.
#[derive(Debug, Clone, Copy)]
pub struct Frame<'a> {
    recording: Recording<'a>,
    number: usize,
    place: usize,
    length: usize,
    time: i64,
    exposure: u32,
}

impl<'a> Frame<'a> {
    /// Its number in the recording, from 0.
    #[must_use]
    pub fn number(&self) -> usize {
        self.number
    }

    /// Where it starts in the file.
    #[must_use]
    pub fn place(&self) -> usize {
        self.place
    }

    /// How many bytes it has in the file, from its mark to its last byte.
    #[must_use]
    pub fn length(&self) -> usize {
        self.length
    }

    /// Its time in milliseconds since 1 January 2010.
    #[must_use]
    pub fn time(&self) -> i64 {
        self.time
    }

    /// Its time as a date of the calendar, in UTC.
    #[must_use]
    pub fn date(&self) -> Date {
        Date::of(self.time)
    }

    /// Its exposure, the plain number that the camera's program gave.
    #[must_use]
    pub fn exposure(&self) -> u32 {
        self.exposure
    }

    /// The bytes of a section, by its number from 0. Refused 8.
    pub fn section(&self, number: usize) -> Result<&'a [u8], Refusal> {
        self.recording.part(raw::FSTF_SECTION, self.number, number)
    }

    /// The bytes of the section of this name, if there is one.
    #[must_use]
    pub fn section_named(&self, name: &str) -> Option<&'a [u8]> {
        self.section(self.recording.section_number(name)?).ok()
    }

    /// The bytes of the sections, in the order of [`Recording::sections`].
    #[must_use]
    pub fn sections(&self) -> FrameSections<'a> {
        FrameSections { frame: *self, left: 0..self.recording.section_count() }
    }
}

/// A section that every frame has.
#[derive(Debug, Clone, Copy, PartialEq, Eq)]
pub struct Section<'a> {
    /// Its name: digits, capitals and small letters.
    pub name: &'a str,
    /// Its configuration, opaque bytes.
    pub configuration: &'a [u8],
}

/// A tag of a table.
#[derive(Debug, Clone, Copy, PartialEq, Eq)]
pub struct Tag<'a> {
    /// Its name, at least one character.
    pub name: &'a str,
    /// Its value, which may be empty.
    pub value: &'a str,
}

/// The frames of a recording, see [`Recording::frames`].
#[derive(Debug, Clone)]
pub struct Frames<'a> {
    recording: Recording<'a>,
    left: Range<usize>,
}

impl<'a> Iterator for Frames<'a> {
    type Item = Frame<'a>;

    fn next(&mut self) -> Option<Frame<'a>> {
        self.recording.frame(self.left.next()?).ok()
    }

    // By its number, without reading the ones ahead.
    fn nth(&mut self, n: usize) -> Option<Frame<'a>> {
        self.recording.frame(self.left.nth(n)?).ok()
    }

    fn size_hint(&self) -> (usize, Option<usize>) {
        self.left.size_hint()
    }
}

impl DoubleEndedIterator for Frames<'_> {
    fn next_back(&mut self) -> Option<Self::Item> {
        self.recording.frame(self.left.next_back()?).ok()
    }
}

impl ExactSizeIterator for Frames<'_> {}
impl FusedIterator for Frames<'_> {}

/// The bytes of a frame's sections, see [`Frame::sections`].
#[derive(Debug, Clone)]
pub struct FrameSections<'a> {
    frame: Frame<'a>,
    left: Range<usize>,
}

impl<'a> Iterator for FrameSections<'a> {
    type Item = &'a [u8];

    fn next(&mut self) -> Option<&'a [u8]> {
        self.frame.section(self.left.next()?).ok()
    }

    fn size_hint(&self) -> (usize, Option<usize>) {
        self.left.size_hint()
    }
}

impl ExactSizeIterator for FrameSections<'_> {}
impl FusedIterator for FrameSections<'_> {}

/// The sections that every frame of a recording has, see [`Recording::sections`].
#[derive(Debug, Clone)]
pub struct Sections<'a> {
    recording: Recording<'a>,
    left: Range<usize>,
}

impl<'a> Iterator for Sections<'a> {
    type Item = Section<'a>;

    fn next(&mut self) -> Option<Section<'a>> {
        let number = self.left.next()?;
        let name = self.recording.section_name(number).ok()?;
        let configuration = self.recording.configuration(number).ok()?;
        Some(Section { name, configuration })
    }

    fn size_hint(&self) -> (usize, Option<usize>) {
        self.left.size_hint()
    }
}

impl ExactSizeIterator for Sections<'_> {}
impl FusedIterator for Sections<'_> {}

/// The tags of a table, in its order, see [`Recording::user_tags`].
///
/// The library looks at the table once, and then goes on from the tag before.
#[derive(Debug, Clone, Default)]
pub struct Tags<'a> {
    table: &'a [u8],
    at: FstfCursor,
}

impl<'a> Tags<'a> {
    /// The tags of bytes that are exactly a table; none where they are not.
    fn new(table: &'a [u8]) -> Tags<'a> {
        Tags { table, at: calls::first_tag(table) }
    }

    /// The same, where the library says whether they are.
    pub(crate) fn of_table(table: &'a [u8]) -> Option<Tags<'a>> {
        let tags = Tags::new(table);
        (tags.at.refused == 0).then_some(tags)
    }
}

impl<'a> Iterator for Tags<'a> {
    type Item = Tag<'a>;

    fn next(&mut self) -> Option<Tag<'a>> {
        let at = self.at;
        if at.found == 0 {
            return None;
        }
        self.at = calls::next_tag(self.table, at);
        let string = |start: u64, length: u64| text(between(self.table, start, start.saturating_add(length)));
        Some(Tag { name: string(at.name, at.name_length), value: string(at.value, at.value_length) })
    }

    fn size_hint(&self) -> (usize, Option<usize>) {
        let left = if self.at.found == 0 { 0 } else { self.at.left as usize + 1 };
        (left, Some(left))
    }
}

impl ExactSizeIterator for Tags<'_> {}
impl FusedIterator for Tags<'_> {}
