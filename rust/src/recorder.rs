//! Recording: frames as they come, in pieces that are stored at their places.

use std::fs::File;
use std::io::{Seek, SeekFrom, Write};

use crate::calls;
use crate::form;
use crate::raw::{FstfRecorder, FstfTaken};
use crate::refusal::{accepted, Error, Refusal};

/// How many closing pieces there are: the index, the empty user table, and three header fields.
pub const CLOSING_PIECES: usize = 5;

/// Where a recorder stands.
#[derive(Debug, Clone, Copy, PartialEq, Eq)]
pub enum Stage {
    /// It takes the begin call.
    Fresh,
    /// It takes a frame or a close call.
    Running,
    /// It takes a close call, for the piece of this number, 0 to 4.
    Closing(u8),
    /// It takes none.
    Closed,
}

/// What an accepted call hands out, to be stored in the file.
#[derive(Debug, Clone, Copy, PartialEq, Eq)]
pub struct Piece<'a> {
    /// Where its bytes go in the file.
    pub place: u64,
    /// Its bytes.
    pub bytes: &'a [u8],
}

/// A recorder that hands out pieces: begin once, add each frame, close [`CLOSING_PIECES`] times.
///
/// The pieces, stored in their order in an empty file, are a recording that opens to what was given; cut off after any byte, it is the finished
/// file already or can be repaired to all frames that were stored whole. A refused call changes nothing.
///
/// It owns the notes of the index, 16 bytes for a frame, and the buffers of a piece. They grow and are used again: adding frames of the sizes that
/// came before allocates nothing but, now and then, room for more notes. [`FileRecorder`] stores the pieces too.
#[derive(Debug, Clone)]
pub struct Recorder {
    state: FstfRecorder,
    notes: Vec<u8>,
    sections: Vec<u8>,
    out: Vec<u8>,
}

impl Recorder {
    /// A fresh recorder.
    #[must_use]
    pub fn new() -> Recorder {
        Recorder { state: calls::new(), notes: Vec::new(), sections: Vec::new(), out: Vec::new() }
    }

    /// Begins a recording whose frames have these sections, each with a name and a configuration, and with these system tags, each with a name
    /// and a value. Refused 12, 3, 4: names of sections are 1 to 255 digits, capitals and small letters; of tags 1 to 255 characters from 32 to 126.
    ///
    /// The place of 3 counts in [`crate::set_up_list`] of the sections, that of 4 in [`crate::tag_table`] of the tags; with one of them,
    /// [`Refusal::spot`] tells the section or the tag and the character. It is 0 where they have no such form.
    pub fn begin(&mut self, sections: &[(&str, &[u8])], system: &[(&str, &str)]) -> Result<Piece<'_>, Refusal> {
        self.begin_in_file_form(&form::setup(sections), &form::table(system))
    }

    /// Begins with a set-up list and a system table in the form that document 01 gives them. Refused 12, 10, 3, 4.
    pub fn begin_in_file_form(&mut self, setup: &[u8], system: &[u8]) -> Result<Piece<'_>, Refusal> {
        let taken = self.taken_begin(setup, system)?;
        Ok(self.hand_out(taken))
    }

    /// Adds a frame: its time in milliseconds since 1 January 2010, its exposure, and the bytes of each section. Refused 12, 14, 15, 13.
    pub fn add(&mut self, time: i64, exposure: u32, sections: &[&[u8]]) -> Result<Piece<'_>, Refusal> {
        let taken = self.taken_add(time, exposure, sections)?;
        Ok(self.hand_out(taken))
    }

    /// Adds a frame whose sections stand as in a file, each behind four bytes of length: one copy less. Refused 12, 14, 15, 13.
    pub fn add_in_file_form(&mut self, time: i64, exposure: u32, sections: &[u8]) -> Result<Piece<'_>, Refusal> {
        let taken = self.taken_add_form(time, exposure, sections)?;
        Ok(self.hand_out(taken))
    }

    /// Hands out the next closing piece. Refused 12.
    pub fn close(&mut self) -> Result<Piece<'_>, Refusal> {
        let taken = self.taken_close()?;
        Ok(self.hand_out(taken))
    }

    /// Where the recorder stands.
    #[must_use]
    pub fn stage(&self) -> Stage {
        match self.state.stage {
            0 => Stage::Fresh,
            1 => Stage::Running,
            2 => Stage::Closing(self.state.piece as u8),
            _ => Stage::Closed,
        }
    }

    /// How many frames were added.
    #[must_use]
    pub fn frame_count(&self) -> usize {
        self.state.frames as usize
    }

    /// The state, for the calls over plain slices.
    #[must_use]
    pub fn state(&self) -> FstfRecorder {
        self.state
    }

    // The answers of the calls. The state stays: `hand_out` passes it on, once the piece can be taken for stored.

    fn taken_begin(&mut self, setup: &[u8], system: &[u8]) -> Result<FstfTaken, Refusal> {
        form::longer(&mut self.notes, form::notes_length(0))?;
        form::longer(&mut self.out, form::front_length(setup, system))?;
        let taken = calls::begin(self.state, setup, system, &mut self.notes, &mut self.out);
        accepted(taken.refusal()).map(|()| taken)
    }

    fn taken_add(&mut self, time: i64, exposure: u32, sections: &[&[u8]]) -> Result<FstfTaken, Refusal> {
        let mut shaped = std::mem::take(&mut self.sections);
        let taken = form::sections(&mut shaped, sections)
            .ok_or(Refusal::NO_ROOM)
            .and_then(|()| self.taken_add_form(time, exposure, &shaped));
        self.sections = shaped;
        taken
    }

    fn taken_add_form(&mut self, time: i64, exposure: u32, sections: &[u8]) -> Result<FstfTaken, Refusal> {
        form::longer(&mut self.notes, form::notes_length(self.state.frames.saturating_add(1)))?;
        form::longer(&mut self.out, form::frame_length(sections))?;
        let taken = calls::add(self.state, time, exposure, sections, &mut self.notes, &mut self.out);
        accepted(taken.refusal()).map(|()| taken)
    }

    fn taken_close(&mut self) -> Result<FstfTaken, Refusal> {
        form::longer(&mut self.out, form::notes_length(self.state.frames))?;
        let taken = calls::close(self.state, &self.notes, &mut self.out);
        accepted(taken.refusal()).map(|()| taken)
    }

    fn piece(&self, taken: &FstfTaken) -> Piece<'_> {
        Piece { place: taken.start, bytes: self.out.get(..taken.length as usize).unwrap_or_default() }
    }

    fn hand_out(&mut self, taken: FstfTaken) -> Piece<'_> {
        self.state = taken.recorder;
        self.piece(&taken)
    }
}

impl Default for Recorder {
    fn default() -> Recorder {
        Recorder::new()
    }
}

/// A recorder that stores its pieces in a file, or whatever can be written and sought.
///
/// The storage is empty at first and is written by nobody else. Refused, or where storing fails, the recorder is as before the call: the call
/// can be made again, and overwrites what was stored of its piece.
#[derive(Debug)]
pub struct FileRecorder<S: Write + Seek> {
    recorder: Recorder,
    storage: S,
    // Where the storage stands, if that is known: frames follow each other, and a buffered writer empties its buffer when it is sought.
    position: Option<u64>,
}

impl<S: Write + Seek> FileRecorder<S> {
    /// Begins a recording in empty storage, see [`Recorder::begin`].
    pub fn begin(storage: S, sections: &[(&str, &[u8])], system: &[(&str, &str)]) -> Result<FileRecorder<S>, Error> {
        let mut file = FileRecorder { recorder: Recorder::new(), storage, position: None };
        let taken = file.recorder.taken_begin(&form::setup(sections), &form::table(system))?;
        file.store(taken)?;
        Ok(file)
    }

    /// Adds a frame, see [`Recorder::add`]. In the steady state it allocates nothing.
    pub fn add(&mut self, time: i64, exposure: u32, sections: &[&[u8]]) -> Result<(), Error> {
        let taken = self.recorder.taken_add(time, exposure, sections)?;
        self.store(taken)
    }

    /// Adds a frame whose sections stand as in a file, see [`Recorder::add_in_file_form`].
    pub fn add_in_file_form(&mut self, time: i64, exposure: u32, sections: &[u8]) -> Result<(), Error> {
        let taken = self.recorder.taken_add_form(time, exposure, sections)?;
        self.store(taken)
    }

    /// Stores the closing pieces that are left. The recording is then a file that opens.
    ///
    /// Called again after storing failed, it goes on at the piece that failed; called again on a closed recorder, it is refused 12.
    pub fn close(&mut self) -> Result<(), Error> {
        self.store_closing()?;
        while self.recorder.stage() != Stage::Closed {
            self.store_closing()?;
        }
        self.storage.flush()?;
        Ok(())
    }

    /// The recorder: its stage, and how many frames were added.
    #[must_use]
    pub fn recorder(&self) -> &Recorder {
        &self.recorder
    }

    /// The storage, with the recording as far as it got.
    #[must_use]
    pub fn into_storage(self) -> S {
        self.storage
    }

    fn store_closing(&mut self) -> Result<(), Error> {
        let taken = self.recorder.taken_close()?;
        self.store(taken)
    }

    fn store(&mut self, taken: FstfTaken) -> Result<(), Error> {
        let piece = self.recorder.piece(&taken);
        if self.position.take() != Some(piece.place) {
            self.storage.seek(SeekFrom::Start(piece.place))?;
        }
        self.storage.write_all(piece.bytes)?;
        self.position = piece.place.checked_add(taken.length);
        self.recorder.state = taken.recorder;
        Ok(())
    }
}

impl FileRecorder<File> {
    /// Makes the frames that were added durable. A cut can take those that were added since; the ones ahead are there, and can be repaired.
    pub fn sync(&mut self) -> Result<(), Error> {
        self.storage.sync_data()?;
        Ok(())
    }

    /// Closes a recording on disk so that it is there when this returns: frames, index and user table are on the disk before the header calls
    /// them closed.
    pub fn close_on_disk(&mut self) -> Result<(), Error> {
        while !matches!(self.recorder.stage(), Stage::Closing(2..) | Stage::Closed) {
            self.store_closing()?;
        }
        self.storage.sync_data()?;
        self.close()?;
        self.storage.sync_all()?;
        Ok(())
    }
}
