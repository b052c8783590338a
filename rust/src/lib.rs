//! Star recordings in FSTF revision 1 files: open and read them, record them, repair those that were cut off, and tag them.
//!
//! The work is done by a static library that is proved correct against document 01; this crate gives it Rust's types. It takes any bytes and any
//! order of calls and does not panic. Bad input gets a [`Refusal`], with the number of document 01 and, where it has one, the place of the first
//! fault; [`Refusal::spot`] tells the tag and the character there.
//!
//! - [`Recording`]: a file that opened, with its frames, sections and tags as parts of it; [`OwnedRecording`] keeps the bytes too.
//! - [`Recorder`] and [`FileRecorder`]: frames as they come, in pieces that a crash cannot spoil.
//! - [`repair()`]: what was stored whole of a recording that was cut off.
//! - [`Sheet`]: changes of tags, each with what its member saw; [`look()`] shows which of them conflict with the file, and [`commit()`] makes them.
//! - [`convert()`]: sheets from before 0.5.0 that say of a tag that nobody looked, filled in from the file that they were prepared against.
//! - [`files`]: the same on disk, where a crash leaves the old file or the new one.
//! - [`calls`]: the library's calls over plain slices, for programs that lend their own buffers.
//!
//! A call's time grows with the frames, tags and bytes of tables that it is given. Whoever chooses the names in an upload can make opening it take at
//! most 20 times as long as usual names would, and 37 times where it is refused, as far as was measured.
//!
//! Times are milliseconds since 1 January 2010; [`Date`] is the same by the calendar. Numbers of frames, sections and tags count from 0.
#![deny(missing_docs)]
#![deny(unsafe_code)]

pub mod calls;
mod commit;
mod convert;
mod date;
pub mod files;
mod form;
mod look;
mod position;
pub mod raw;
mod recorder;
mod recording;
mod refusal;
mod repair;
mod sheet;

pub use commit::{commit, Committed};
pub use convert::{convert, convert_room, Converted, LARGEST_SHEET};
pub use date::Date;
pub use form::{set_up_list, tag_table};
pub use look::{look, Look, LookedChange};
pub use position::{Lent, Position, Spot, SpotPart};
pub use recorder::{FileRecorder, Piece, Recorder, Stage, CLOSING_PIECES};
pub use recording::{Frame, FrameSections, Frames, OwnedRecording, Recording, Section, Sections, Tag, Tags};
pub use refusal::{Error, Reason, Refusal};
pub use repair::{repair, Repair};
pub use sheet::{Change, Fault, Seen, SeenChange, Sheet, SheetChange, SheetFault, TagPart};
