//! FSTF revision 1 over lent bytes, as document 01 defines it: open and read,
//! record, repair, save tags. Saving is look and commit, as request 108 of
//! document 02 has it, and old sheets are converted, as request 111 has it.
//!
//! Every call works on bytes the caller lends. A refused call answers with
//! document 01's refusal number, and with the place that request 102 of
//! document 02 gives to some of them, and changes no lent byte.
#![forbid(unsafe_code)]

mod browser;
mod faults;
mod layout;
mod names;
mod opening;
mod reading;
mod recorder;
mod refusal;
mod repair;
mod saving;
mod table;
mod walk;

pub use browser::{first_tag, next_tag, tag_at, tag_named, Stop};
pub use opening::{open, Opened};
pub use reading::{frame, frame_of, hold, part, part_of, Frame, Held, Item};
pub use recorder::{add, begin, close, Piece, Stage, State};
pub use refusal::Refusal;
pub use repair::{repair, Repaired};
pub use saving::{commit, commit_of_old_sheet, convert, look, Looked};
pub use table::Tag;
