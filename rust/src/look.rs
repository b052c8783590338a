//! To look: which changes of a sheet conflict with a file, and what the file says now, as a form would show it.
//!
//! Whether a change conflicts is the library's word, and is not found anew here.

use std::collections::HashMap;
use std::fmt;

use crate::calls;
use crate::raw::FstfLooked;
use crate::recording::{Recording, Tags};
use crate::refusal::{accepted, Refusal};
use crate::sheet::{Seen, Sheet, MOST_CHANGES};

impl FstfLooked {
    /// Whether the change at this place of the sheet, from 0, conflicts. Behind the last change none does.
    #[must_use]
    pub fn conflicts_at(&self, change: usize) -> bool {
        change < MOST_CHANGES && self.conflicts >> change & 1 == 1
    }
}

/// A change of a sheet beside what the file says now, see [`Look::changes`].
///
/// Shown, it is as `change 0, tag "SITE": seen "Inari", the file says "Kuusamo", to be "Oulu": conflicts`.
#[derive(Debug, Clone, PartialEq, Eq)]
#[non_exhaustive]
pub struct LookedChange<'s> {
    /// Its place on the sheet, from 0.
    pub place: usize,
    /// The name of the tag.
    pub name: &'s str,
    /// What its member saw.
    pub seen: Seen<'s>,
    /// What the file says now: this value, or none where there is no such tag.
    pub now: Option<String>,
    /// What it is to be: this value, or none where it is to be removed.
    pub new: Option<&'s str>,
    /// Whether it conflicts: the file says something else now than its member saw.
    pub conflicts: bool,
}

/// What a look shows: each change of the sheet, and whether it agrees or conflicts.
///
/// Shown, it is how many conflict, and a line for each change.
#[derive(Debug, Clone, PartialEq, Eq)]
pub struct Look<'s> {
    changes: Vec<LookedChange<'s>>,
}

/// Looks which changes of a sheet conflict with a file, and what the file says now of their tags. Refused 1 to 7, 10; with 10, [`Sheet::fault_at`]
/// tells which tag and which character.
///
/// It changes nothing, and holds nobody back: between a look and a [`commit()`](crate::commit()) another member may commit. If that makes a change
/// conflict, the commit is refused 11, and a new look shows what the file says then.
///
/// The table is walked a fixed number of times, however many changes there are.
///
/// ```no_run
/// # fn show(file: &[u8], sheet: &suljanko::Sheet) -> Result<(), suljanko::Refusal> {
/// let look = suljanko::look(file, sheet)?;
/// for change in look.conflicts() {
///     println!("{change}"); // change 0, tag "SITE": seen "Inari", the file says "Kuusamo", to be "Oulu": conflicts
/// }
/// # Ok(())
/// # }
/// ```
pub fn look<'s>(file: &[u8], sheet: &'s Sheet) -> Result<Look<'s>, Refusal> {
    let recording = Recording::open(file)?;
    let looked = calls::look(file, &sheet.to_vec());
    accepted(looked.refusal())?;
    let changes = sheet.changes().enumerate().map(|(place, change)| LookedChange {
        place,
        name: change.name,
        seen: change.seen,
        now: None,
        new: change.new,
        conflicts: looked.conflicts_at(place),
    });
    let mut changes: Vec<_> = changes.collect();
    say_now(&mut changes, recording.user_tags());
    Ok(Look { changes })
}

/// Puts what the file says beside the changes, in one walk over its tags: no name comes twice on a sheet.
fn say_now(changes: &mut [LookedChange<'_>], tags: Tags<'_>) {
    let mut wanted: HashMap<&str, &mut Option<String>> =
        changes.iter_mut().map(|change| (change.name, &mut change.now)).collect();
    for tag in tags {
        if let Some(now) = wanted.get_mut(tag.name) {
            **now = Some(tag.value.to_string());
        }
    }
}

impl<'s> Look<'s> {
    /// The changes, in the order of the sheet.
    #[must_use]
    pub fn changes(&self) -> &[LookedChange<'s>] {
        &self.changes
    }

    /// The changes that conflict, in the order of the sheet. Of a commit to the same file the first of them is what its refusal 11 names.
    pub fn conflicts(&self) -> impl DoubleEndedIterator<Item = &LookedChange<'s>> + Clone {
        self.changes.iter().filter(|change| change.conflicts)
    }

    /// How many changes conflict.
    #[must_use]
    pub fn conflict_count(&self) -> usize {
        self.conflicts().count()
    }

    /// Whether no change conflicts: a commit to the same file is not refused 11.
    #[must_use]
    pub fn all_agree(&self) -> bool {
        self.conflict_count() == 0
    }
}

impl fmt::Display for LookedChange<'_> {
    fn fmt(&self, f: &mut fmt::Formatter<'_>) -> fmt::Result {
        write!(f, "change {}, tag {:?}: ", self.place, self.name)?;
        match self.seen {
            Seen::Absent => f.write_str("seen no such tag")?,
            Seen::Value(value) => write!(f, "seen {value:?}")?,
        }
        match &self.now {
            Some(value) => write!(f, ", the file says {value:?}")?,
            None => f.write_str(", the file has no such tag")?,
        }
        match self.new {
            Some(value) => write!(f, ", to be {value:?}")?,
            None => f.write_str(", to be removed")?,
        }
        f.write_str(if self.conflicts { ": conflicts" } else { ": agrees" })
    }
}

impl fmt::Display for Look<'_> {
    fn fmt(&self, f: &mut fmt::Formatter<'_>) -> fmt::Result {
        let all = self.changes.len();
        match self.conflict_count() {
            0 => f.write_str("no change conflicts")?,
            1 => write!(f, "1 of {all} changes conflicts")?,
            conflicts => write!(f, "{conflicts} of {all} changes conflict")?,
        }
        for change in &self.changes {
            write!(f, "\n{change}")?;
        }
        Ok(())
    }
}
