//! Tags of a lent table, by number, by name, and one after another.

use crate::faults;
use crate::names::TableNames;
use crate::refusal::Refusal;
use crate::table::{legal_tag, measure_whole, tag_from, tag_numbered, Tag, FIRST_TAG};

/// The tag with a number; `None` is the end, from the count on.
pub fn tag_at(table: &[u8], number: u64) -> Result<Option<Tag>, Refusal> {
    let mut names = TableNames::new();
    let extent = measure_whole(table, &mut names).ok_or_else(|| faults::user_table(table, 0))?;
    if number < extent.tags as u64 {
        Ok(Some(tag_numbered(table, number as usize)))
    } else {
        Ok(None)
    }
}

/// The tag with a name; `None` if there is no such tag.
pub fn tag_named(table: &[u8], name: &[u8]) -> Result<Option<Tag>, Refusal> {
    let mut names = TableNames::new();
    measure_whole(table, &mut names).ok_or_else(|| faults::user_table(table, 0))?;
    Ok(names.find(table, name).map(|place| tag_from(table, place)))
}

/// Where a walk over a table stands: at a tag, with so many tags behind it.
#[derive(Debug, Clone, Copy, PartialEq, Eq)]
pub struct Stop {
    pub tag: Tag,
    pub left: u64,
}

/// A walk begins at the first tag; `None` if the table has none.
pub fn first_tag(table: &[u8]) -> Result<Option<Stop>, Refusal> {
    let mut names = TableNames::new();
    let extent = measure_whole(table, &mut names).ok_or_else(|| faults::user_table(table, 0))?;
    Ok(stop(table, FIRST_TAG as u64, extent.tags as u64))
}

/// It goes on behind the value; `None` is the end: no tag is left, or none stands
/// there, which happens only where the stop is none of this table.
pub fn next_tag(table: &[u8], from: Stop) -> Option<Stop> {
    let place = from.tag.value.checked_add(from.tag.value_length)?;
    stop(table, place, from.left)
}

fn stop(table: &[u8], place: u64, tags: u64) -> Option<Stop> {
    let left = tags.checked_sub(1)?;
    let place = usize::try_from(place)
        .ok()
        .filter(|&place| place < table.len())?;
    legal_tag(table, place).map(|tag| Stop { tag, left })
}
