//! Tag tables: the system table and the user table have one form.

use crate::layout::{is_text, Cursor, Header};
use crate::names::TableNames;

/// A tag's places in its table, of the bytes behind the length bytes.
#[derive(Debug, Clone, Copy, PartialEq, Eq)]
pub struct Tag {
    pub name: u64,
    pub name_length: u64,
    pub value: u64,
    pub value_length: u64,
}

/// The first tag's place: behind the count.
pub(crate) const FIRST_TAG: usize = 4;

/// What a legal table amounts to.
#[derive(Debug, Clone, Copy, PartialEq, Eq)]
pub(crate) struct Extent {
    pub tags: usize,
    pub length: usize,
}

/// Measures the table at the start of `bytes`; `None` if no legal one stands
/// there. Afterwards `names` finds the table's tags by name.
pub(crate) fn measure(bytes: &[u8], names: &mut TableNames) -> Option<Extent> {
    let mut cursor = Cursor::new(bytes, 0);
    let tags = usize::try_from(cursor.u32()?).ok()?;
    if tags > Header::MAX_TAGS {
        return None;
    }
    names.restart(tags);
    for _ in 0..tags {
        let place = cursor.at();
        let name = cursor.short_string()?;
        let value = cursor.short_string()?;
        if name.is_empty() || !is_text(name) || !is_text(value) || !names.insert(bytes, place) {
            return None;
        }
    }
    Some(Extent {
        tags,
        length: cursor.at(),
    })
}

/// Measures a table that is all of `bytes`.
pub(crate) fn measure_whole(bytes: &[u8], names: &mut TableNames) -> Option<Extent> {
    measure(bytes, names).filter(|extent| extent.length == bytes.len())
}

/// The tag whose name's length byte is at `place`, in a measured table.
pub(crate) fn tag_from(table: &[u8], place: usize) -> Tag {
    let name = place + 1;
    let name_length = usize::from(table[place]);
    let value = name + name_length + 1;
    let value_length = table[value - 1];
    Tag {
        name: name as u64,
        name_length: name_length as u64,
        value: value as u64,
        value_length: u64::from(value_length),
    }
}

/// The tag at `place`, within `bytes`, if a legal one stands there.
pub(crate) fn legal_tag(bytes: &[u8], place: usize) -> Option<Tag> {
    let mut cursor = Cursor::new(bytes, place);
    let name = cursor.short_string()?;
    let value = cursor.short_string()?;
    if name.is_empty() || !is_text(name) || !is_text(value) {
        return None;
    }
    Some(tag_from(bytes, place))
}

/// The tag with a number below the count, in a measured table.
pub(crate) fn tag_numbered(table: &[u8], number: usize) -> Tag {
    let mut place = FIRST_TAG;
    for _ in 0..2 * number {
        place += 1 + usize::from(table[place]);
    }
    tag_from(table, place)
}
