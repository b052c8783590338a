//! Change sheets: what a member saw, and what is to be.

use std::collections::HashMap;
use std::fmt;

use crate::calls;
use crate::form::short_string;
use crate::position::{self, Lent, Spot, SpotPart};
use crate::refusal::{accepted, Reason, Refusal};

/// The most changes of a sheet.
pub(crate) const MOST_CHANGES: usize = 64;

/// The most bytes of a name or a value.
const LONGEST_STRING: usize = 255;

/// The smallest recording: one section `A`, no frame, no tag. Beside it the library looks at a sheet alone.
const SMALLEST: [u8; 56] = *b"FSTF\x01\0\0\0\0\
    \x30\0\0\0\0\0\0\0\x2C\0\0\0\0\0\0\0\x34\0\0\0\0\0\0\0\
    \x01\x01A\x2C\0\0\0\0\0\0\0\
    \0\0\0\0\0\0\0\0\0\0\0\0";

/// A change: a name, and a value, or that there is no such tag, before it and after it.
#[derive(Debug, Clone, PartialEq, Eq)]
struct Row {
    name: String,
    seen: Option<String>,
    new: Option<String>,
}

/// What a change says that its member saw.
#[derive(Debug, Clone, Copy, PartialEq, Eq)]
pub enum Seen<'s> {
    /// There was no such tag.
    Absent,
    /// The tag had this value.
    Value(&'s str),
}

/// A change of a sheet, see [`Sheet::changes`].
#[derive(Debug, Clone, Copy, PartialEq, Eq)]
pub struct SheetChange<'s> {
    /// The name of the tag.
    pub name: &'s str,
    /// What its member saw.
    pub seen: Seen<'s>,
    /// What it is to be: this value, or none where it is to be removed.
    pub new: Option<&'s str>,
}

/// A change sheet: changes of user tags, each with what its member saw.
///
/// [`look()`](crate::look()) compares all that was seen with the file, and shows which changes conflict. [`commit()`](crate::commit()) does the same
/// first, and is refused 11 where one conflicts: nobody's change is lost without a word.
///
/// No change can be made unseen. Who wants a tag to have a value whatever it has now looks first, says what was seen, and where the commit is refused 11
/// looks again. Sheets that were made before 0.5.0, and say of a tag that nobody looked, are for [`convert()`](crate::convert()).
///
/// ```no_run
/// # fn tag(file: &[u8]) -> Result<(), suljanko::Refusal> {
/// let recording = suljanko::Recording::open(file)?;
/// let mut sheet = suljanko::Sheet::new();
/// sheet.change("SITE").seen(recording.user_tag("SITE")).set("Kuusamo");
/// sheet.change("NOTE").seen(recording.user_tag("NOTE")).remove();
/// let look = suljanko::look(file, &sheet)?;
/// if look.all_agree() {
///     let committed = suljanko::commit(file, &sheet)?;
/// #   let _ = committed;
/// }
/// # Ok(())
/// # }
/// ```
#[derive(Debug, Clone, Default, PartialEq, Eq)]
pub struct Sheet {
    rows: Vec<Row>,
}

impl Sheet {
    /// A sheet without changes. Committed, it leaves the table as it is.
    #[must_use]
    pub fn new() -> Sheet {
        Sheet::default()
    }

    /// Starts a change of the tag of this name; it is on the sheet when it was said what was seen and what is new. At most 64, each name once.
    pub fn change<'s>(&'s mut self, name: &str) -> Change<'s> {
        Change { sheet: self, name: name.to_string() }
    }

    /// The sheet of a form: what it showed, and what it holds when it is sent, each as names with their values.
    ///
    /// A tag that was shown is changed where its value differs, and removed where it is not there any more; one that was not shown is new, and
    /// its member saw none. A tag with the value that was shown is no change, so that another member's change of it stays. A name that comes
    /// twice in a list comes twice on the sheet too, where [`Sheet::faults`] tells it.
    ///
    /// ```
    /// let sheet = suljanko::Sheet::from_form(&[("SITE", "Inari"), ("NOTE", "wind")], &[("SITE", "Kuusamo"), ("NOTE", "wind")]);
    /// assert_eq!((sheet.len(), sheet.name(0)), (1, Some("SITE")));
    /// ```
    #[must_use]
    pub fn from_form(before: &[(&str, &str)], after: &[(&str, &str)]) -> Sheet {
        let shown = by_name(before);
        let sent = by_name(after);
        let mut sheet = Sheet::new();
        for &(name, value) in before {
            let new = sent.get(name).map_or(&[][..], Vec::as_slice);
            let twice = new.len() > 1 || shown.get(name).map_or(0, Vec::len) > 1;
            if new.is_empty() {
                sheet.change(name).seen(Some(value)).remove();
            }
            for new in new.iter().filter(|new| twice || **new != value) {
                sheet.change(name).seen(Some(value)).set(new);
            }
        }
        for (name, value) in after.iter().filter(|(name, _)| !shown.contains_key(name)) {
            sheet.change(name).seen(None).set(value);
        }
        sheet
    }

    /// A sheet of bytes in the form of document 01, as [`Sheet::to_vec`] gives them. Refused 10; the library says whether they are a sheet, and where
    /// not. [`Refusal::spot`] of the bytes tells the change and the character. Of an old sheet, for [`convert()`](crate::convert()), the refusal's advice
    /// says so, and [`Spot::nobody_looked`] does.
    pub fn from_bytes(bytes: &[u8]) -> Result<Sheet, Refusal> {
        // the smallest recording opens, so that there is no other refusal than 10
        accepted(calls::look(&SMALLEST, bytes).refusal().map(|refusal| refusal.of_sheet(bytes)))?;
        rows_of(bytes).map(|rows| Sheet { rows }).ok_or(Refusal::NO_SHEET)
    }

    /// The changes, in their order: what each tag's member saw, and what it is to be.
    pub fn changes(&self) -> impl ExactSizeIterator<Item = SheetChange<'_>> + DoubleEndedIterator + Clone {
        self.rows.iter().map(|row| SheetChange {
            name: &row.name,
            seen: row.seen.as_deref().map_or(Seen::Absent, Seen::Value),
            new: row.new.as_deref(),
        })
    }

    /// What would be refused 10, by tag: the changes that break the rules of a sheet, with what breaks them. None where the sheet is one.
    ///
    /// A sheet has at most 64 changes, and no name twice. Names have 1 to 255 characters and values 0 to 255, from the space to `~`. They are told as
    /// the sheet is read, that there are too many first: the first one is where the library's refusal points.
    #[must_use]
    pub fn faults(&self) -> Vec<SheetFault<'_>> {
        let mut places: HashMap<&str, usize> = HashMap::new();
        let mut faults: Vec<_> = self.too_many().into_iter().collect();
        for (place, change) in self.changes().enumerate() {
            let mut tell = |part, fault: Option<Fault>| {
                faults.extend(fault.map(|fault| SheetFault { place, name: change.name, part, fault }));
            };
            tell(TagPart::Name, change.name.is_empty().then_some(Fault::Empty));
            tell(TagPart::Name, string_fault(change.name));
            let first = *places.entry(change.name).or_insert(place);
            tell(TagPart::Name, (first != place).then_some(Fault::Twice { first }));
            if let Seen::Value(value) = change.seen {
                tell(TagPart::Seen, string_fault(value));
            }
            tell(TagPart::New, change.new.and_then(string_fault));
        }
        faults
    }

    /// The change, what of it and which character a refusal 10 of this sheet points at, as [`Sheet::faults`] tells it. None for any other refusal.
    ///
    /// It goes by the refusal's place, and so by the library's own word. A sheet that has no form, with a string of over 255 bytes or over 255
    /// changes, was refused as no bytes at all, at 0: it is led to the first of its faults.
    #[must_use]
    pub fn fault_at(&self, refusal: Refusal) -> Option<SheetFault<'_>> {
        let elsewhere = refusal.position().map_or(false, |position| position.lent != Lent::Sheet);
        if refusal.reason() != Reason::Sheet || elsewhere {
            return None;
        }
        match self.file_form() {
            Some(form) => self.fault_of(position::in_sheet(&form, refusal.place()?)?),
            None => self.faults().into_iter().next(),
        }
    }

    /// What breaks the rules where the library says that something does.
    fn fault_of(&self, spot: Spot<'_>) -> Option<SheetFault<'_>> {
        let place = match spot.number {
            Some(number) => number,
            None => return self.too_many(),
        };
        let change = self.changes().nth(place)?;
        let (part, string) = match (spot.part, change.seen) {
            (SpotPart::Name, _) => (TagPart::Name, change.name),
            (SpotPart::Seen, Seen::Value(value)) => (TagPart::Seen, value),
            (SpotPart::New, _) => (TagPart::New, change.new?),
            _ => return None,
        };
        let fault = match spot.character {
            Some(byte) => Fault::Character {
                character: string.get(byte..)?.chars().next()?,
                place: string.get(..byte)?.chars().count(),
            },
            None if string.is_empty() => Fault::Empty,
            None => Fault::Twice { first: self.changes().position(|other| other.name == change.name)? },
        };
        Some(SheetFault { place, name: change.name, part, fault })
    }

    /// That there are too many changes, at the first of these.
    fn too_many(&self) -> Option<SheetFault<'_>> {
        let name = self.name(MOST_CHANGES)?;
        let fault = Fault::TooMany { changes: self.len() };
        Some(SheetFault { place: MOST_CHANGES, name, part: TagPart::Change, fault })
    }

    /// How many changes are on the sheet.
    #[must_use]
    pub fn len(&self) -> usize {
        self.rows.len()
    }

    /// Whether there is no change on the sheet.
    #[must_use]
    pub fn is_empty(&self) -> bool {
        self.rows.is_empty()
    }

    /// The name of the tag that the change at this place, from 0, is about: what [`Refusal::place`] of an 11 points at. A look shows all that
    /// conflict, [`crate::Look::conflicts`]. For 10 see [`Sheet::fault_at`].
    #[must_use]
    pub fn name(&self, place: usize) -> Option<&str> {
        self.rows.get(place).map(|row| row.name.as_str())
    }

    /// The sheet in the form of document 01; no bytes, which are refused 10 at 0, where it has none: more than 255 changes, or a longer string.
    #[must_use]
    pub fn to_vec(&self) -> Vec<u8> {
        self.file_form().unwrap_or_default()
    }

    fn file_form(&self) -> Option<Vec<u8>> {
        let mut form = vec![u8::try_from(self.rows.len()).ok()?];
        for row in &self.rows {
            short_string(&mut form, &row.name)?;
            entry(&mut form, row.seen.as_deref())?;
            entry(&mut form, row.new.as_deref())?;
        }
        Some(form)
    }
}

/// "0 absent, 1 a value, which follows"
fn entry(form: &mut Vec<u8>, value: Option<&str>) -> Option<()> {
    match value {
        None => {
            form.push(0);
            Some(())
        }
        Some(value) => {
            form.push(1);
            short_string(form, value)
        }
    }
}

/// The values under each name of a list.
fn by_name<'l>(list: &[(&'l str, &'l str)]) -> HashMap<&'l str, Vec<&'l str>> {
    let mut values: HashMap<&str, Vec<&str>> = HashMap::new();
    for (name, value) in list {
        values.entry(name).or_default().push(value);
    }
    values
}

/// The rows of bytes that the library takes for a sheet.
fn rows_of(mut bytes: &[u8]) -> Option<Vec<Row>> {
    let count = byte(&mut bytes)?;
    (0..count).map(|_| row(&mut bytes)).collect()
}

fn row(bytes: &mut &[u8]) -> Option<Row> {
    Some(Row { name: string(bytes)?, seen: value(bytes)?, new: value(bytes)? })
}

/// A kind, and what follows it: nothing, or a value.
fn value(bytes: &mut &[u8]) -> Option<Option<String>> {
    match byte(bytes)? {
        0 => Some(None),
        1 => string(bytes).map(Some),
        _ => None,
    }
}

fn byte(bytes: &mut &[u8]) -> Option<u8> {
    let (byte, rest) = bytes.split_first()?;
    *bytes = rest;
    Some(*byte)
}

fn string(bytes: &mut &[u8]) -> Option<String> {
    let length = usize::from(byte(bytes)?);
    let string = bytes.get(..length)?;
    *bytes = bytes.get(length..)?;
    String::from_utf8(string.to_vec()).ok()
}

/// What of a change a fault is about.
#[derive(Debug, Clone, Copy, PartialEq, Eq)]
pub enum TagPart {
    /// The change itself: there are too many.
    Change,
    /// The tag's name.
    Name,
    /// The value that was seen.
    Seen,
    /// The new value.
    New,
}

/// Which rule is broken.
#[derive(Debug, Clone, Copy, PartialEq, Eq)]
#[non_exhaustive]
pub enum Fault {
    /// A sheet has at most 64 changes: this one is the first too many.
    TooMany {
        /// How many there are.
        changes: usize,
    },
    /// A name has at least one character.
    Empty,
    /// A name or a value has at most 255 bytes.
    TooLong {
        /// How many it has; `ä` has two.
        bytes: usize,
    },
    /// Names and values have the characters from the space to `~` only: no `ä`, no tab, no end of a line.
    Character {
        /// The first other one.
        character: char,
        /// Its place among the characters, from 0.
        place: usize,
    },
    /// No name comes twice.
    Twice {
        /// The place, from 0, of the first change of that name.
        first: usize,
    },
}

/// A change that breaks the rules of a sheet, see [`Sheet::faults`].
#[derive(Debug, Clone, Copy, PartialEq, Eq)]
pub struct SheetFault<'s> {
    /// The change's place on the sheet, from 0.
    pub place: usize,
    /// The name of its tag, as it was given.
    pub name: &'s str,
    /// What of it breaks the rule.
    pub part: TagPart,
    /// How.
    pub fault: Fault,
}

impl fmt::Display for SheetFault<'_> {
    fn fmt(&self, f: &mut fmt::Formatter<'_>) -> fmt::Result {
        write!(f, "change {}, tag {:?}: ", self.place, self.name)?;
        f.write_str(match self.part {
            TagPart::Change => "the sheet",
            TagPart::Name => "its name",
            TagPart::Seen => "the value that was seen",
            TagPart::New => "its new value",
        })?;
        match self.fault {
            Fault::TooMany { changes } => write!(f, " has {changes} changes, more than {MOST_CHANGES}"),
            Fault::Empty => write!(f, " is empty"),
            Fault::TooLong { bytes } => write!(f, " has {bytes} bytes, more than {LONGEST_STRING}"),
            Fault::Character { character, place } => {
                write!(f, " has {character:?} at {place}, which is not a character from the space to ~")
            }
            Fault::Twice { first } => write!(f, " is that of change {first} too"),
        }
    }
}

impl std::error::Error for SheetFault<'_> {}

/// What of a name or a value breaks the rule of both.
fn string_fault(string: &str) -> Option<Fault> {
    let other = string.chars().enumerate().find(|(_, character)| !(' '..='~').contains(character));
    match other {
        Some((place, character)) => Some(Fault::Character { character, place }),
        None => (string.len() > LONGEST_STRING).then_some(Fault::TooLong { bytes: string.len() }),
    }
}

/// A change of which is not yet said what its member saw.
#[derive(Debug)]
#[must_use = "the change is on the sheet when it was said what was seen and what is new"]
pub struct Change<'s> {
    sheet: &'s mut Sheet,
    name: String,
}

impl<'s> Change<'s> {
    /// The member looked, and saw this value, or that there was no such tag: as [`crate::Recording::user_tag`] answered then, or as
    /// [`crate::LookedChange::now`] showed it. Say what was seen, not what is likely: by this alone is told that another member changed the tag.
    pub fn seen(self, value: Option<&str>) -> SeenChange<'s> {
        SeenChange { seen: value.map(str::to_string), sheet: self.sheet, name: self.name }
    }
}

/// A change of which is not yet said what is new.
#[derive(Debug)]
#[must_use = "the change is on the sheet when it was said what is new"]
pub struct SeenChange<'s> {
    sheet: &'s mut Sheet,
    name: String,
    seen: Option<String>,
}

impl SeenChange<'_> {
    /// The tag is to have this value, which may be empty.
    pub fn set(self, value: &str) {
        self.becomes(Some(value.to_string()));
    }

    /// The tag is to be removed.
    pub fn remove(self) {
        self.becomes(None);
    }

    fn becomes(self, new: Option<String>) {
        self.sheet.rows.push(Row { name: self.name, seen: self.seen, new });
    }
}
