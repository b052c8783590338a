//! Files on disk: open them, look at sheets, commit tags and repair so that a crash leaves the old file or the new one, whole; and convert old sheets.
//!
//! The new file is written beside the old one under the name `.NAME.new`, made durable, and renamed over it. As long as that file is there nobody
//! else commits or repairs ([`Error::Busy`]): it is made before the old file is read, so that of two members who commit at the same moment one is told,
//! and a change that was committed a moment ago is seen. A crash can leave it behind: [`clear_stale`] removes it when nobody has written to it for as
//! long as you say. It holds nothing that the old file does not.
//!
//! To open and to look only reads: it makes no file, waits for nobody, and meets the old file or the new one. To convert reads the recording and the old
//! sheet in the same way; the new sheet is a new file, which is written as `.NAME.new` too, and gets its name when it is whole.
//!
//! A file is read into memory once, for the library to open it. What a new file keeps of the old one is copied by the kernel, which on file systems
//! that can share blocks copies nothing. The new file has the old one's permissions, and belongs to the member who committed.

use std::ffi::OsString;
use std::fs::{self, File, OpenOptions};
use std::io::{self, ErrorKind, Read, Seek, SeekFrom, Write};
use std::path::{Path, PathBuf};
use std::time::Duration;

use crate::convert::{Converted, LARGEST_SHEET};
use crate::look::Look;
use crate::recorder::FileRecorder;
use crate::recording::OwnedRecording;
use crate::refusal::{Error, Reason};
use crate::sheet::Sheet;

/// Opens a file, and owns its bytes. Refused 1 to 7. The place of 3, 4 and 7 counts in the file: [`crate::Refusal::spot`] of its bytes tells what
/// stands there.
pub fn open<P: AsRef<Path>>(path: P) -> Result<OwnedRecording, Error> {
    let bytes = read(&File::open(path)?)?;
    Ok(OwnedRecording::open(bytes)?)
}

/// Begins a recording in a new file; a file that is there already is left alone. See [`FileRecorder::begin`].
///
/// Close it with [`FileRecorder::close_on_disk`]. Not closed, it can be repaired: to all frames that were added before the last
/// [`FileRecorder::sync`], and of the later ones to those that the disk had stored.
pub fn record<P: AsRef<Path>>(
    path: P,
    sections: &[(&str, &[u8])],
    system: &[(&str, &str)],
) -> Result<FileRecorder<File>, Error> {
    let file = OpenOptions::new().write(true).create_new(true).open(&path)?;
    let begun = FileRecorder::begin(file, sections, system).and_then(|mut recorder| {
        recorder.sync()?;
        sync_directory(&fs::canonicalize(&path)?)?;
        Ok(recorder)
    });
    if begun.is_err() {
        // It was made here, and nothing is in it that could be repaired.
        let _ = fs::remove_file(&path);
    }
    begun
}

/// Looks which changes of a sheet conflict with a file, and what the file says now of their tags. Refused as [`crate::look()`].
///
/// It only reads the file, which may be one that its member may not write. It keeps nobody from it: between a look and a [`commit`] another member may
/// commit, and then the commit is refused 11. Look again.
pub fn look<P: AsRef<Path>>(path: P, sheet: &Sheet) -> Result<Look<'_>, Error> {
    let bytes = read(&File::open(path)?)?;
    Ok(crate::look(&bytes, sheet)?)
}

/// Commits the changes of a sheet to a file. Refused as [`crate::commit()`]; then the file is as it was. What is refused 10, [`Sheet::faults`] tells
/// before, and [`Sheet::fault_at`] after. What is refused 11, [`look`] shows before; and after, where another member committed in between:
///
/// ```no_run
/// # fn send(sheet: &suljanko::Sheet) -> Result<(), suljanko::Error> {
/// use suljanko::{files, Reason};
///
/// match files::commit("night.fstf", sheet) {
///     Err(error) if error.refusal().map(|refusal| refusal.reason()) == Some(Reason::Conflict) => {
///         println!("{}", files::look("night.fstf", sheet)?); // each change with what was seen and what the file says now
///     }
///     committed => committed?,
/// }
/// # Ok(())
/// # }
/// ```
pub fn commit<P: AsRef<Path>>(path: P, sheet: &Sheet) -> Result<(), Error> {
    replace(path.as_ref(), Old::Goes, |old| {
        let committed = crate::commit(old, sheet)?;
        let kept = committed.place() as u64;
        Ok(Made { kept, fields: Vec::new(), tail: committed.into_table(), answer: () })
    })
    .map(|_| ())
}

/// Converts an old sheet on disk against the recording that it was prepared against, and stores the new sheet under a name that nothing has yet. Refused
/// as [`crate::convert()`]. The recording and the old sheet stay as they are; so does a file that has the new name already, and that is an error. The new
/// sheet has the old one's permissions.
///
/// A storage error says which of the three files it is about. Of a refusal, [`crate::Refusal::position`] says whether the fault is in the recording or in
/// the sheet.
///
/// ```no_run
/// # fn send() -> Result<(), suljanko::Error> {
/// use suljanko::files;
///
/// let converted = files::convert("prepared-against.fstf", "queue/17", "queue/17.converted")?;
/// println!("{converted}"); // 2 of 3 changes filled in
/// files::commit("night.fstf", converted.sheet())?;
/// # Ok(())
/// # }
/// ```
pub fn convert<P, Q, R>(recording: P, old: Q, new: R) -> Result<Converted, Error>
where
    P: AsRef<Path>,
    Q: AsRef<Path>,
    R: AsRef<Path>,
{
    let (recording, old, new) = (recording.as_ref(), old.as_ref(), new.as_ref());
    let (sheet, permissions) = about(old, read_sheet(old))?;
    let file = about(recording, File::open(recording).map_err(Error::Storage).and_then(|file| read(&file)))?;
    let converted = crate::convert(&file, &sheet)?;
    about(new, store(new, converted.bytes(), permissions))?;
    Ok(converted)
}

/// What a repair of a file did.
#[derive(Debug, Clone, PartialEq, Eq)]
#[non_exhaustive]
pub struct Repaired {
    /// How many frames the file has now.
    pub frames: usize,
    /// How many user tags stood readable in the old file and are not in the new one, whose user table is empty. To see them:
    /// [`crate::Repair::tags_not_kept`] of the old file.
    pub tags_not_kept: usize,
    /// The old file, as it was: `NAME.old` beside the new one, or `NAME.old2` and so on where that is taken. Delete it when it is not needed.
    pub old: PathBuf,
}

/// Repairs a file, and leaves the old one beside it. Refused as [`crate::repair`]; then the file is as it was.
///
/// A repair keeps the frames and writes the user table empty: look at [`Repaired::tags_not_kept`] before you delete [`Repaired::old`].
pub fn repair<P: AsRef<Path>>(path: P) -> Result<Repaired, Error> {
    let ((frames, tags_not_kept), old) = replace(path.as_ref(), Old::Stays, |old| {
        let repair = crate::repair(old)?;
        let answer = (repair.frame_count(), repair.tags_not_kept().len());
        Ok(Made { kept: repair.kept() as u64, fields: repair.fields(), tail: repair.into_tail(), answer })
    })?;
    Ok(Repaired { frames, tags_not_kept, old })
}

/// Repairs a file if it needs it: refusal 16, that the file opens already, is no error here. Answers what was done, if it was repaired.
pub fn repair_if_needed<P: AsRef<Path>>(path: P) -> Result<Option<Repaired>, Error> {
    match repair(path) {
        Ok(repaired) => Ok(Some(repaired)),
        Err(Error::Refused(refusal)) if refusal.reason() == Reason::Whole => Ok(None),
        Err(error) => Err(error),
    }
}

/// Removes the `.NAME.new` that a crash left behind, if nobody has written to it for so long. Answers whether there was one; where it is younger,
/// somebody may be committing, repairing or converting still ([`Error::Busy`]). Of a conversion, the path is that of the new sheet, which is not there yet.
///
/// Writing a recording of many GiB takes minutes, and making it durable takes some in which nothing is written: an hour is a good age. One whose
/// new file was removed too early is told so, and has changed nothing.
pub fn clear_stale<P: AsRef<Path>>(path: P, age: Duration) -> Result<bool, Error> {
    let path = match fs::canonicalize(&path) {
        Err(error) if error.kind() == ErrorKind::NotFound => to_be(path.as_ref())?,
        there => there?,
    };
    let beside = beside(&path)?;
    let met = match fs::symlink_metadata(&beside) {
        Ok(met) => met,
        Err(error) if error.kind() == ErrorKind::NotFound => return Ok(false),
        Err(error) => return Err(Error::Storage(error)),
    };
    // a time to come is no age
    if met.modified()?.elapsed().unwrap_or_default() < age {
        return Err(Error::Busy { lock: beside });
    }
    match fs::remove_file(&beside) {
        Err(error) if error.kind() == ErrorKind::NotFound => Ok(false),
        removed => Ok(removed.map(|()| true)?),
    }
}

/// What becomes of the old file's bytes when a new file takes its name.
#[derive(Clone, Copy, PartialEq, Eq)]
enum Old {
    Goes,
    Stays,
}

/// A new file by its old one: so many bytes of it, with these fields set in them, and what follows; and what is to be answered.
struct Made<T> {
    kept: u64,
    fields: Vec<(u64, Vec<u8>)>,
    tail: Vec<u8>,
    answer: T,
}

/// Puts a new file in the place of an old one, made from its bytes, and answers where the old one is now; where that fails the old file stays and
/// the new one goes.
fn replace<T>(
    path: &Path,
    old: Old,
    make: impl FnOnce(&[u8]) -> Result<Made<T>, Error>,
) -> Result<(T, PathBuf), Error> {
    // through links, so that a link stays one
    let path = fs::canonicalize(path)?;
    let beside = beside(&path)?;
    let new = create(&beside)?;
    let made = fill(&path, &new, make).and_then(|answer| Ok((answer, rename(&new, &beside, &path, old)?)));
    match made {
        Ok(answer) => {
            sync_directory(&path)?;
            Ok(answer)
        }
        Err(error) => {
            // The old file is untouched. That this one stays behind would be told by the next commit.
            if is_at(&new, &beside) {
                let _ = fs::remove_file(&beside);
            }
            Err(error)
        }
    }
}

/// Stores bytes under a name that nothing has yet: under that of the new file first, and durable before they get their own.
fn store(path: &Path, bytes: &[u8], permissions: fs::Permissions) -> Result<(), Error> {
    let path = to_be(path)?;
    let beside = beside(&path)?;
    let mut new = create(&beside)?;
    let stored = new.set_permissions(permissions).and_then(|()| new.write_all(bytes)).and_then(|()| new.sync_all());
    let named = stored.map_err(Error::Storage).and_then(|()| name_it(&new, &beside, &path));
    // it has its own name, or is of no use
    if is_at(&new, &beside) {
        let _ = fs::remove_file(&beside);
    }
    named?;
    sync_directory(&path)
}

/// Gives the new file its name, unless something has it.
fn name_it(new: &File, beside: &Path, path: &Path) -> Result<(), Error> {
    if !is_at(new, beside) {
        // it was cleared as stale, and what is there, if anything, is somebody else's
        return Err(Error::Busy { lock: beside.to_path_buf() });
    }
    match second_name(beside, path) {
        Err(Error::Storage(error)) if error.kind() == ErrorKind::AlreadyExists => {
            let taken = "the name is taken. What has it was left as it is: move it away, or choose another name";
            Err(Error::Storage(io::Error::new(ErrorKind::AlreadyExists, taken)))
        }
        named => named,
    }
}

/// The path of a file that need not be there, its directory through links.
fn to_be(path: &Path) -> Result<PathBuf, Error> {
    let directory = path.parent().filter(|directory| !directory.as_os_str().is_empty());
    Ok(fs::canonicalize(directory.unwrap_or_else(|| Path::new(".")))?.join(name(path)?))
}

/// Says of a storage error which file it is about.
fn about<T>(path: &Path, result: Result<T, Error>) -> Result<T, Error> {
    result.map_err(|error| match error {
        Error::Storage(error) => Error::Storage(io::Error::new(error.kind(), format!("{}: {error}", path.display()))),
        other => other,
    })
}

/// `.NAME.new` in the same directory, so that renaming does not copy.
fn beside(path: &Path) -> Result<PathBuf, Error> {
    let mut beside = OsString::from(".");
    beside.push(name(path)?);
    beside.push(".new");
    Ok(path.with_file_name(beside))
}

fn name(path: &Path) -> Result<OsString, Error> {
    Ok(path.file_name().ok_or_else(|| io::Error::from(ErrorKind::InvalidInput))?.to_os_string())
}

/// Makes the new file; that it is there already means that somebody else does the same.
fn create(beside: &Path) -> Result<File, Error> {
    match OpenOptions::new().write(true).create_new(true).open(beside) {
        Ok(file) => Ok(file),
        Err(error) if error.kind() == ErrorKind::AlreadyExists => Err(Error::Busy { lock: beside.to_path_buf() }),
        Err(error) => Err(Error::Storage(error)),
    }
}

/// Fills the new file from the old one, and makes it durable.
fn fill<T>(path: &Path, mut new: &File, make: impl FnOnce(&[u8]) -> Result<Made<T>, Error>) -> Result<T, Error> {
    // Opened to write as well: who may not write a file does not replace it.
    let mut file = OpenOptions::new().read(true).write(true).open(path)?;
    new.set_permissions(file.metadata()?.permissions())?;
    let old = read(&file)?;
    let made = make(&old)?;
    drop(old);
    file.seek(SeekFrom::Start(0))?;
    copy(&file, new, made.kept)?;
    new.write_all(&made.tail)?;
    for (place, bytes) in made.fields {
        new.seek(SeekFrom::Start(place))?;
        new.write_all(&bytes)?;
    }
    new.sync_all()?;
    Ok(made.answer)
}

/// The bytes of a file. That there is not so much memory is told, as any other failure.
fn read(mut file: &File) -> Result<Vec<u8>, Error> {
    let no_memory = || io::Error::from(ErrorKind::OutOfMemory);
    let length = usize::try_from(file.metadata()?.len()).map_err(|_| no_memory())?;
    let mut bytes = Vec::new();
    bytes.try_reserve_exact(length).map_err(|_| no_memory())?;
    file.read_to_end(&mut bytes)?;
    Ok(bytes)
}

/// The bytes of a sheet, and its file's permissions. Of a longer file than a sheet can be, one byte too many is enough: no first fault stands behind it.
fn read_sheet(path: &Path) -> Result<(Vec<u8>, fs::Permissions), Error> {
    let file = File::open(path)?;
    let mut bytes = Vec::new();
    (&file).take(LARGEST_SHEET as u64 + 1).read_to_end(&mut bytes)?;
    Ok((bytes, file.metadata()?.permissions()))
}

/// Copies so many bytes from file to file, from where each stands. Between two files the kernel does it.
fn copy(from: &File, mut to: &File, length: u64) -> Result<(), Error> {
    let copied = io::copy(&mut from.take(length), &mut to)?;
    if copied != length {
        return Err(Error::Storage(io::Error::from(ErrorKind::UnexpectedEof)));
    }
    Ok(())
}

/// Renames the new file over the old one, which is given another name ahead where it is to stay. Answers what the old one's name is now.
fn rename(new: &File, beside: &Path, path: &Path, old: Old) -> Result<PathBuf, Error> {
    let left = match old {
        Old::Goes => path.to_path_buf(),
        Old::Stays => leave(path)?,
    };
    let renamed = if is_at(new, beside) {
        fs::rename(beside, path).map_err(Error::Storage)
    } else {
        // it was cleared as stale, and what is there, if anything, is somebody else's
        Err(Error::Busy { lock: beside.to_path_buf() })
    };
    if renamed.is_err() && old == Old::Stays {
        let _ = fs::remove_file(&left);
    }
    renamed.map(|()| left)
}

/// Whether this name is that of this file.
fn is_at(file: &File, path: &Path) -> bool {
    use std::os::unix::fs::MetadataExt;
    match (file.metadata(), fs::symlink_metadata(path)) {
        (Ok(file), Ok(there)) => (file.dev(), file.ino()) == (there.dev(), there.ino()),
        _ => false,
    }
}

/// Leaves a file under a second name that nothing has yet: `NAME.old`, `NAME.old2`, `NAME.old3` and so on.
fn leave(path: &Path) -> Result<PathBuf, Error> {
    for number in 1..u32::MAX {
        let mut old = name(path)?;
        old.push(".old");
        if number > 1 {
            old.push(number.to_string());
        }
        let old = path.with_file_name(old);
        match second_name(path, &old) {
            Ok(()) => return Ok(old),
            Err(Error::Storage(error)) if error.kind() == ErrorKind::AlreadyExists => {}
            Err(error) => return Err(error),
        }
    }
    Err(Error::Storage(io::Error::from(ErrorKind::AlreadyExists)))
}

/// Gives a file a second name; on storage that has no such thing, as on memory cards, copies it.
fn second_name(path: &Path, second: &Path) -> Result<(), Error> {
    match fs::hard_link(path, second) {
        Err(error) if error.kind() != ErrorKind::AlreadyExists => {}
        linked => return Ok(linked?),
    }
    copy_to_new(path, second)
}

fn copy_to_new(path: &Path, second: &Path) -> Result<(), Error> {
    let file = File::open(path)?;
    let new = OpenOptions::new().write(true).create_new(true).open(second)?;
    let copied = file.metadata().map_err(Error::Storage).and_then(|met| {
        new.set_permissions(met.permissions())?;
        copy(&file, &new, met.len())?;
        Ok(new.sync_all()?)
    });
    if copied.is_err() {
        let _ = fs::remove_file(second);
    }
    copied
}

/// The new name is durable when its directory is.
fn sync_directory(path: &Path) -> Result<(), Error> {
    if let Some(directory) = path.parent() {
        File::open(directory)?.sync_all()?;
    }
    Ok(())
}
