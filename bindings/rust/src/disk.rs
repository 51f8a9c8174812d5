//! Panel files on a disk: what the feature `std` adds, which is on unless it is left out.
use crate::{pad_order, PadOrder, Refusal};
use core::error::Error;
use core::fmt;
use std::fs::File;
use std::io::{self, Read};
use std::path::Path;
use std::vec::Vec;

/// One byte more than the longest panel file has, so that a longer file is refused for its length.
const HELD: u64 = 33_287;

/// Why there is no answer for a file on a disk. It reads as words from `main` too.
///
/// ```
/// # use wejdarox::{pad_order_at, FileError};
/// assert!(matches!(pad_order_at("no such file"), Err(FileError::Unread(_))));
/// ```
#[non_exhaustive]
pub enum FileError {
    /// It cannot be read.
    Unread(io::Error),
    /// It was read, and is refused.
    Refused(Refusal),
}

impl fmt::Display for FileError {
    fn fmt(&self, f: &mut fmt::Formatter<'_>) -> fmt::Result {
        match self {
            FileError::Unread(why) => why.fmt(f),
            FileError::Refused(why) => why.fmt(f),
        }
    }
}

impl fmt::Debug for FileError {
    fn fmt(&self, f: &mut fmt::Formatter<'_>) -> fmt::Result {
        fmt::Display::fmt(self, f)
    }
}

impl Error for FileError {}

impl From<io::Error> for FileError {
    fn from(why: io::Error) -> FileError {
        FileError::Unread(why)
    }
}

impl From<Refusal> for FileError {
    fn from(why: Refusal) -> FileError {
        FileError::Refused(why)
    }
}

/// The bytes of a file on a disk, as the calls on panel files take them: at most 33,287, which settle the answer of a longer one too.
///
/// ```
/// # use wejdarox::file_bytes;
/// assert!(file_bytes("no such file").is_err());
/// ```
///
/// # Errors
/// Where it cannot be opened or read.
pub fn file_bytes(path: impl AsRef<Path>) -> io::Result<Vec<u8>> {
    let mut bytes = Vec::new();
    File::open(path)?.take(HELD).read_to_end(&mut bytes)?;
    Ok(bytes)
}

/// The pads of a panel file on a disk in the order to lift them: [`pad_order`] of [`file_bytes`].
///
/// ```
/// # use wejdarox::{pad_order_at, Panel};
/// let path = std::env::temp_dir().join(format!("wejdarox-{}.lxp", std::process::id()));
/// std::fs::write(&path, Panel { matrix: vec![0.0, 2.0, 1.0, 0.0], readings: vec![5.0, 8.0] }.write()?)?;
/// assert_eq!(pad_order_at(&path)?.pads[0].number, 2);
/// # std::fs::remove_file(&path)?;
/// # Ok::<(), Box<dyn std::error::Error>>(())
/// ```
///
/// # Errors
/// Where it cannot be read; else as for [`pad_order`].
pub fn pad_order_at(path: impl AsRef<Path>) -> Result<PadOrder, FileError> {
    Ok(pad_order(&file_bytes(path)?)?)
}
