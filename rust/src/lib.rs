//! Path arithmetic on bytes, exact and proved, for Unix and for Windows paths on any system.
//!
//! This crate is a safe way into the archive of the proved crate `cab` and has no path logic of its own: it calls the archive's five
//! functions and puts their numbers into types. What they promise is proved in the repository that this folder is part of; the rules
//! are its docs/01-scope.md. No heap, no operating system, no `std`.
//!
//! ```
//! use bridlestep::{Components, Kind, Mode, Prefix};
//!
//! let path = br"c:\maps\12";
//! let mut parts = Components::new(Mode::Windows, path)?;
//! let disk = parts.next().unwrap();
//! assert_eq!(disk.kind, Kind::Prefix(Prefix::Disk(b'C')));
//! assert_eq!(disk.bytes, b"c:");
//! assert_eq!(parts.next().unwrap().kind, Kind::RootDir);
//! let last = parts.next_back().unwrap();
//! assert_eq!((last.kind, last.bytes, last.extent()), (Kind::Normal, &b"12"[..], 8..10));
//! assert_eq!(parts.next().unwrap().bytes, b"maps");
//! assert_eq!(parts.next(), None);
//! # Ok::<(), bridlestep::Error>(())
//! ```
#![no_std]

mod calls;

use core::cmp::Ordering;
use core::fmt;
use core::iter::FusedIterator;
use core::ops::Range;

/// The longest path that is taken, in bytes. A joined path may be longer, if the buffer is.
pub const LONGEST: usize = 4096;

/// By whose rules a path is read.
#[derive(Clone, Copy, Debug, PartialEq, Eq, Hash)]
pub enum Mode {
    /// `/` separates; there are no prefixes.
    Unix,
    /// `\` and `/` separate; drives, servers and verbatim paths are prefixes.
    Windows,
}

impl Mode {
    fn number(self) -> usize {
        match self {
            Mode::Unix => 0,
            Mode::Windows => 1,
        }
    }
}

/// Why a call was refused. Nothing was written, and no cursor moved.
#[derive(Clone, Copy, Debug, PartialEq, Eq, Hash)]
pub enum Error {
    /// A path is longer than [`LONGEST`].
    Length,
    /// The joined path is longer than the buffer.
    Room,
    /// More components were taken than the path has.
    Cursor,
}

impl fmt::Display for Error {
    fn fmt(&self, f: &mut fmt::Formatter<'_>) -> fmt::Result {
        f.write_str(match self {
            Error::Length => "a path is longer than 4,096 bytes",
            Error::Room => "the joined path is longer than the buffer",
            Error::Cursor => "more components were taken than the path has",
        })
    }
}

impl core::error::Error for Error {}

/// What a reply says: all is well (`Some`), the part asked for is not there (`None`), or a refusal.
fn judge<T>(reply: calls::Reply, answer: T) -> Result<Option<T>, Error> {
    match reply {
        0 => Ok(Some(answer)),
        2 => Err(Error::Length),
        3 => Ok(None),
        7 => Err(Error::Room),
        8 => Err(Error::Cursor),
        // 1 is for a mode that `Mode` does not have, the others for calls that are not here; proved of the archive
        _ => unreachable!("reply {reply}"),
    }
}

/// A Windows path's prefix, with its names as they stand in the path. A drive's letter is a capital.
#[derive(Clone, Copy, Debug, PartialEq, Eq, Hash)]
pub enum Prefix<'a> {
    /// `\\?\name`
    Verbatim(&'a [u8]),
    /// `\\?\UNC\server\share`, or `\\?\UNC/server\share`
    VerbatimUnc(&'a [u8], &'a [u8]),
    /// `\\?\C:`
    VerbatimDisk(u8),
    /// `\\.\name`
    DeviceNs(&'a [u8]),
    /// `\\server\share`
    Unc(&'a [u8], &'a [u8]),
    /// `C:`
    Disk(u8),
}

impl<'a> Prefix<'a> {
    /// From the archive's numbers: kind, letter, and start and length of the names.
    fn of(path: &'a [u8], numbers: &[usize]) -> Prefix<'a> {
        let name = |at: usize| &path[numbers[at]..numbers[at] + numbers[at + 1]];
        match numbers[0] {
            1 => Prefix::Verbatim(name(2)),
            2 => Prefix::VerbatimUnc(name(2), name(4)),
            3 => Prefix::VerbatimDisk(numbers[1] as u8),
            4 => Prefix::DeviceNs(name(2)),
            5 => Prefix::Unc(name(2), name(4)),
            6 => Prefix::Disk(numbers[1] as u8),
            kind => unreachable!("prefix kind {kind}"),
        }
    }
}

/// The prefix of a path, and the bytes that it takes; `None` where the path has none, as in Unix mode.
///
/// ```
/// use bridlestep::{Mode, Prefix, prefix};
///
/// let (found, bytes) = prefix(Mode::Windows, br"\\office\maps\12")?.unwrap();
/// assert_eq!(found, Prefix::Unc(b"office", b"maps"));
/// assert_eq!(bytes, br"\\office\maps");
/// assert_eq!(prefix(Mode::Unix, br"\\office\maps\12")?, None);
/// # Ok::<(), bridlestep::Error>(())
/// ```
pub fn prefix(mode: Mode, path: &[u8]) -> Result<Option<(Prefix<'_>, &[u8])>, Error> {
    let (reply, numbers) = calls::prefix(mode.number(), path);
    let found = judge(reply, numbers)?;
    Ok(found.map(|numbers| (Prefix::of(path, &numbers[..6]), &path[..numbers[6]])))
}

/// What a component is.
#[derive(Clone, Copy, Debug, PartialEq, Eq, Hash)]
pub enum Kind<'a> {
    /// A Windows prefix.
    Prefix(Prefix<'a>),
    /// The root. Behind a server and share it may have no byte of its own.
    RootDir,
    /// `.`
    CurDir,
    /// `..`
    ParentDir,
    /// A name.
    Normal,
}

/// A component of a path: what it is, its bytes and where they stand.
#[derive(Clone, Copy, Debug, PartialEq, Eq, Hash)]
pub struct Component<'a> {
    /// What it is.
    pub kind: Kind<'a>,
    /// Its bytes, a part of the path.
    pub bytes: &'a [u8],
    /// Where they start in the path.
    pub start: usize,
}

impl<'a> Component<'a> {
    /// The places in the path that it takes.
    pub fn extent(&self) -> Range<usize> {
        self.start..self.start + self.bytes.len()
    }

    /// From the numbers of a step.
    fn of(path: &'a [u8], numbers: &[usize; 12]) -> Component<'a> {
        let kind = match numbers[0] {
            1 => Kind::Prefix(Prefix::of(path, &numbers[1..7])),
            2 => Kind::RootDir,
            3 => Kind::CurDir,
            4 => Kind::ParentDir,
            5 => Kind::Normal,
            kind => unreachable!("component kind {kind}"),
        };
        let start = numbers[7];
        Component { kind, bytes: &path[start..start + numbers[8]], start }
    }
}

/// The components of a path, from either end: a path and a cursor, which counts how many were taken at the front and at the back.
///
/// ```
/// use bridlestep::{Components, Mode};
///
/// let names: Vec<&[u8]> = Components::new(Mode::Unix, b"/a//./b/")?.map(|c| c.bytes).collect();
/// assert_eq!(names, [&b"/"[..], b"a", b"b"]);
/// let back: Vec<usize> = Components::new(Mode::Unix, b"/a//./b/")?.rev().map(|c| c.start).collect();
/// assert_eq!(back, [6, 1, 0]);
/// # Ok::<(), bridlestep::Error>(())
/// ```
#[derive(Clone, Debug)]
pub struct Components<'a> {
    mode: Mode,
    path: &'a [u8],
    front: usize,
    back: usize,
}

impl<'a> Components<'a> {
    /// All components of `path`. Refused with [`Error::Length`].
    pub fn new(mode: Mode, path: &'a [u8]) -> Result<Components<'a>, Error> {
        Components::resume(mode, path, 0, 0)
    }

    /// What is left of them where `front` were taken at the front and `back` at the back. Refused with [`Error::Length`], and with
    /// [`Error::Cursor`] where the path has fewer.
    ///
    /// ```
    /// use bridlestep::{Components, Error, Mode};
    ///
    /// let mut parts = Components::new(Mode::Unix, b"a/b/c")?;
    /// parts.next();
    /// let (front, back) = parts.taken();
    /// let mut again = Components::resume(Mode::Unix, b"a/b/c", front, back)?;
    /// assert_eq!(again.next().unwrap().bytes, b"b");
    /// assert_eq!(Components::resume(Mode::Unix, b"a/b/c", 2, 2).unwrap_err(), Error::Cursor);
    /// # Ok::<(), Error>(())
    /// ```
    pub fn resume(mode: Mode, path: &'a [u8], front: usize, back: usize) -> Result<Components<'a>, Error> {
        let (reply, _) = calls::next(mode.number(), front, back, path);
        judge(reply, ())?;
        Ok(Components { mode, path, front, back })
    }

    /// How many components were taken at the front, and how many at the back.
    pub fn taken(&self) -> (usize, usize) {
        (self.front, self.back)
    }

    /// What a step took, with the cursor that it handed back.
    fn took(&mut self, (reply, numbers): (calls::Reply, [usize; 12])) -> Option<Component<'a>> {
        self.front = numbers[10];
        self.back = numbers[11];
        // the path and the cursor were accepted at the start, and a step that is refused moves nothing
        judge(reply, ()).ok()??;
        Some(Component::of(self.path, &numbers))
    }
}

impl<'a> Iterator for Components<'a> {
    type Item = Component<'a>;

    fn next(&mut self) -> Option<Component<'a>> {
        self.took(calls::next(self.mode.number(), self.front, self.back, self.path))
    }
}

impl<'a> DoubleEndedIterator for Components<'a> {
    fn next_back(&mut self) -> Option<Component<'a>> {
        self.took(calls::next_back(self.mode.number(), self.front, self.back, self.path))
    }
}

impl FusedIterator for Components<'_> {}

/// The order of two paths, by their components. Spelling does not count: `a//b/` is equal to `a/./b`.
///
/// ```
/// use bridlestep::{Mode, compare};
/// use core::cmp::Ordering;
///
/// assert_eq!(compare(Mode::Windows, br"c:\maps", b"C:/maps/")?, Ordering::Equal);
/// assert_eq!(compare(Mode::Unix, b"/maps/12", b"/maps/120")?, Ordering::Less);
/// # Ok::<(), bridlestep::Error>(())
/// ```
pub fn compare(mode: Mode, p: &[u8], q: &[u8]) -> Result<Ordering, Error> {
    let (reply, order) = calls::compare(mode.number(), p, q);
    judge(reply, ())?;
    Ok(match order {
        0 => Ordering::Less,
        1 => Ordering::Equal,
        _ => Ordering::Greater,
    })
}

/// `p` and `q` made one path, at the front of `out`; every byte behind it is as it was. Refused with [`Error::Length`] and, where the
/// path is longer than `out`, with [`Error::Room`]; `out` is then untouched.
///
/// ```
/// use bridlestep::{Error, Mode, join};
///
/// let mut out = [0; 16];
/// assert_eq!(join(Mode::Windows, br"C:\maps", b"12", &mut out)?, br"C:\maps\12");
/// assert_eq!(join(Mode::Unix, b"/maps", b"12", &mut out[..7]), Err(Error::Room));
/// # Ok::<(), Error>(())
/// ```
pub fn join<'b>(mode: Mode, p: &[u8], q: &[u8], out: &'b mut [u8]) -> Result<&'b [u8], Error> {
    let (reply, len) = calls::join(mode.number(), p, q, out);
    judge(reply, ())?;
    Ok(&out[..len])
}
