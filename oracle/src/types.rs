//! The values that answers are made of, and the trait that the real code and
//! the paper's rules both meet.

use std::cmp::Ordering;

#[derive(Clone, Copy, PartialEq, Eq, Debug, PartialOrd, Ord, Hash)]
pub enum Mode {
    Unix = 0,
    Windows = 1,
}

impl Mode {
    pub fn is_sep(self, b: u8) -> bool {
        b == b'/' || (self == Mode::Windows && b == b'\\')
    }
}

/// A part of a path: where it starts and how long it is.
#[derive(Clone, Copy, PartialEq, Eq, Debug, PartialOrd, Ord, Hash)]
pub struct Ext {
    pub start: usize,
    pub len: usize,
}

impl Ext {
    pub fn new(start: usize, len: usize) -> Ext {
        Ext { start, len }
    }
    pub fn from_to(start: usize, end: usize) -> Ext {
        Ext { start, len: end - start }
    }
    pub fn end(self) -> usize {
        self.start + self.len
    }
    pub fn of(self, p: &[u8]) -> &[u8] {
        &p[self.start..self.end()]
    }
}

/// The six kinds of prefix, in std's order.
#[derive(Clone, PartialEq, Eq, Debug, PartialOrd, Ord, Hash)]
pub enum Pfx {
    Verbatim(Vec<u8>),
    VerbatimUnc(Vec<u8>, Vec<u8>),
    VerbatimDisk(u8),
    DeviceNs(Vec<u8>),
    Unc(Vec<u8>, Vec<u8>),
    Disk(u8),
}

impl Pfx {
    pub fn is_verbatim(&self) -> bool {
        matches!(self, Pfx::Verbatim(_) | Pfx::VerbatimUnc(..) | Pfx::VerbatimDisk(_))
    }
    pub fn kind_name(&self) -> &'static str {
        match self {
            Pfx::Verbatim(_) => "Verbatim",
            Pfx::VerbatimUnc(..) => "VerbatimUNC",
            Pfx::VerbatimDisk(_) => "VerbatimDisk",
            Pfx::DeviceNs(_) => "DeviceNS",
            Pfx::Unc(..) => "UNC",
            Pfx::Disk(_) => "Disk",
        }
    }
}

/// The five kinds of component, in std's order.
#[derive(Clone, PartialEq, Eq, Debug, PartialOrd, Ord, Hash)]
pub enum Kind {
    Prefix(Pfx),
    RootDir,
    CurDir,
    ParentDir,
    Normal(Vec<u8>),
}

#[derive(Clone, PartialEq, Eq, Debug)]
pub struct Comp {
    pub kind: Kind,
    pub ext: Ext,
}

/// A prefix: the kind's number in std's order, from 1; the letter or 0; for
/// each name that the kind has, its place; the length. The inner place is None
/// where the real code hands out an empty string that is no part of the path.
#[derive(Clone, Copy, PartialEq, Eq, Debug)]
pub struct BarePrefix {
    pub kind: u8,
    pub letter: u8,
    pub names: [Option<Option<Ext>>; 2],
    pub len: usize,
}

#[derive(Clone, Copy, PartialEq, Eq, Debug)]
pub enum Dir {
    Front,
    Back,
}

/// What a step took (None: nothing left), and `as_path` after it.
#[derive(Clone, PartialEq, Eq, Debug)]
pub struct StepOut {
    pub taken: Option<Comp>,
    pub rest: Ext,
}

#[derive(Clone, PartialEq, Eq, Debug)]
pub enum SetExt {
    Done(Vec<u8>),
    /// no file stem: Rust answers false and leaves the path alone
    NoStem,
    /// the extension holds a separator: Rust panics
    Separator,
}

/// What the protocol needs to know of paths.
pub trait Paths {
    fn prefix_bare(&self, m: Mode, p: &[u8]) -> Option<BarePrefix>;
    /// The list from the front as kind numbers and extents.
    fn list_into(&self, m: Mode, p: &[u8], out: &mut Vec<(u8, Ext)>);
    /// What a step takes after `f` front and `b` back steps.
    fn step_after(&self, m: Mode, p: &[u8], f: usize, b: usize, d: Dir) -> Option<(u8, Ext)>;
    /// `as_path` after `f` front and `b` back steps.
    fn rest_after(&self, m: Mode, p: &[u8], f: usize, b: usize) -> Ext;
    fn parent(&self, m: Mode, p: &[u8]) -> Option<Ext>;
    /// The n-th ancestor, 0 being the path itself.
    fn ancestor(&self, m: Mode, p: &[u8], n: u64) -> Option<Ext>;
    fn file_name(&self, m: Mode, p: &[u8]) -> Option<Ext>;
    fn file_stem(&self, m: Mode, p: &[u8]) -> Option<Ext>;
    fn extension(&self, m: Mode, p: &[u8]) -> Option<Ext>;
    fn has_root(&self, m: Mode, p: &[u8]) -> bool;
    fn is_absolute(&self, m: Mode, p: &[u8]) -> bool;
    fn cmp(&self, m: Mode, p: &[u8], q: &[u8]) -> Ordering;
    fn starts_with(&self, m: Mode, p: &[u8], base: &[u8]) -> bool;
    fn ends_with(&self, m: Mode, p: &[u8], child: &[u8]) -> bool;
    fn strip_prefix(&self, m: Mode, p: &[u8], base: &[u8]) -> Option<Ext>;
    fn join(&self, m: Mode, p: &[u8], q: &[u8]) -> Vec<u8>;
    fn set_file_name(&self, m: Mode, p: &[u8], name: &[u8]) -> Vec<u8>;
    /// For an extension without a separator; None where there is no stem.
    fn set_plain_extension(&self, m: Mode, p: &[u8], ext: &[u8]) -> Option<Vec<u8>>;
    /// Unix only; None for the empty path.
    fn absolute(&self, p: &[u8], cwd: &[u8]) -> Option<Vec<u8>>;
}
