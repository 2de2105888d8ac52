// Included once in each flavour's module: the real code's answers as owned
// values. `Path` etc. here are the flavour's own.

use super::ffi::OsStr;
use super::path::*;
use crate::types::*;

fn path(p: &[u8]) -> &Path {
    Path::new(OsStr::from_bytes(p))
}

/// Place of a part of `p`, by pointers.
fn place(p: &[u8], part: &[u8]) -> Option<Ext> {
    let base = p.as_ptr() as usize;
    let at = part.as_ptr() as usize;
    if at >= base && at + part.len() <= base + p.len() {
        Some(Ext { start: at - base, len: part.len() })
    } else {
        None
    }
}

fn inside(p: &[u8], part: &[u8]) -> Ext {
    place(p, part).expect("a part outside of its path")
}

fn owned(k: Prefix<'_>) -> Pfx {
    let v = |s: &OsStr| s.as_encoded_bytes().to_vec();
    match k {
        Prefix::Verbatim(a) => Pfx::Verbatim(v(a)),
        Prefix::VerbatimUNC(a, b) => Pfx::VerbatimUnc(v(a), v(b)),
        Prefix::VerbatimDisk(c) => Pfx::VerbatimDisk(c),
        Prefix::DeviceNS(a) => Pfx::DeviceNs(v(a)),
        Prefix::UNC(a, b) => Pfx::Unc(v(a), v(b)),
        Prefix::Disk(c) => Pfx::Disk(c),
    }
}

/// The prefix, with nothing copied.
pub fn prefix_bare(p: &[u8]) -> Option<BarePrefix> {
    let k = path(p).oracle_prefix()?;
    let n = |s: &OsStr| Some(place(p, s.as_encoded_bytes()));
    let (kind, letter, names) = match k {
        Prefix::Verbatim(a) => (1, 0, [n(a), None]),
        Prefix::VerbatimUNC(a, b) => (2, 0, [n(a), n(b)]),
        Prefix::VerbatimDisk(c) => (3, c, [None, None]),
        Prefix::DeviceNS(a) => (4, 0, [n(a), None]),
        Prefix::UNC(a, b) => (5, 0, [n(a), n(b)]),
        Prefix::Disk(c) => (6, c, [None, None]),
    };
    Some(BarePrefix { kind, letter, names, len: k.oracle_len() })
}

/// One step. The extents of Prefix and Normal come from their own pointers;
/// those of the other three, which carry no bytes in Rust, from the iterator's
/// remaining slice after the step: a step consumes just the bytes up to (or
/// from) the component and one separator at most beyond it.
fn step_raw<'a>(p: &[u8], c: &mut Components<'a>, d: Dir) -> Option<(Component<'a>, Ext)> {
    let got = match d {
        Dir::Front => c.next(),
        Dir::Back => c.next_back(),
    }?;
    let left = c.oracle_left();
    let l = inside(p, left);
    let ext = match got {
        Component::Prefix(x) => inside(p, x.as_os_str().as_encoded_bytes()),
        Component::Normal(s) => inside(p, s.as_encoded_bytes()),
        Component::RootDir => {
            let len = c.oracle_has_physical_root() as usize;
            match d {
                Dir::Front => Ext { start: l.start - len, len },
                Dir::Back => Ext { start: l.end(), len },
            }
        }
        Component::CurDir | Component::ParentDir => {
            let len = if got == Component::CurDir { 1 } else { 2 };
            match d {
                Dir::Front => {
                    let sep = if p[l.start - 1] == b'.' { 0 } else { 1 };
                    Ext { start: l.start - sep - len, len }
                }
                Dir::Back => {
                    let sep = if p[l.end()] == b'.' { 0 } else { 1 };
                    Ext { start: l.end() + sep, len }
                }
            }
        }
    };
    Some((got, ext))
}

fn step<'a>(p: &[u8], c: &mut Components<'a>, d: Dir) -> Option<Comp> {
    let (got, ext) = step_raw(p, c, d)?;
    let kind = match got {
        Component::Prefix(x) => Kind::Prefix(owned(x.kind())),
        Component::RootDir => Kind::RootDir,
        Component::CurDir => Kind::CurDir,
        Component::ParentDir => Kind::ParentDir,
        Component::Normal(s) => Kind::Normal(s.as_encoded_bytes().to_vec()),
    };
    Some(Comp { kind, ext })
}

pub fn list(p: &[u8]) -> Vec<Comp> {
    let mut c = path(p).components();
    std::iter::from_fn(|| step(p, &mut c, Dir::Front)).collect()
}

pub fn list_back(p: &[u8]) -> Vec<Comp> {
    let mut c = path(p).components();
    std::iter::from_fn(|| step(p, &mut c, Dir::Back)).collect()
}

fn rest(p: &[u8], c: &Components<'_>) -> Ext {
    inside(p, c.as_path().as_os_str().as_encoded_bytes())
}

pub fn steps(p: &[u8], dirs: &[Dir]) -> (Ext, Vec<StepOut>) {
    let mut c = path(p).components();
    let first = rest(p, &c);
    let out = dirs
        .iter()
        .map(|&d| {
            let taken = step(p, &mut c, d);
            StepOut { taken, rest: rest(p, &c) }
        })
        .collect();
    (first, out)
}

/// A walk that can be copied, for trying every mixture of steps.
#[derive(Clone)]
pub struct Walk<'a> {
    p: &'a [u8],
    c: Components<'a>,
}

#[allow(dead_code)]
impl<'a> Walk<'a> {
    pub fn new(p: &'a [u8]) -> Walk<'a> {
        Walk { p, c: path(p).components() }
    }
    pub fn step(&mut self, d: Dir) -> Option<Comp> {
        step(self.p, &mut self.c, d)
    }
    pub fn rest(&self) -> Ext {
        rest(self.p, &self.c)
    }
    /// A step with nothing copied: the kind as 1 Prefix, 2 RootDir, 3 CurDir,
    /// 4 ParentDir, 5 Normal, and its extent.
    pub fn step_bare(&mut self, d: Dir) -> Option<(u8, Ext)> {
        let (got, ext) = step_raw(self.p, &mut self.c, d)?;
        let kind = match got {
            Component::Prefix(_) => 1,
            Component::RootDir => 2,
            Component::CurDir => 3,
            Component::ParentDir => 4,
            Component::Normal(_) => 5,
        };
        Some((kind, ext))
    }
}

/// The list from the front, as bare steps, into a vector that is used again.
pub fn list_into(p: &[u8], out: &mut Vec<(u8, Ext)>) {
    let mut w = Walk::new(p);
    out.clear();
    out.extend(std::iter::from_fn(|| w.step_bare(Dir::Front)));
}

/// The walk after `f` front and then `b` back steps.
fn walked(p: &[u8], f: usize, b: usize) -> Walk<'_> {
    let mut w = Walk::new(p);
    for _ in 0..f {
        w.step_bare(Dir::Front);
    }
    for _ in 0..b {
        w.step_bare(Dir::Back);
    }
    w
}

pub fn step_after(p: &[u8], f: usize, b: usize, d: Dir) -> Option<(u8, Ext)> {
    walked(p, f, b).step_bare(d)
}

pub fn rest_after(p: &[u8], f: usize, b: usize) -> Ext {
    walked(p, f, b).rest()
}

fn part(p: &[u8], x: Option<&OsStr>) -> Option<Ext> {
    x.map(|s| inside(p, s.as_encoded_bytes()))
}

pub fn parent(p: &[u8]) -> Option<Ext> {
    part(p, path(p).parent().map(|x| x.as_os_str()))
}
pub fn ancestors(p: &[u8]) -> Vec<Ext> {
    path(p).ancestors().map(|a| inside(p, a.as_os_str().as_encoded_bytes())).collect()
}
/// The n-th ancestor, 0 being the path itself.
pub fn ancestor(p: &[u8], n: u64) -> Option<Ext> {
    // there are never more ancestors than bytes, and the path itself
    let n = usize::try_from(n).ok().filter(|&n| n <= p.len())?;
    path(p).ancestors().nth(n).map(|a| inside(p, a.as_os_str().as_encoded_bytes()))
}
pub fn file_name(p: &[u8]) -> Option<Ext> {
    part(p, path(p).file_name())
}
pub fn file_stem(p: &[u8]) -> Option<Ext> {
    part(p, path(p).file_stem())
}
pub fn extension(p: &[u8]) -> Option<Ext> {
    part(p, path(p).extension())
}
pub fn has_root(p: &[u8]) -> bool {
    path(p).has_root()
}
pub fn is_absolute(p: &[u8]) -> bool {
    path(p).is_absolute()
}
pub fn cmp(p: &[u8], q: &[u8]) -> std::cmp::Ordering {
    Ord::cmp(path(p), path(q))
}
pub fn eq(p: &[u8], q: &[u8]) -> bool {
    path(p) == path(q)
}
pub fn starts_with(p: &[u8], base: &[u8]) -> bool {
    path(p).starts_with(path(base))
}
pub fn ends_with(p: &[u8], child: &[u8]) -> bool {
    path(p).ends_with(path(child))
}
pub fn strip_prefix(p: &[u8], base: &[u8]) -> Option<Ext> {
    part(p, path(p).strip_prefix(path(base)).ok().map(|x| x.as_os_str()))
}
pub fn join(p: &[u8], q: &[u8]) -> Vec<u8> {
    path(p).join(path(q)).into_os_string().into_bytes()
}
pub fn set_file_name(p: &[u8], name: &[u8]) -> Vec<u8> {
    let mut b = path(p).to_path_buf();
    b.set_file_name(OsStr::from_bytes(name));
    b.into_os_string().into_bytes()
}
pub fn with_file_name(p: &[u8], name: &[u8]) -> Vec<u8> {
    path(p).with_file_name(OsStr::from_bytes(name)).into_os_string().into_bytes()
}

/// `set_extension` where the extension is known to hold no separator; None
/// where there is no stem.
pub fn set_plain_extension(p: &[u8], ext: &[u8]) -> Option<Vec<u8>> {
    let mut b = path(p).to_path_buf();
    b.set_extension(OsStr::from_bytes(ext)).then(|| b.into_os_string().into_bytes())
}

/// Runs `f`; a panic of `validate_extension` becomes None, any other goes on.
fn extension_panic<T>(f: impl FnOnce() -> T + std::panic::UnwindSafe) -> Option<T> {
    match crate::quietly(f) {
        Ok(t) => Some(t),
        Err(e) => {
            let says = e
                .downcast_ref::<String>()
                .is_some_and(|s| s.starts_with("extension cannot contain path separators"));
            if says { None } else { std::panic::resume_unwind(e) }
        }
    }
}

pub fn set_extension(p: &[u8], ext: &[u8]) -> SetExt {
    let r = extension_panic(|| {
        let mut b = path(p).to_path_buf();
        let found = b.set_extension(OsStr::from_bytes(ext));
        (found, b.into_os_string().into_bytes())
    });
    match r {
        None => SetExt::Separator,
        Some((true, b)) => SetExt::Done(b),
        Some((false, b)) => {
            assert_eq!(b, p);
            SetExt::NoStem
        }
    }
}

/// `with_extension`: None when it panics.
pub fn with_extension(p: &[u8], ext: &[u8]) -> Option<Vec<u8>> {
    extension_panic(|| path(p).with_extension(OsStr::from_bytes(ext)).into_os_string().into_bytes())
}

pub fn normalize(p: &[u8]) -> Option<Vec<u8>> {
    path(p).normalize_lexically().ok().map(|b| b.into_os_string().into_bytes())
}
