//! Document 01's rules as they are written there, in the plainest way and from
//! nothing but the bytes. `rest` is what the protocol answers with; the others
//! only measure where the paper and the Rust differ (`oracle paper`).

use crate::types::{BarePrefix, Dir, Ext, Kind, Mode, Paths, Pfx};
use std::cmp::Ordering;

pub const PREFIX: u8 = 1;
const ROOT_DIR: u8 = 2;
const CUR_DIR: u8 = 3;
const PARENT_DIR: u8 = 4;
const NORMAL: u8 = 5;

const DISK: u8 = 6;

/// A component's kind and its extent.
pub type Part = (u8, Ext);

fn is_sep(c: u8) -> bool {
    c == b'\\' || c == b'/'
}

// ---------------------------------------------------------------- prefixes

/// From `start` to the next separator, or to the end.
fn name(p: &[u8], start: usize, verbatim: bool) -> Ext {
    let found = p[start..].iter().position(|&c| if verbatim { c == b'\\' } else { is_sep(c) });
    Ext::new(start, found.unwrap_or(p.len() - start))
}

/// The name behind the separator that ended the one before it.
fn next_name(p: &[u8], before: Ext, verbatim: bool) -> Ext {
    name(p, p.len().min(before.end() + 1), verbatim)
}

fn drive(p: &[u8]) -> Option<u8> {
    match p {
        [letter, b':', ..] if letter.is_ascii_alphabetic() => Some(letter.to_ascii_uppercase()),
        _ => None,
    }
}

fn prefix(p: &[u8]) -> Option<BarePrefix> {
    let sep = |i: usize| p.get(i).is_some_and(|&c| is_sep(c));
    let one = |kind, n: Ext| BarePrefix { kind, letter: 0, names: [Some(Some(n)), None], len: 4 + n.len };
    let letter = |kind, letter, len| BarePrefix { kind, letter, names: [None, None], len };
    if !(sep(0) && sep(1)) {
        return drive(p).map(|c| letter(DISK, c, 2));
    }
    match p.get(2) {
        Some(b'?') if sep(3) && !p[..4].contains(&b'/') => {
            let behind = &p[4..];
            // `UNC\` or `UNC/` (02, c)
            if behind.starts_with(b"UNC") && sep(7) {
                return two(p, 8, true);
            }
            match drive(behind).filter(|_| behind.len() == 2 || sep(6)) {
                Some(c) => Some(letter(3, c, 6)),
                None => Some(one(1, name(p, 4, true))),
            }
        }
        Some(b'.') if sep(3) => Some(one(4, name(p, 4, false))),
        _ => two(p, 2, false).filter(|x| x.names.iter().all(|n| n.flatten().is_some_and(|n| n.len > 0))),
    }
}

/// Server and share from `start` on.
fn two(p: &[u8], start: usize, verbatim: bool) -> Option<BarePrefix> {
    let server = name(p, start, verbatim);
    let share = next_name(p, server, verbatim);
    let shared = if share.len > 0 { 1 + share.len } else { 0 };
    let kind = if verbatim { 2 } else { 5 };
    Some(BarePrefix {
        kind,
        letter: 0,
        names: [Some(Some(server)), Some(Some(share))],
        len: start + server.len + shared,
    })
}

// ---------------------------------------------------------------- the list

fn prefix_of(m: Mode, p: &[u8]) -> Option<BarePrefix> {
    if m == Mode::Unix { None } else { prefix(p) }
}

fn list(m: Mode, p: &[u8]) -> Vec<Part> {
    let pfx = prefix_of(m, p);
    let at = pfx.map_or(0, |x| x.len);
    let verbatim = pfx.is_some_and(|x| x.kind <= 3);
    let mut out: Vec<Part> = pfx.iter().map(|x| (PREFIX, Ext::new(0, x.len))).collect();
    let rooted = p.get(at).is_some_and(|&c| m.is_sep(c));
    if rooted {
        out.push((ROOT_DIR, Ext::new(at, 1)));
    } else if pfx.is_some_and(|x| x.kind == 4 || x.kind == 5) {
        out.push((ROOT_DIR, Ext::new(at, 0)));
    }
    let mut start = at + usize::from(rooted);
    let ends = |c: u8| if verbatim { c == b'\\' } else { m.is_sep(c) };
    for segment in p[start..].split(|&c| ends(c)) {
        let ext = Ext::new(start, segment.len());
        let leading = pfx.is_none() && start == 0;
        match segment {
            b"" => (),
            b"." if verbatim || leading => out.push((CUR_DIR, ext)),
            b"." => (),
            b".." => out.push((PARENT_DIR, ext)),
            _ => out.push((NORMAL, ext)),
        }
        start += segment.len() + 1;
    }
    out
}

/// The end of a first segment `.` behind a Disk prefix, which belongs to no
/// component.
fn dot_end(m: Mode, p: &[u8], list: &[Part]) -> Option<usize> {
    let disk = m == Mode::Windows && list.first() == Some(&(PREFIX, Ext::new(0, 2)));
    (disk && p.get(2) == Some(&b'.') && p.get(3).is_none_or(|&c| is_sep(c))).then_some(3)
}

/// The rest of `p`, which has that list, behind `f` and before `b` components.
pub fn rest(m: Mode, p: &[u8], list: &[Part], f: usize, b: usize) -> Ext {
    let remaining = &list[f..list.len() - b];
    let taken_end = if f == 0 { 0 } else { list[f - 1].1.end() };
    let only_prefix = f == 1 && list[0].0 == PREFIX;
    let left = match remaining.first() {
        Some(first) if f > 0 && !only_prefix => first.1.start,
        _ => taken_end,
    };
    let right = remaining.last().map_or(taken_end, |last| last.1.end());
    let back_took_prefix = f == 0 && remaining.is_empty();
    let later_remains = list.len() - b > 1;
    match dot_end(m, p, list) {
        Some(end) if f <= 1 && !later_remains && !back_took_prefix => Ext::from_to(left, end),
        _ => Ext::from_to(left, right),
    }
}

/// What of a component is compared.
fn value(m: Mode, p: &[u8], part: Part) -> Kind {
    let bytes = |n: Option<Option<Ext>>| n.flatten().unwrap().of(p).to_vec();
    match part.0 {
        ROOT_DIR => Kind::RootDir,
        CUR_DIR => Kind::CurDir,
        PARENT_DIR => Kind::ParentDir,
        NORMAL => Kind::Normal(part.1.of(p).to_vec()),
        _ => {
            let x = prefix_of(m, p).unwrap();
            let [first, second] = x.names;
            Kind::Prefix(match x.kind {
                1 => Pfx::Verbatim(bytes(first)),
                2 => Pfx::VerbatimUnc(bytes(first), bytes(second)),
                3 => Pfx::VerbatimDisk(x.letter),
                4 => Pfx::DeviceNs(bytes(first)),
                5 => Pfx::Unc(bytes(first), bytes(second)),
                _ => Pfx::Disk(x.letter),
            })
        }
    }
}

fn values(m: Mode, p: &[u8]) -> Vec<Kind> {
    list(m, p).into_iter().map(|c| value(m, p, c)).collect()
}

// ---------------------------------------------------------------- views

/// Where the name is split: the stem's length, and whether an extension is
/// behind it.
fn split(name: &[u8]) -> (usize, bool) {
    match name.iter().rposition(|&c| c == b'.') {
        None | Some(0) => (name.len(), false),
        Some(dot) => (dot, true),
    }
}

// ---------------------------------------------------------------- results

/// Rule 2: the lists are put together before anything is written.
fn verbatim_join(p: &[u8], x: &BarePrefix, q: &[u8]) -> Vec<u8> {
    let m = Mode::Windows;
    let mut parts: Vec<(u8, &[u8])> = list(m, p).iter().map(|c| (c.0, c.1.of(p))).collect();
    for (kind, ext) in list(m, q) {
        match kind {
            ROOT_DIR => {
                parts.truncate(1);
                parts.push((ROOT_DIR, b"\\"));
            }
            PARENT_DIR if parts.last().is_some_and(|l| l.0 == NORMAL) => {
                parts.pop();
            }
            NORMAL => parts.push((NORMAL, ext.of(q))),
            _ => (),
        }
    }
    let mut out = p[..x.len].to_vec();
    for pair in parts.windows(2) {
        if pair[0].0 != ROOT_DIR {
            out.push(b'\\');
        }
        if pair[1].0 != ROOT_DIR {
            out.extend_from_slice(pair[1].1);
        }
    }
    out
}

fn append(m: Mode, p: &[u8], q: &[u8]) -> Vec<u8> {
    let merely_disk = prefix_of(m, p).is_some_and(|x| x.kind == DISK && x.len == p.len());
    let closed = p.last().is_none_or(|&c| m.is_sep(c));
    let sep: &[u8] = match m {
        _ if closed || merely_disk => b"",
        Mode::Unix => b"/",
        Mode::Windows => b"\\",
    };
    [p, sep, q].concat()
}

/// The paper's rules as a source of answers.
#[derive(Clone, Copy, Default)]
pub struct Paper;

impl Paths for Paper {
    fn prefix_bare(&self, m: Mode, p: &[u8]) -> Option<BarePrefix> {
        prefix_of(m, p)
    }
    fn list_into(&self, m: Mode, p: &[u8], out: &mut Vec<Part>) {
        *out = list(m, p);
    }
    fn step_after(&self, m: Mode, p: &[u8], f: usize, b: usize, d: Dir) -> Option<Part> {
        let all = list(m, p);
        match d {
            _ if f + b >= all.len() => None,
            Dir::Front => Some(all[f]),
            Dir::Back => Some(all[all.len() - 1 - b]),
        }
    }
    fn rest_after(&self, m: Mode, p: &[u8], f: usize, b: usize) -> Ext {
        rest(m, p, &list(m, p), f, b)
    }
    fn parent(&self, m: Mode, p: &[u8]) -> Option<Ext> {
        let all = list(m, p);
        let last = all.last().filter(|c| c.0 >= CUR_DIR)?;
        Some(last).map(|_| rest(m, p, &all, 0, 1))
    }
    fn ancestor(&self, m: Mode, p: &[u8], n: u64) -> Option<Ext> {
        let whole = Ext::new(0, p.len());
        (0..n.min(p.len() as u64 + 2)).try_fold(whole, |e, _| self.parent(m, e.of(p)))
    }
    fn file_name(&self, m: Mode, p: &[u8]) -> Option<Ext> {
        list(m, p).last().filter(|c| c.0 == NORMAL).map(|c| c.1)
    }
    fn file_stem(&self, m: Mode, p: &[u8]) -> Option<Ext> {
        let e = self.file_name(m, p)?;
        Some(Ext::new(e.start, split(e.of(p)).0))
    }
    fn extension(&self, m: Mode, p: &[u8]) -> Option<Ext> {
        let e = self.file_name(m, p)?;
        let (stem, there) = split(e.of(p));
        there.then(|| Ext::from_to(e.start + stem + 1, e.end()))
    }
    fn has_root(&self, m: Mode, p: &[u8]) -> bool {
        let pfx = prefix_of(m, p);
        let at = pfx.map_or(0, |x| x.len);
        p.get(at).is_some_and(|&c| m.is_sep(c)) || pfx.is_some_and(|x| x.kind != DISK)
    }
    fn is_absolute(&self, m: Mode, p: &[u8]) -> bool {
        self.has_root(m, p) && (m == Mode::Unix || prefix(p).is_some())
    }
    fn cmp(&self, m: Mode, p: &[u8], q: &[u8]) -> Ordering {
        values(m, p).cmp(&values(m, q))
    }
    fn starts_with(&self, m: Mode, p: &[u8], base: &[u8]) -> bool {
        values(m, p).starts_with(&values(m, base))
    }
    fn ends_with(&self, m: Mode, p: &[u8], child: &[u8]) -> bool {
        values(m, p).ends_with(&values(m, child))
    }
    fn strip_prefix(&self, m: Mode, p: &[u8], base: &[u8]) -> Option<Ext> {
        let all = list(m, p);
        self.starts_with(m, p, base).then(|| rest(m, p, &all, list(m, base).len(), 0))
    }
    fn join(&self, m: Mode, p: &[u8], q: &[u8]) -> Vec<u8> {
        let pfx = prefix_of(m, p);
        if prefix_of(m, q).is_some() || (m == Mode::Unix && self.is_absolute(m, q)) {
            return q.to_vec();
        }
        match pfx {
            Some(x) if x.kind <= 3 && !q.is_empty() => verbatim_join(p, &x, q),
            _ if self.has_root(m, q) => [&p[..pfx.map_or(0, |x| x.len)], q].concat(),
            _ => append(m, p, q),
        }
    }
    fn set_file_name(&self, m: Mode, p: &[u8], new: &[u8]) -> Vec<u8> {
        let named = self.file_name(m, p).is_some();
        let kept = self.parent(m, p).filter(|_| named).map_or(p, |e| e.of(p));
        self.join(m, kept, new)
    }
    fn set_plain_extension(&self, m: Mode, p: &[u8], ext: &[u8]) -> Option<Vec<u8>> {
        let stem = self.file_stem(m, p)?;
        let dot: &[u8] = if ext.is_empty() { b"" } else { b"." };
        Some([&p[..stem.end()], dot, ext].concat())
    }
    fn absolute(&self, p: &[u8], cwd: &[u8]) -> Option<Vec<u8>> {
        let slashes = p.iter().take_while(|&&c| c == b'/').count();
        let mut out = match slashes {
            _ if p.is_empty() => return None,
            0 => cwd.to_vec(),
            2 => b"//".to_vec(),
            _ => b"/".to_vec(),
        };
        for (kind, ext) in list(Mode::Unix, p) {
            if kind >= PARENT_DIR {
                out = append(Mode::Unix, &out, ext.of(p));
            }
        }
        if p.ends_with(b"/") && !out.ends_with(b"/") {
            out.push(b'/');
        }
        Some(out)
    }
}
