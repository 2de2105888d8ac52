//! What is timed: paths of exact lengths, with short and with long names, in
//! several variants, and what goes with each for the calls of two inputs.

use oracle::types::Mode;
use oracle::{Ext, Paths, Real};

/// Different paths of one shape, used by turns, so that no branch is learnt by
/// heart. A power of two.
pub const VARIANTS: usize = 8;

#[derive(Clone, Copy, PartialEq, Eq, Debug)]
pub enum Names {
    Short,
    Long,
}

/// A shape: how many bytes, and names of which sort.
#[derive(Clone, Copy, PartialEq, Eq, Debug)]
pub struct Shape {
    pub mode: Mode,
    pub len: usize,
    pub names: Names,
}

/// One path, and what goes with it.
#[derive(Clone, Debug)]
pub struct Input {
    /// the path: absolute, with a file name that has an extension
    pub p: Vec<u8>,
    /// an equal path in another place; one that differs in the last byte; one that differs in the first name
    pub same: Vec<u8>,
    pub near: Vec<u8>,
    pub far: Vec<u8>,
    /// the path's front half and its back half, by components
    pub base: Vec<u8>,
    pub tail: Vec<u8>,
    /// as many bytes, relative; behind each kind of prefix; behind a verbatim one
    pub relative: Vec<u8>,
    pub prefixed: Vec<Vec<u8>>,
    pub verbatim: Vec<u8>,
    /// what is joined, and what goes up first
    pub q: Vec<u8>,
    pub up: Vec<u8>,
    /// how many components the path has
    pub count: usize,
}

/// Heads of the six kinds, in std's order, and of none.
pub const HEADS: [(&str, &[u8]); 7] = [
    ("Verbatim", b"\\\\?\\"),
    ("VerbatimUNC", b"\\\\?\\UNC\\office\\"),
    ("VerbatimDisk", b"\\\\?\\C:\\"),
    ("DeviceNS", b"\\\\.\\"),
    ("UNC", b"\\\\office\\"),
    ("Disk", b"C:\\"),
    ("none", b""),
];

const SHORT: [usize; 5] = [3, 5, 1, 9, 5];
const LONG: [usize; 4] = [100, 70, 130, 90];

/// A head, names with separators between, and a last name with an extension:
/// n bytes in all.
fn path(head: &[u8], shape: Shape, n: usize, variant: usize) -> Vec<u8> {
    let sep = if shape.mode == Mode::Unix { b'/' } else { b'\\' };
    let (lengths, last): (&[usize], usize) = match shape.names {
        Names::Short => (&SHORT, 8),
        Names::Long => (&LONG, 80),
    };
    let letter = |i: usize| b'a' + ((i * 7 + variant * 3) % 26) as u8;
    let mut out = head.to_vec();
    let last = last.min(n - head.len());
    let front = n - last;
    let mut turn = variant;
    while out.len() < front {
        let len = lengths[turn % lengths.len()].min(front - out.len() - 1);
        out.extend((0..len).map(|i| letter(i + turn)));
        out.push(if len == 0 { b'x' } else { sep });
        turn += 1;
    }
    out.extend((0..last).map(letter));
    if last > 4 {
        out[n - 4] = b'.';
    }
    out
}

fn one(shape: Shape, variant: usize) -> Input {
    let head: &[u8] = if shape.mode == Mode::Unix { b"/" } else { b"C:\\" };
    let n = shape.len;
    let p = path(head, shape, n, variant);
    let mut list: Vec<(u8, Ext)> = Vec::new();
    Real.list_into(shape.mode, &p, &mut list);
    let (mut near, mut far) = (p.clone(), p.clone());
    near[n - 1] ^= 1;
    far[head.len()] ^= 1;
    let count = list.len();
    let q = path(b"", shape, if shape.names == Names::Short { 16 } else { 100 }, variant + 1);
    let sep: &[u8] = if shape.mode == Mode::Unix { b"/" } else { b"\\" };
    Input {
        same: p.clone(),
        near,
        far,
        base: p[..list[count / 2].1.start].to_vec(),
        tail: p[list[count / 2].1.start..].to_vec(),
        relative: path(b"", shape, n, variant),
        prefixed: HEADS.iter().map(|(_, head)| path(head, shape, n, variant)).collect(),
        verbatim: path(b"\\\\?\\C:\\", shape, n, variant),
        up: [b"..", sep, &q[..]].concat(),
        q,
        count,
        p,
    }
}

pub fn inputs(shape: Shape) -> Vec<Input> {
    (0..VARIANTS).map(|v| one(shape, v)).collect()
}

#[cfg(test)]
mod tests {
    use super::*;

    #[test]
    fn lengths_are_exact_and_names_have_extensions() {
        for mode in [Mode::Unix, Mode::Windows] {
            for names in [Names::Short, Names::Long] {
                for len in [24, 200, 4_096] {
                    for i in inputs(Shape { mode, len, names }) {
                        assert!(i.p.len() == len && i.relative.len() == len && i.verbatim.len() == len);
                        assert!(Real.extension(mode, &i.p).is_some() && Real.is_absolute(mode, &i.p));
                        assert!(Real.starts_with(mode, &i.p, &i.base) && Real.ends_with(mode, &i.p, &i.tail));
                    }
                }
            }
        }
    }

    #[test]
    fn each_head_has_its_kind() {
        for i in inputs(Shape { mode: Mode::Windows, len: 24, names: Names::Short }) {
            for (k, p) in i.prefixed.iter().enumerate() {
                let kind = Real.prefix_bare(Mode::Windows, p).map(|x| usize::from(x.kind));
                assert_eq!(kind, if k < 6 { Some(k + 1) } else { None }, "{}", HEADS[k].0);
            }
        }
    }
}
