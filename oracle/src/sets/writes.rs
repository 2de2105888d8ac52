//! Requests whose results are written, with rooms around the result's length.

use super::pairs::{each_pair, strings};
use super::{Plan, UNIX, WINDOWS_SHORT, mode};
use crate::gen_input::{HEADS, Rng, every, random as random_path, related};
use crate::sink::Sink;
use crate::{Paths, Real};

const WORDS: [&str; 3] = ["join", "set-name", "set-extension"];

/// How long the result is; None where there is none at any room.
pub fn length(word: &str, m: u64, p: &[u8], q: &[u8]) -> Option<u64> {
    let mode = mode(m);
    let result = match word {
        "join" => Some(Real.join(mode, p, q)),
        "set-name" => Some(Real.set_file_name(mode, p, q)),
        "set-extension" if q.iter().any(|&c| mode.is_sep(c)) => None,
        "set-extension" => Real.set_plain_extension(mode, p, q),
        _ => Real.absolute(p, q).filter(|_| p[0] == b'/' || q.first() == Some(&b'/')),
    };
    result.map(|r| r.len() as u64)
}

/// Rooms 0, one less, exact and more; two where there is no result.
pub(crate) fn rooms(length: Option<u64>) -> Vec<u64> {
    match length {
        None => vec![0, 3],
        Some(0) => vec![0, 3],
        Some(1) => vec![0, 1, 4],
        Some(n) => vec![0, n - 1, n, n + 3],
    }
}

/// The exact room, and by turns one of the others: all of them over a set,
/// without four times its lines.
fn two_rooms(s: &mut Sink<'_>, word: &str, m: u64, p: &[u8], q: &[u8], turn: &mut usize) {
    *turn += 1;
    let n = length(word, m, p, q);
    let exact = n.unwrap_or(0);
    let other = match (n, *turn % 3) {
        (None, _) => 3,
        (Some(0), _) | (_, 0) => exact + 3,
        (_, 1) => exact - 1,
        _ => 0,
    };
    s.ask(word, &[m, exact], &[p, q]);
    s.ask(word, &[m, other], &[p, q]);
}

/// 40 verbatim heads with each tail against each second would be some 580
/// million pairs, so every 877th is taken; 877 is prime to both counts.
const SAMPLE: usize = 877;

fn verbatim_heads() -> Vec<Vec<u8>> {
    let some: [&[u8]; 22] = [
        b"\\\\?\\a.b", b"\\\\?\\C:a", b"\\\\?\\C:a\\", b"\\\\?\\.", b"\\\\?\\..\\", b"\\\\?\\C:\\a",
        b"\\\\?\\C:\\a\\", b"\\\\?\\C:/a\\b", b"\\\\?\\C:\\.", b"\\\\?\\C:\\..", b"\\\\?\\v\\.\\a",
        b"\\\\?\\v\\..\\a", b"\\\\?\\v\\a\\b", b"\\\\?\\unc\\s\\h", b"\\\\?\\UNC\\s\\h\\a",
        b"\\\\?\\UNC\\s\\h\\..\\", b"\\\\?\\UNC\\\\\\", b"\\\\?\\UNC\\\\\\a", b"\\\\?\\UNC/s/h\\",
        b"\\\\?\\UNC\\s/h\\i\\", b"\\\\?\\\\", b"\\\\?\\\\a",
    ];
    let known = HEADS.iter().filter(|h| h.starts_with(b"\\\\?\\"));
    known.chain(some.iter()).map(|h| h.to_vec()).collect()
}

fn verbatim(s: &mut Sink<'_>, turn: &mut usize) {
    let (tails, seconds) = (strings(WINDOWS_SHORT, 5), strings(WINDOWS_SHORT, 4));
    let heads = verbatim_heads();
    let mut p = Vec::new();
    let all = heads.len() * tails.len() * seconds.len();
    for i in (0..all).step_by(SAMPLE) {
        let (rest, q) = (i / seconds.len(), &seconds[i % seconds.len()]);
        p.clear();
        p.extend_from_slice(&heads[rest / tails.len()]);
        p.extend_from_slice(&tails[rest % tails.len()]);
        for word in WORDS {
            two_rooms(s, word, 1, &p, q, turn);
        }
    }
}

pub fn joins(s: &mut Sink<'_>, _: &Plan) {
    let mut turn = 0;
    for (m, all) in [(1, strings(WINDOWS_SHORT, 4)), (0, strings(UNIX, 5))] {
        each_pair(&all, &mut |p, q| {
            for word in WORDS {
                two_rooms(s, word, m, p, q, &mut turn);
            }
        });
    }
    verbatim(s, &mut turn);
}

pub(crate) const DIRECTORIES: [&[u8]; 9] =
    [b"/", b"/w", b"/w/", b"//", b"//w", b"/w/./x/..", b"", b"w", b"./w"];

pub fn absolute(s: &mut Sink<'_>, _: &Plan) {
    let mut turn = 0;
    every(b"", UNIX, 0, 8, &mut |p| {
        for d in DIRECTORIES {
            two_rooms(s, "absolute", 0, p, d, &mut turn);
        }
    });
}

/// Makes the path long with more of its own kind, up to the limit and a little
/// beyond it.
fn stretch(r: &mut Rng, p: &mut Vec<u8>) {
    let goal = [100, 1_000, 4_000, 4_090, 4_096, 4_097][r.below(6)];
    let step: &[u8] = r.pick(&[&b"\\abc"[..], b"/a.b", b"name", b"\\..", b"\\.\\x"]);
    while p.len() < goal {
        let n = step.len().min(goal - p.len());
        p.extend_from_slice(&step[..n]);
    }
}

pub fn random(s: &mut Sink<'_>, plan: &Plan) {
    let mut r = plan.rng();
    let (mut p, mut q) = (Vec::new(), Vec::new());
    let mut turn = 0;
    for i in 0..plan.times(250_000) {
        let m = u64::from(i % 4 != 0);
        random_path(&mut r, 14, &mut p);
        match r.below(2) {
            0 => related(&mut r, &p, 8, &mut q),
            _ => random_path(&mut r, 8, &mut q),
        }
        if r.below(64) == 0 {
            stretch(&mut r, &mut p);
            if r.below(2) == 0 {
                stretch(&mut r, &mut q);
            }
        }
        for word in WORDS {
            two_rooms(s, word, m, &p, &q, &mut turn);
        }
        two_rooms(s, "absolute", 0, &p, &[b"/", &q[..]].concat(), &mut turn);
    }
}
