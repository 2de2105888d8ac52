//! Requests on two paths that write nothing: order, starts, ends, strip.

use super::{Plan, UNIX, WINDOWS_SHORT};
use crate::gen_input::{Rng, every, random as random_path, related};
use crate::sink::Sink;

pub(crate) fn each_test(s: &mut Sink<'_>, m: u64, p: &[u8], q: &[u8]) {
    for word in ["compare", "starts", "ends", "strip"] {
        s.ask(word, &[m], &[p, q]);
    }
}

/// All strings over the alphabet up to that length.
pub(crate) fn strings(alphabet: &[u8], max: usize) -> Vec<Vec<u8>> {
    let mut all = Vec::new();
    every(b"", alphabet, 0, max, &mut |p| all.push(p.to_vec()));
    all
}

/// Calls `f` with each pair of strings.
pub(crate) fn each_pair(all: &[Vec<u8>], f: &mut dyn FnMut(&[u8], &[u8])) {
    for p in all {
        for q in all {
            f(p, q);
        }
    }
}

pub fn all(s: &mut Sink<'_>, _: &Plan) {
    each_pair(&strings(WINDOWS_SHORT, 4), &mut |p, q| each_test(s, 1, p, q));
    each_pair(&strings(UNIX, 5), &mut |p, q| each_test(s, 0, p, q));
}

/// Puts a name of more than a hundred bytes somewhere into both paths; the
/// copy may differ in one byte, early or late.
fn lengthen(r: &mut Rng, p: &mut Vec<u8>, q: &mut Vec<u8>) {
    let name = vec![b'a' + r.below(3) as u8; 100 + r.below(200)];
    for path in [&mut *p, &mut *q] {
        let at = r.below(path.len() + 1);
        let start = if r.below(2) == 0 { 0 } else { at };
        path.splice(start..start, name.iter().copied());
        if r.below(3) == 0 {
            path[start + r.below(name.len())] = b"ab./\\"[r.below(5)];
        }
    }
}

pub fn random(s: &mut Sink<'_>, plan: &Plan) {
    let mut r = plan.rng();
    let (mut p, mut q) = (Vec::new(), Vec::new());
    for i in 0..plan.times(250_000) {
        random_path(&mut r, 14, &mut p);
        related(&mut r, &p, 10, &mut q);
        if r.below(8) == 0 {
            lengthen(&mut r, &mut p, &mut q);
        }
        if r.below(4) == 0 {
            std::mem::swap(&mut p, &mut q);
        }
        each_test(s, u64::from(i % 4 != 0), &p, &q);
    }
}
