//! Requests for what is seen of one path: parent, ancestors, names.

use super::{Plan, UNIX, WINDOWS, mode};
use crate::Real;
use crate::gen_input::{every, random as random_path};
use crate::sink::Sink;

pub(crate) fn each_view(s: &mut Sink<'_>, m: u64, p: &[u8]) {
    for word in ["parent", "name", "stem", "extension"] {
        s.ask(word, &[m], &[p]);
    }
    let there = Real.ancestors(mode(m), p).len() as u64;
    for n in (0..=there).chain([u64::MAX]) {
        s.ask("ancestor", &[m, n], &[p]);
    }
}

pub fn all(s: &mut Sink<'_>, _: &Plan) {
    every(b"", WINDOWS, 0, 7, &mut |p| each_view(s, 1, p));
    every(b"", UNIX, 0, 9, &mut |p| each_view(s, 0, p));
}

pub fn random(s: &mut Sink<'_>, plan: &Plan) {
    let mut r = plan.rng();
    let mut p = Vec::new();
    for i in 0..plan.times(100_000) {
        random_path(&mut r, 30, &mut p);
        each_view(s, u64::from(i % 4 != 0), &p);
    }
}
