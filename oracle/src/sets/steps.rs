//! Requests for steps from either end and for the rest.

use super::{Plan, UNIX, WINDOWS, mode};
use crate::Real;
use crate::gen_input::{every, random as random_path};
use crate::sink::Sink;

const WORDS: [&str; 3] = ["front", "back", "rest"];

/// Every F and B with F + B up to `beyond` more than the list has, and the
/// tests.
pub(crate) fn each_mixture(s: &mut Sink<'_>, m: u64, p: &[u8], beyond: u64) {
    let most = Real.list(mode(m), p).len() as u64 + beyond;
    for f in 0..=most {
        for b in 0..=most - f {
            for word in WORDS {
                s.ask(word, &[m, f, b], &[p]);
            }
        }
    }
    tests(s, m, p);
}

fn tests(s: &mut Sink<'_>, m: u64, p: &[u8]) {
    s.ask("root", &[m], &[p]);
    s.ask("absolute?", &[m], &[p]);
}

pub fn all(s: &mut Sink<'_>, _: &Plan) {
    every(b"", WINDOWS, 0, 6, &mut |p| each_mixture(s, 1, p, 2));
    every(b"", UNIX, 0, 8, &mut |p| each_mixture(s, 0, p, 2));
}

pub fn random(s: &mut Sink<'_>, plan: &Plan) {
    let mut r = plan.rng();
    let mut p = Vec::new();
    for i in 0..plan.times(1_000_000).div_ceil(8) {
        let m = u64::from(i % 4 != 0);
        random_path(&mut r, 40, &mut p);
        let there = Real.list(mode(m), &p).len();
        for word in [0, 1, 2, 0, 1, 2] {
            let f = r.below(there + 2);
            let b = match r.below(3) {
                0 => there.saturating_sub(f),
                _ => r.below(there.saturating_sub(f) + 2),
            };
            s.ask(WORDS[word], &[m, f as u64, b as u64], &[&p]);
        }
        tests(s, m, &p);
    }
}
