//! Requests for prefixes.

use super::{Plan, WINDOWS};
use crate::gen_input::{every, random as random_path};
use crate::sink::Sink;

const HEADS: &[&[u8]] = &[
    b"\\\\?\\", b"\\\\?\\UNC\\", b"\\\\?\\UNC/", b"\\\\?/UNC\\", b"\\\\?\\unc\\", b"//?/", b"\\\\.\\",
    b"\\\\", b"C:",
];

pub fn all(s: &mut Sink<'_>, _: &Plan) {
    every(b"", WINDOWS, 0, 7, &mut |p| s.ask("prefix", &[1], &[p]));
    for head in HEADS {
        every(head, WINDOWS, 0, 4, &mut |p| s.ask("prefix", &[1], &[p]));
    }
}

pub fn random(s: &mut Sink<'_>, plan: &Plan) {
    let mut r = plan.rng();
    let mut p = Vec::new();
    for i in 0..plan.times(1_000_000) {
        random_path(&mut r, 10, &mut p);
        // Unix has no prefixes, so a few will do
        s.ask("prefix", &[u64::from(i % 16 != 0)], &[&p]);
    }
}
