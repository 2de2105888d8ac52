//! The sets of requests: each writes itself, line by line, to a sink. All are
//! the same on every run; the random ones follow from their seed.

mod edges;
mod pairs;
mod prefixes;
mod steps;
mod views;
mod writes;

pub(crate) use edges::broken_lines;
pub(crate) use pairs::each_test;
pub(crate) use steps::each_mixture;
pub(crate) use views::each_view;
pub use writes::length as result_length;
pub(crate) use writes::{length, rooms};

use crate::Mode;
use crate::gen_input::Rng;
use crate::sink::Sink;

/// The bytes that mean something on Windows, and one that does not.
pub const WINDOWS: &[u8] = b"\\/.:Ca?";
/// The same without `?`, for pairs.
pub const WINDOWS_SHORT: &[u8] = b"\\/.:Ca";
pub const UNIX: &[u8] = b"/.a";

/// The mode of a good request.
pub(crate) fn mode(m: u64) -> Mode {
    if m == 0 { Mode::Unix } else { Mode::Windows }
}

pub struct Plan {
    pub seed: u64,
    pub count: Option<u64>,
}

impl Plan {
    fn rng(&self) -> Rng {
        Rng(self.seed.wrapping_mul(0x9E37_79B9_7F4A_7C15) | 1)
    }
    fn times(&self, usual: u64) -> u64 {
        self.count.unwrap_or(usual)
    }
}

pub struct Set {
    pub name: &'static str,
    pub says: &'static str,
    pub write: fn(&mut Sink<'_>, &Plan),
}

const fn set(name: &'static str, says: &'static str, write: fn(&mut Sink<'_>, &Plan)) -> Set {
    Set { name, says, write }
}

pub const SETS: &[Set] = &[
    set("prefix-all", "prefix: all strings to length 7, and to 4 behind seven heads", prefixes::all),
    set("prefix-random", "prefix: random paths, 1,000,000", prefixes::random),
    set(
        "steps-all",
        "front, back, rest with every F and B, root, absolute?: all strings to length 6 (Unix 8)",
        steps::all,
    ),
    set(
        "steps-random",
        "the same with random F and B on longer random paths, 1,000,000 lines",
        steps::random,
    ),
    set("views-all", "parent, ancestor, name, stem, extension: all strings to length 7 (Unix 9)", views::all),
    set("views-random", "the same on random paths, 100,000 of them", views::random),
    set("pairs-all", "compare, starts, ends, strip: all pairs to length 4 (Unix 5)", pairs::all),
    set("pairs-random", "the same on 250,000 random pairs that share parts", pairs::random),
    set(
        "joins-all",
        "join, set-name, set-extension: all pairs to length 4 (Unix 5); verbatim heads, sampled",
        writes::joins,
    ),
    set("absolute-all", "absolute: all strings to length 8 in nine directories", writes::absolute),
    set("joins-random", "all four that write, on 250,000 random pairs, some long", writes::random),
    set("boundary", "lengths, modes, cursors and rooms at their limits", edges::boundary),
    set("damaged", "damaged copies of good requests, 200,000", edges::damaged),
    set("broken", "lines that are no request, of every sort", edges::broken),
];

pub fn find(name: &str) -> Option<&'static Set> {
    SETS.iter().find(|s| s.name == name)
}
