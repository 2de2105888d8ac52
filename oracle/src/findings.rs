//! Measures what FINDINGS.md states: for each known difference between the
//! Rust and document 01 whether it is there, how often over small alphabets,
//! and its smallest input.

use crate::gen_input::{HEADS, every};
use crate::listed::{ALL, Listed};
use crate::paper::Paper;
use crate::protocol::Answerer;
use crate::readable;
use crate::sets::{self, Plan, SETS, UNIX, WINDOWS};
use crate::sink::Sink;
use crate::{Dir, Mode, Paths, Real, SetExt};
use std::io::{self, Write};

/// How often something was seen, and where first (strings come shortest first).
#[derive(Default)]
struct Seen {
    count: u64,
    first: String,
}

impl Seen {
    fn at(&mut self, first: impl FnOnce() -> String) {
        if self.count == 0 {
            self.first = first();
        }
        self.count += 1;
    }
    fn say(&self, out: &mut dyn Write, what: &str) -> io::Result<()> {
        match self.count {
            0 => writeln!(out, "{what}: never"),
            n => writeln!(out, "{what}: x{n}, smallest {}", self.first),
        }
    }
}

/// Calls `f` with every short string in both modes, and with short tails
/// behind each head that may be a prefix.
fn each_short(unix: usize, windows: usize, f: &mut dyn FnMut(Mode, &[u8])) {
    every(b"", UNIX, 0, unix, &mut |p| f(Mode::Unix, p));
    every(b"", WINDOWS, 0, windows, &mut |p| f(Mode::Windows, p));
    for head in HEADS {
        every(head, WINDOWS, 0, windows.min(3), &mut |p| f(Mode::Windows, p));
    }
}

/// Writes all findings; false where one is not as FINDINGS.md has it.
pub fn print(out: &mut dyn Write) -> io::Result<bool> {
    writeln!(out, "{}", crate::SOURCE)?;
    let listed = requests(out)?;
    let absent = after_absent(out)?;
    extensions(out)?;
    let both_ends = ends_agree(out)?;
    Ok(listed && absent && both_ends)
}

/// Every set answered twice, with the real code's values and with the paper's:
/// true where no answer differs.
pub fn paper(out: &mut dyn Write, seed: u64, (part, of): (u64, u64)) -> io::Result<bool> {
    let (mut real, mut rules) = (Answerer::<Real>::default(), Answerer::<Paper>::default());
    let (mut a, mut b) = (Vec::new(), Vec::new());
    let mut agreed = true;
    for set in SETS {
        let (mut lines, mut differ) = (0u64, Seen::default());
        let mut one = |line: &[u8]| {
            lines += 1;
            a.clear();
            b.clear();
            real.answer(line, &mut a);
            rules.answer(line, &mut b);
            if a != b {
                differ.at(|| {
                    format!(
                        "{}: {} and {}",
                        readable::request(line.trim_ascii_end()),
                        readable::answer(line, a.trim_ascii_end()),
                        readable::answer(line, b.trim_ascii_end())
                    )
                });
            }
        };
        (set.write)(&mut Sink::new(part, of, &mut one), &Plan { seed, count: None });
        differ.say(out, &format!("{}: {lines} answers, the Rust's and the paper's differ", set.name))?;
        agreed &= differ.count == 0;
    }
    write!(out, "{}", real.tally.report())?;
    Ok(agreed && real.tally.unlisted_count() == 0)
}

/// The listed differences that requests reach, over whole sets.
fn requests(out: &mut dyn Write) -> io::Result<bool> {
    let mut a = Answerer::<crate::Real>::default();
    let mut lines = 0u64;
    let mut answer = Vec::new();
    let plan = Plan { seed: 1, count: None };
    for name in ["prefix-all", "steps-all", "pairs-all", "joins-all"] {
        let set = sets::find(name).expect("a known set");
        (set.write)(
            &mut Sink::new(0, 1, &mut |line| {
                lines += 1;
                answer.clear();
                a.answer(line, &mut answer);
            }),
            &plan,
        );
    }
    writeln!(out, "prefix-all, steps-all, pairs-all, joins-all: {lines} answers")?;
    write!(out, "{}", a.tally.report())?;
    let reached = ALL.iter().filter(|&&d| d != Listed::AfterAbsent);
    let touched = reached.filter(|&&d| a.tally.count(d) > 0).count();
    Ok(touched == ALL.len() - 1 && a.tally.unlisted_count() == 0)
}

/// `as_path` before and after a step that finds nothing, after every mixture
/// of steps that takes all.
fn after_absent(out: &mut dyn Write) -> io::Result<bool> {
    let (mut more, mut less, mut moved, mut found) =
        (Seen::default(), Seen::default(), Seen::default(), Seen::default());
    each_short(7, 5, &mut |m, p| {
        let n = Real.list(m, p).len();
        for (f, d) in (0..=n).flat_map(|f| [(f, Dir::Front), (f, Dir::Back)]) {
            let mut dirs = vec![Dir::Front; f];
            dirs.resize(n, Dir::Back);
            dirs.push(d);
            let (first, steps) = Real.steps(m, p, &dirs);
            let before = if n == 0 { first } else { steps[n - 1].rest };
            let after = steps[n].rest;
            let shown = || {
                format!(
                    "{m:?} {} after {f} front and {} back steps and then {d:?}: {before:?} becomes {after:?}",
                    readable::path(p),
                    n - f
                )
            };
            match after.len.cmp(&before.len) {
                _ if steps[n].taken.is_some() => found.at(shown),
                std::cmp::Ordering::Greater => more.at(shown),
                std::cmp::Ordering::Less => less.at(shown),
                _ if before != after => moved.at(shown),
                _ => (),
            }
        }
    });
    writeln!(out, "rest after a step that found nothing ({}):", Listed::AfterAbsent.code())?;
    more.say(out, "  shows more")?;
    less.say(out, "  shows less")?;
    moved.say(out, "  same length, other place")?;
    found.say(out, "  the step beyond the list found something")?;
    Ok(less.count > 0 && found.count == 0)
}

/// set_extension and with_extension, and just when set_extension panics.
fn extensions(out: &mut dyn Write) -> io::Result<()> {
    let (mut differ, mut odd) = (Seen::default(), Seen::default());
    each_short(6, 4, &mut |m, p| {
        for e in [&b""[..], b"a", b".", b"a.", b"/", b"\\", b"a\\a"] {
            let set = Real.set_extension(m, p, e);
            let shown = || format!("{m:?} {} with {}: {set:?}", readable::path(p), readable::path(e));
            if (set == SetExt::Separator) != e.iter().any(|&c| m.is_sep(c)) {
                odd.at(shown);
            }
            let with = Real.with_extension(m, p, e);
            if let SetExt::Done(set) = &set
                && with.as_ref() != Some(set)
            {
                let with = readable::path(&with.unwrap_or_default());
                differ.at(|| {
                    format!(
                        "{m:?} {} with {}: set_extension {}, with_extension {with}",
                        readable::path(p),
                        readable::path(e),
                        readable::path(set)
                    )
                });
            }
        }
    });
    differ.say(out, "with_extension is not set_extension")?;
    odd.say(out, "set_extension panics without a separator, or does not with one")
}

/// The list is the same from both ends but for D3, and `==` is order's Equal.
fn ends_agree(out: &mut dyn Write) -> io::Result<bool> {
    let (mut kinds, mut extents, mut equal) = (Seen::default(), Seen::default(), Seen::default());
    each_short(8, 6, &mut |m, p| {
        let front = Real.list(m, p);
        let mut back = Real.list_back(m, p);
        back.reverse();
        let shown = || format!("{m:?} {}", readable::path(p));
        if !front.iter().map(|c| &c.kind).eq(back.iter().map(|c| &c.kind)) {
            kinds.at(shown);
        } else if front != back {
            extents.at(shown);
        }
    });
    each_short(4, 2, &mut |m, p| {
        each_short(4, 2, &mut |n, q| {
            if m == n && Real.eq(m, p, q) != Real.cmp(m, p, q).is_eq() {
                equal.at(|| format!("{m:?} {} {}", readable::path(p), readable::path(q)));
            }
        })
    });
    kinds.say(out, "lists from front and back with other components")?;
    extents.say(out, "lists from front and back with other extents")?;
    equal.say(out, "== that is not order's Equal")?;
    Ok(kinds.count + equal.count == 0)
}
