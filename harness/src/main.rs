//! Compares the proved library with the real Rust, call by call.

use harness::cases::Cases;
use harness::check::Checker;
use oracle::sets::{self, Plan};
use oracle::sink::Sink;
use std::process::ExitCode;
use std::time::Instant;

const USAGE: &str = "usage: harness [quick | long] [SEED]

Runs every call of the library in both modes against the real Rust, in one
process: the oracle's sets (exhaustive over short alphabets, and random), and
paths of the lengths around each limit, random pairs and damaged copies with
random modes, cursors and rooms. quick takes less than a minute; long runs all
sets whole and more than 100,000,000 cases. SEED is 1 if not given.
Status 0 only if nothing differs but what is listed.
";

/// A set of the oracle: every N-th request of it, and how many of a random
/// one (None: as many as it has by itself).
struct Taken {
    name: &'static str,
    of: u64,
    count: Option<u64>,
}

const fn taken(name: &'static str, of: u64, count: Option<u64>) -> Taken {
    Taken { name, of, count }
}

/// What a form of the run takes.
struct Form {
    sets: &'static [Taken],
    lengths: u64,
    random: u64,
    damaged: u64,
}

const QUICK: Form = Form {
    sets: &[
        taken("prefix-all", 2, None),
        taken("prefix-random", 1, Some(300_000)),
        taken("steps-all", 7, None),
        taken("steps-random", 1, Some(300_000)),
        taken("views-all", 7, None),
        taken("views-random", 1, Some(20_000)),
        taken("pairs-all", 11, None),
        taken("pairs-random", 1, Some(60_000)),
        taken("joins-all", 29, None),
        taken("absolute-all", 1, None),
        taken("joins-random", 1, Some(30_000)),
        taken("boundary", 1, None),
    ],
    lengths: 3_000,
    random: 40_000,
    damaged: 20_000,
};

const LONG: Form = Form {
    sets: &[
        taken("prefix-all", 1, None),
        taken("prefix-random", 1, Some(10_000_000)),
        taken("steps-all", 1, None),
        taken("steps-random", 1, Some(10_000_000)),
        taken("views-all", 1, None),
        taken("views-random", 1, Some(500_000)),
        taken("pairs-all", 1, None),
        taken("pairs-random", 1, Some(2_500_000)),
        taken("joins-all", 1, None),
        taken("absolute-all", 1, None),
        taken("joins-random", 1, Some(1_000_000)),
        taken("boundary", 1, None),
    ],
    lengths: 100_000,
    random: 600_000,
    damaged: 300_000,
};

/// Runs one part and prints its row.
fn row(c: &mut Checker, name: &str, run: impl FnOnce(&mut Checker)) {
    let (cases, differ, began) = (c.cases, c.differ, Instant::now());
    run(c);
    let (cases, differ, took) = (c.cases - cases, c.differ - differ, began.elapsed().as_secs_f64());
    println!("{name:14} {cases:>12} {took:>9.1} {:>12.0} {differ:>7}", cases as f64 / took);
}

fn run(form: &Form, seed: u64) -> bool {
    println!("{}; built by {}; seed {seed}", oracle::SOURCE, oracle::RUSTC);
    println!("{:14} {:>12} {:>9} {:>12} {:>7}", "set", "cases", "seconds", "a second", "differ");
    let mut c = Checker::default();
    let began = Instant::now();
    for t in form.sets {
        let set = sets::find(t.name).expect("a known set");
        let plan = Plan { seed, count: t.count };
        row(&mut c, t.name, |c| (set.write)(&mut Sink::calls(seed % t.of, t.of, &mut |a| c.check(a)), &plan));
    }
    row(&mut c, "lengths", |c| Cases::new(seed).lengths(form.lengths, &mut |a| c.check(a)));
    row(&mut c, "random", |c| Cases::new(seed).random(form.random, &mut |a| c.check(a)));
    row(&mut c, "damaged", |c| Cases::new(seed).damaged(form.damaged, &mut |a| c.check(a)));
    let took = began.elapsed().as_secs_f64();
    println!("{} cases in {took:.1} s, {:.0} a second; {} differ", c.cases, c.cases as f64 / took, c.differ);
    print!("{}{}", c.report(), c.oracle.tally.report());
    c.differ == 0 && c.oracle.tally.unlisted_count() == 0
}

fn main() -> ExitCode {
    let args: Vec<String> = std::env::args().skip(1).collect();
    let words: Vec<&str> = args.iter().map(String::as_str).collect();
    let (form, seed) = match words[..] {
        [] | ["quick"] => (&QUICK, Some(1)),
        ["quick", seed] => (&QUICK, seed.parse().ok()),
        ["long"] => (&LONG, Some(1)),
        ["long", seed] => (&LONG, seed.parse().ok()),
        _ => (&QUICK, None),
    };
    match seed {
        None => {
            eprint!("{USAGE}");
            ExitCode::from(2)
        }
        Some(seed) if run(form, seed) => ExitCode::SUCCESS,
        Some(_) => ExitCode::from(1),
    }
}
