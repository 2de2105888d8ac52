//! Times the library's calls against the Rust's and prints the table as
//! Markdown: ours over Rust's.

use harness::calls::{Call, Timed, calls, ours, rusts};
use harness::inputs::{Input, Names, Shape, inputs};
use oracle::types::Mode;
use std::fmt::Write as _;
use std::time::Instant;

const USAGE: &str = "usage: speed [ROUNDS] [PART] [best]

Prints a Markdown table of ours over Rust's. Each cell is the median, over
ROUNDS (201 if not given), of the ratio of two runs of some microseconds, one
after the other. PART keeps the calls whose name has that text. With best, a
cell is the fastest run of each instead: steadier where other work goes on.
";

const LENGTHS: [usize; 3] = [24, 200, 4_096];
const NAMES: [Names; 2] = [Names::Short, Names::Long];
/// How long one run of a form should take, in nanoseconds.
const RUN: f64 = 25_000.0;
const AIM: f64 = 0.8;

/// A cell: nanoseconds of ours and of the fastest Rust form, and the ratio.
#[derive(Clone, Copy)]
struct Cell {
    ours: f64,
    rust: f64,
    ratio: f64,
}

fn median(v: &mut [f64]) -> f64 {
    v.sort_by(f64::total_cmp);
    v[v.len() / 2]
}

/// Nanoseconds a call.
fn run(f: &mut Timed<'_>, times: usize) -> f64 {
    let began = Instant::now();
    f(times);
    began.elapsed().as_nanos() as f64 / times as f64
}

/// How often a form is called in a run.
fn calibrate(f: &mut Timed<'_>) -> usize {
    let mut times = 8;
    loop {
        let took = (0..3).map(|_| run(f, times)).fold(f64::MAX, f64::min);
        if took * times as f64 >= RUN / 4.0 {
            return ((RUN / took) as usize).max(8).next_multiple_of(8);
        }
        times *= 4;
    }
}

/// Ours and every form of the Rust's, by turns.
fn measure(mut ours: Timed<'_>, mut rusts: Vec<Timed<'_>>, rounds: usize, best: bool) -> Cell {
    let our_times = calibrate(&mut ours);
    let times: Vec<usize> = rusts.iter_mut().map(calibrate).collect();
    let mut our_ns = Vec::new();
    let mut rust_ns = vec![Vec::new(); rusts.len()];
    for round in 0..rounds {
        // by turns which of them comes first
        for which in 0..=rusts.len() {
            match (which + round) % (rusts.len() + 1) {
                0 => our_ns.push(run(&mut ours, our_times)),
                n => rust_ns[n - 1].push(run(&mut rusts[n - 1], times[n - 1])),
            }
        }
    }
    if best {
        let least = |v: &[f64]| v.iter().copied().fold(f64::MAX, f64::min);
        let (ours, rust) = (least(&our_ns), rust_ns.iter().map(|v| least(v)).fold(f64::MAX, f64::min));
        return Cell { ours, rust, ratio: ours / rust };
    }
    let medians: Vec<f64> = rust_ns.iter().map(|v| median(&mut v.clone())).collect();
    let fastest = (0..medians.len()).min_by(|a, b| medians[*a].total_cmp(&medians[*b])).unwrap();
    let mut ratios: Vec<f64> = our_ns.iter().zip(&rust_ns[fastest]).map(|(a, b)| a / b).collect();
    Cell { ratio: median(&mut ratios), ours: median(&mut our_ns), rust: medians[fastest] }
}

/// A call in every shape: lengths by names.
type Row = (Call, Vec<Cell>);

fn rows(mode: Mode, rounds: usize, part: &str, best: bool) -> Vec<Row> {
    let shapes: Vec<Vec<Input>> =
        LENGTHS.iter().flat_map(|&len| NAMES.map(|names| inputs(Shape { mode, len, names }))).collect();
    let mut out = Vec::new();
    for call in calls(mode).into_iter().filter(|c| c.name().contains(part)) {
        let cells =
            shapes.iter().map(|i| measure(ours(call, mode, i), rusts(call, mode, i), rounds, best)).collect();
        out.push((call, cells));
        eprint!(".");
    }
    eprintln!();
    out
}

fn table(title: &str, rows: &[Row]) -> String {
    let mut s = format!("## {title}\n\n| Call |");
    for len in ["24", "200", "4,096"] {
        for names in ["short", "long"] {
            let _ = write!(s, " {len} {names} |");
        }
    }
    s += " growth short | growth long |\n|---|";
    s += &"---:|".repeat(8);
    s.push('\n');
    for (call, cells) in rows {
        let _ = write!(s, "| {} |", call.name());
        for c in cells {
            let mark = if c.ratio > AIM { "**" } else { "" };
            let _ = write!(s, " {mark}{:.2}{mark} ({:.1}) |", c.ratio, c.ours);
        }
        for names in 0..2 {
            let (from, to) = (cells[2 + names], cells[4 + names]);
            let _ = write!(s, " {:.1} ({:.1}) |", to.ours / from.ours, to.rust / from.rust);
        }
        s.push('\n');
    }
    s.push('\n');
    s
}

fn geometric_mean<'a>(cells: impl Iterator<Item = &'a Cell>) -> f64 {
    let logs: Vec<f64> = cells.map(|c| c.ratio.ln()).collect();
    (logs.iter().sum::<f64>() / logs.len() as f64).exp()
}

fn above(mode: &str, rows: &[Row]) -> String {
    let mut s = String::new();
    for (call, cells) in rows {
        for (n, c) in cells.iter().enumerate().filter(|(_, c)| c.ratio > AIM) {
            let names = if n % 2 == 0 { "short" } else { "long" };
            let len = LENGTHS[n / 2];
            let _ = writeln!(
                s,
                "- {mode} {}, {len} bytes, {names} names: {:.2}, {:.1} ns against {:.1}",
                call.name(),
                c.ratio,
                c.ours,
                c.rust
            );
        }
    }
    s
}

/// A line of a file that begins with a word, behind its colon.
fn line_of(file: &str, word: &str) -> String {
    let text = std::fs::read_to_string(file).unwrap_or_default();
    let line = text.lines().find(|l| l.starts_with(word)).unwrap_or_default();
    line.split_once(':').map_or("unknown", |(_, v)| v.trim()).to_string()
}

fn main() {
    let args: Vec<String> = std::env::args().skip(1).collect();
    let rounds = match args.first().map(|a| a.parse::<usize>()) {
        None => 201,
        Some(Ok(n)) if n > 0 && (args.len() <= 2 || args[2..] == ["best"]) => n,
        _ => {
            eprint!("{USAGE}");
            std::process::exit(2);
        }
    };
    let part = args.get(1).map_or("", String::as_str);
    let best = args.len() == 3;
    let unix = rows(Mode::Unix, rounds, part, best);
    let windows = rows(Mode::Windows, rounds, part, best);
    let cells = || unix.iter().chain(&windows).flat_map(|r| &r.1);
    println!("Machine: {}, {}.", line_of("/proc/cpuinfo", "model name"), std::env::consts::ARCH);
    println!("Rust: {}; the text of {}.", oracle::RUSTC, oracle::SOURCE.split(';').next().unwrap_or(""));
    let how = if best { "the fastest" } else { "the median" };
    println!("{how} of {rounds} rounds a cell, {} cells.\n", cells().count());
    print!("{}", table("Unix mode", &unix));
    print!("{}", table("Windows mode", &windows));
    let over = cells().filter(|c| c.ratio > AIM).count();
    println!("Geometric mean of all cells: {:.2}; {over} above {AIM}.\n", geometric_mean(cells()));
    print!("{}{}", above("Unix", &unix), above("Windows", &windows));
}
