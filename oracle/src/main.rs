//! The oracle's program: answers requests, compares answers, writes requests.

use oracle::protocol::Answerer;
use oracle::sets::{Plan, SETS};
use oracle::sink::Sink;
use oracle::{compare, findings, sets, stored};
use std::fs::File;
use std::io::{self, BufRead, BufReader, BufWriter, Write};
use std::process::ExitCode;

const BUFFER: usize = 1 << 20;

fn usage() -> String {
    let mut s = String::from(
        "usage: oracle answer < REQUESTS > ANSWERS
       oracle compare REQUESTS ANSWERS
       oracle requests SET [SEED] [COUNT] [--part K/N]
       oracle stored GROUP
       oracle findings
       oracle paper [SEED] [--part K/N]
       oracle versions

compare answers the requests itself and says which of the answers given differ.
requests writes a set; --part K/N keeps every N-th line from line K on, from 0.
stored writes a group of requests whose answers are kept.
findings measures the listed differences; paper answers every set with the
Rust's values and with document 01's rules, and compares.
Sets (SEED is 1 if not given; a random set's COUNT is the number it says):
",
    );
    for set in SETS {
        s += &format!("  {:14} {}\n", set.name, set.says);
    }
    s + &format!("stored groups: {}\n", stored::GROUPS.map(|g| g.0).join(" "))
}

fn main() -> ExitCode {
    let args: Vec<String> = std::env::args().skip(1).collect();
    let words: Vec<&str> = args.iter().map(String::as_str).collect();
    let done = match words[..] {
        ["answer"] => answer(),
        ["compare", requests, answers] => compare_files(requests, answers),
        ["requests", name, ref more @ ..] => requests(name, more),
        ["stored", name] => stored_group(name),
        ["findings"] => findings::print(&mut io::stdout()).map(ok_if),
        ["paper", ref more @ ..] => paper(more),
        ["versions"] => {
            println!("{}\ninstalled std: {}", oracle::SOURCE, oracle::RUSTC);
            Ok(ExitCode::SUCCESS)
        }
        ["help" | "--help" | "-h"] => {
            print!("{}", usage());
            Ok(ExitCode::SUCCESS)
        }
        _ => wrong("unknown words"),
    };
    done.unwrap_or_else(|e| {
        if e.kind() != io::ErrorKind::BrokenPipe {
            eprintln!("oracle: {e}");
        }
        ExitCode::from(2)
    })
}

fn ok_if(good: bool) -> ExitCode {
    if good { ExitCode::SUCCESS } else { ExitCode::from(1) }
}

fn wrong(why: &str) -> io::Result<ExitCode> {
    eprint!("oracle: {why}\n{}", usage());
    Ok(ExitCode::from(2))
}

fn open(name: &str) -> io::Result<BufReader<File>> {
    let file = File::open(name).map_err(|e| io::Error::new(e.kind(), format!("{name}: {e}")))?;
    Ok(BufReader::with_capacity(BUFFER, file))
}

fn answer() -> io::Result<ExitCode> {
    let mut from = BufReader::with_capacity(BUFFER, io::stdin().lock());
    let mut to = BufWriter::with_capacity(BUFFER, io::stdout().lock());
    let mut a = Answerer::<oracle::Real>::default();
    let (mut line, mut out) = (Vec::new(), Vec::new());
    while from.read_until(b'\n', &mut line)? > 0 {
        a.answer(&line, &mut out);
        to.write_all(&out)?;
        line.clear();
        out.clear();
    }
    to.flush()?;
    if a.tally.unlisted_count() > 0 {
        eprint!("{}", a.tally.report());
    }
    Ok(ok_if(a.tally.unlisted_count() == 0))
}

fn compare_files(requests: &str, answers: &str) -> io::Result<ExitCode> {
    let (mut requests, mut answers) = (open(requests)?, open(answers)?);
    let found = compare::compare(&mut requests, &mut answers, &mut io::stdout().lock())?;
    Ok(ok_if(found.agreed()))
}

/// K/N as two numbers with K below N.
fn part(word: &str) -> Option<(u64, u64)> {
    let (k, n) = word.split_once('/')?;
    let (k, n) = (k.parse().ok()?, n.parse().ok()?);
    (k < n).then_some((k, n))
}

/// The numbers and the part behind a command; None where they are wrong.
fn options(words: &[&str]) -> Option<(Vec<u64>, (u64, u64))> {
    let (plain, part_of) = match words {
        [plain @ .., "--part", one] => (plain, part(one)?),
        plain => (plain, (0, 1)),
    };
    let numbers: Option<Vec<u64>> = plain.iter().map(|w| w.parse().ok()).collect();
    Some((numbers.filter(|n| n.len() <= 2)?, part_of))
}

fn requests(name: &str, more: &[&str]) -> io::Result<ExitCode> {
    let Some(set) = sets::find(name) else { return wrong("no such set") };
    let Some((numbers, (k, n))) = options(more) else { return wrong("bad SEED, COUNT or part") };
    let plan = Plan { seed: numbers.first().copied().unwrap_or(1), count: numbers.get(1).copied() };
    stream(|to| (set.write)(&mut Sink::new(k, n, to), &plan))
}

fn paper(more: &[&str]) -> io::Result<ExitCode> {
    let Some((numbers, part_of)) = options(more) else { return wrong("bad SEED or part") };
    findings::paper(&mut io::stdout(), numbers.first().copied().unwrap_or(1), part_of).map(ok_if)
}

fn stored_group(name: &str) -> io::Result<ExitCode> {
    let Some(&(_, group)) = stored::GROUPS.iter().find(|g| g.0 == name) else {
        return wrong("no such group");
    };
    stream(|to| stored::write(group, to))
}

/// Writes generated lines to standard output. A reader that went away ends
/// the program: a generator could not be stopped otherwise.
fn stream(write: impl FnOnce(&mut dyn FnMut(&[u8]))) -> io::Result<ExitCode> {
    let mut to = BufWriter::with_capacity(BUFFER, io::stdout().lock());
    write(&mut |line| {
        if to.write_all(line).is_err() {
            std::process::exit(2);
        }
    });
    to.flush()?;
    Ok(ExitCode::SUCCESS)
}
