//! Compares answers that a program wrote with the oracle's own.

use crate::protocol::Answerer;
use crate::readable;
use std::io::{self, BufRead, Write};

const SHOWN: usize = 10;

#[derive(Default, Debug)]
pub struct Outcome {
    pub lines: u64,
    pub differ: u64,
    pub missing: u64,
    pub left_over: u64,
    pub unlisted: u64,
}

impl Outcome {
    pub fn agreed(&self) -> bool {
        self.differ + self.missing + self.left_over + self.unlisted == 0
    }
}

/// Reads one line with its byte 10 into `line`; false at the end.
fn next_line(from: &mut dyn BufRead, line: &mut Vec<u8>) -> io::Result<bool> {
    line.clear();
    Ok(from.read_until(b'\n', line)? > 0)
}

fn show(say: &mut dyn Write, number: u64, request: &[u8], want: &[u8], got: &[u8]) -> io::Result<()> {
    let cut = |l: &[u8]| l.strip_suffix(b"\n").unwrap_or(l).to_vec();
    let request = cut(request);
    writeln!(say, "line {number}: {}", readable::request(&request))?;
    writeln!(say, "  oracle {}", readable::answer(&request, &cut(want)))?;
    match got {
        b"" => writeln!(say, "  theirs is missing"),
        _ if !got.ends_with(b"\n") => {
            writeln!(say, "  theirs {}, with no byte 10", readable::answer(&request, got))
        }
        _ => writeln!(say, "  theirs {}", readable::answer(&request, &cut(got))),
    }
}

/// Answers each request and compares; what it found is written to `say`.
pub fn compare(
    requests: &mut dyn BufRead,
    answers: &mut dyn BufRead,
    say: &mut dyn Write,
) -> io::Result<Outcome> {
    let mut a = Answerer::<crate::Real>::default();
    let mut o = Outcome::default();
    let (mut request, mut got, mut want) = (Vec::new(), Vec::new(), Vec::new());
    while next_line(requests, &mut request)? {
        o.lines += 1;
        want.clear();
        a.answer(&request, &mut want);
        if !next_line(answers, &mut got)? {
            o.missing += 1;
        } else if got != want {
            o.differ += 1;
        } else {
            continue;
        }
        if o.missing + o.differ <= SHOWN as u64 {
            show(say, o.lines, &request, &want, &got)?;
        }
    }
    while next_line(answers, &mut got)? {
        o.left_over += 1;
    }
    o.unlisted = a.tally.unlisted_count();
    writeln!(
        say,
        "{} lines, {} differ, {} answers missing, {} left over",
        o.lines, o.differ, o.missing, o.left_over
    )?;
    write!(say, "{}", a.tally.report())?;
    Ok(o)
}
