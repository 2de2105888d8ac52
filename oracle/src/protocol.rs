//! The answers of the protocol. The values are the real Rust's; the replies,
//! their order, lengths, cursors and rooms are document 01's. Where 01 wants
//! another value than the Rust on purpose, it is a `Listed` difference and is
//! counted; any other difference is unlisted, and loud.

use crate::Real;
use crate::listed::{Listed, Tally};
use crate::paper::{self, PREFIX, Part};
use crate::types::{BarePrefix, Dir, Ext, Mode, Paths};
use crate::words::{Asked, Request, Word, put_hex, put_number};
use std::cell::RefCell;
use std::cmp::Ordering;

pub const LONGEST_PATH: usize = 4_096;
/// What a buffer holds before the call.
pub const FILL: u8 = 0xa5;

#[derive(Clone, Copy, PartialEq, Eq, Debug)]
pub enum Reply {
    Done = 0,
    Mode = 1,
    Length = 2,
    Absent = 3,
    Name = 4,
    Empty = 5,
    Base = 6,
    Room = 7,
    Cursor = 8,
}

/// Answers one line, which may end in byte 10; the answer, with its byte 10,
/// is appended to `out`. Panics on a difference that is not listed.
pub fn answer(line: &[u8], out: &mut Vec<u8>) {
    thread_local!(static ONE: RefCell<Answerer> = RefCell::default());
    ONE.with_borrow_mut(|a| {
        a.answer(line, out);
        assert_eq!(a.tally.unlisted_count(), 0, "{}", a.tally.report());
    })
}

/// Answers lines one after the other and counts what they touched. The values
/// are the real code's unless another source is given.
#[derive(Default)]
pub struct Answerer<S = Real> {
    source: S,
    req: Request,
    list: Vec<Part>,
    pub tally: Tally,
}

type Wanted<T> = Result<T, Reply>;

/// The most numbers behind a reply: those of a step.
const NUMBERS: usize = 12;

/// An answer before it is text.
#[derive(Clone, Debug)]
pub struct Answer {
    pub reply: Reply,
    nums: [u64; NUMBERS],
    count: usize,
    /// What a call that writes has put at the front of the buffer; empty on a refusal.
    pub written: Vec<u8>,
}

impl Answer {
    /// The reply and the numbers behind it, zeros where it is a refusal.
    fn new<const N: usize>(got: Wanted<[u64; N]>) -> Answer {
        let (reply, values) = match got {
            Ok(values) => (Reply::Done, values),
            Err(reply) => (reply, [0; N]),
        };
        let mut nums = [0; NUMBERS];
        nums[..N].copy_from_slice(&values);
        Answer { reply, nums, count: N, written: Vec::new() }
    }

    /// A written result against its room, which is looked at last.
    fn of_written(room: u64, got: Wanted<Vec<u8>>) -> Answer {
        let got = got.and_then(|r| if r.len() as u64 > room { Err(Reply::Room) } else { Ok(r) });
        let answer = Answer::new(got.as_ref().map(|r| [r.len() as u64]).map_err(|&reply| reply));
        Answer { written: got.unwrap_or_default(), ..answer }
    }

    /// The numbers behind the reply, in the protocol's order.
    pub fn numbers(&self) -> &[u64] {
        &self.nums[..self.count]
    }

    /// Appends the answer as text.
    fn put(mut self, asked: &Asked<'_>, out: &mut Vec<u8>) {
        put_number(out, self.reply as u64);
        for n in self.numbers() {
            out.push(b' ');
            put_number(out, *n);
        }
        if asked.word.writes() {
            self.written.resize(asked.nums[1] as usize, FILL);
            out.push(b' ');
            put_hex(out, &self.written);
        }
    }
}

impl<S: Paths + Copy> Answerer<S> {
    /// As `answer`, but an unlisted difference is only counted.
    pub fn answer(&mut self, line: &[u8], out: &mut Vec<u8>) {
        let line = line.strip_suffix(b"\n").unwrap_or(line);
        if self.req.read(line) {
            let (source, asked) = (self.source, &self.req.asked());
            let call = Call { source, asked, list: &mut self.list, tally: &mut self.tally };
            call.answer().put(asked, out);
        } else {
            out.push(b'?');
        }
        out.push(b'\n');
    }

    /// The answer to a call, which no text limits: any room, paths of any length.
    pub fn reply(&mut self, asked: &Asked<'_>) -> Answer {
        Call { source: self.source, asked, list: &mut self.list, tally: &mut self.tally }.answer()
    }
}

/// One request while it is answered.
struct Call<'a, S> {
    source: S,
    asked: &'a Asked<'a>,
    list: &'a mut Vec<Part>,
    tally: &'a mut Tally,
}

impl<'a, S: Paths> Call<'a, S> {
    fn answer(mut self) -> Answer {
        match self.asked.word {
            Word::Prefix => Answer::new(self.prefix()),
            Word::Front => self.answer_step(Dir::Front),
            Word::Back => self.answer_step(Dir::Back),
            word if word.writes() => Answer::of_written(self.asked.nums[1], self.written()),
            Word::Root | Word::IsAbsolute | Word::Compare | Word::Starts | Word::Ends => {
                Answer::new(self.verdict().map(|v| [v]))
            }
            _ => Answer::new(self.view().map(|e| [e.start as u64, e.len as u64])),
        }
    }

    fn p(&self) -> &'a [u8] {
        self.asked.bytes[0]
    }
    fn q(&self) -> &'a [u8] {
        self.asked.bytes[1]
    }

    /// The mode, or reply 1 or 2.
    fn checked(&self) -> Wanted<Mode> {
        let mode = match self.asked.nums[0] {
            0 => Mode::Unix,
            1 if self.asked.word != Word::Absolute => Mode::Windows,
            _ => return Err(Reply::Mode),
        };
        if self.asked.bytes.iter().any(|b| b.len() > LONGEST_PATH) {
            return Err(Reply::Length);
        }
        Ok(mode)
    }

    /// The mode and the cursor over the list, which is filled; reply 8 where
    /// more is taken than the list has.
    fn cursor(&mut self) -> Wanted<(Mode, usize, usize)> {
        let m = self.checked()?;
        self.source.list_into(m, self.p(), self.list);
        let [_, f, b] = self.asked.nums;
        if u128::from(f) + u128::from(b) > self.list.len() as u128 {
            return Err(Reply::Cursor);
        }
        Ok((m, f as usize, b as usize))
    }

    // ------------------------------------------------------------ prefixes

    fn prefix(&mut self) -> Wanted<[u64; 7]> {
        let m = self.checked()?;
        let x = self.source.prefix_bare(m, self.p()).ok_or(Reply::Absent)?;
        let [kind, letter, s1, l1, s2, l2] = self.prefix_numbers(&x);
        Ok([kind, letter, s1, l1, s2, l2, x.len as u64])
    }

    /// Kind, letter and the places of the names.
    fn prefix_numbers(&mut self, x: &BarePrefix) -> [u64; 6] {
        let mut n = [u64::from(x.kind), u64::from(x.letter), 0, 0, 0, 0];
        for (i, name) in x.names.iter().enumerate() {
            let Some(place) = name else { continue };
            let e = place.unwrap_or_else(|| {
                self.tally.touch(Listed::ShareOutside, self.asked);
                Ext::new(self.p().len(), 0)
            });
            n[2 + 2 * i] = e.start as u64;
            n[3 + 2 * i] = e.len as u64;
        }
        n
    }

    // ------------------------------------------------------------ steps and the rest

    /// A step, and the cursor handed back behind it.
    fn answer_step(&mut self, d: Dir) -> Answer {
        let [m, f, b] = self.asked.nums;
        let got = self.step(d);
        let cursor = match (got.is_ok(), d) {
            (true, Dir::Front) => [m, f + 1, b],
            (true, Dir::Back) => [m, f, b + 1],
            (false, _) => [m, f, b],
        };
        let mut answer = Answer::new(got);
        answer.nums[answer.count..].copy_from_slice(&cursor);
        answer.count += cursor.len();
        answer
    }

    fn step(&mut self, d: Dir) -> Wanted<[u64; 9]> {
        let (m, f, b) = self.cursor()?;
        let n = self.list.len();
        let want = match d {
            Dir::Front if f + b < n => Some(self.list[f]),
            Dir::Back if f + b < n => Some(self.list[n - 1 - b]),
            _ => None,
        };
        let real = self.source.step_after(m, self.p(), f, b, d);
        if real != want {
            self.judge_step(m, real, want);
        }
        let (kind, ext) = want.ok_or(Reply::Absent)?;
        let mut p = [0; 6];
        if kind == PREFIX {
            let x = self.source.prefix_bare(m, self.p()).expect("the list has a prefix");
            p = self.prefix_numbers(&x);
        }
        let [pk, letter, s1, l1, s2, l2] = p;
        Ok([u64::from(kind), pk, letter, s1, l1, s2, l2, ext.start as u64, ext.len as u64])
    }

    /// The iterator took something else than the list's element.
    fn judge_step(&mut self, m: Mode, real: Option<Part>, want: Option<Part>) {
        let disk = (PREFIX, Ext::new(0, 2));
        let with_dot = (PREFIX, Ext::new(0, 3));
        let dot = self.asked.word == Word::Back && m == Mode::Windows && self.p().get(2) == Some(&b'.');
        if want == Some(disk) && real == Some(with_dot) && dot {
            self.tally.touch(Listed::PrefixFromBack, self.asked);
        } else {
            self.tally.unlisted(self.asked, format!("step {real:?}, list {want:?}"));
        }
    }

    fn rest(&mut self) -> Wanted<Ext> {
        let (m, f, b) = self.cursor()?;
        let real = self.source.rest_after(m, self.p(), f, b);
        let rule = paper::rest(m, self.p(), self.list, f, b);
        if real != rule {
            let all_taken = f + b == self.list.len();
            let prefix_at_back = all_taken && f == 0 && self.list.first().is_some_and(|c| c.0 == PREFIX);
            if prefix_at_back && real.start == 0 {
                self.tally.touch(Listed::BackTookPrefix, self.asked);
            } else if all_taken && f > 0 && real.len == 0 && rule.len == 0 {
                self.tally.touch(Listed::EmptyRest, self.asked);
            } else {
                self.tally.unlisted(self.asked, format!("as_path {real:?}, rule {rule:?}"));
            }
        }
        Ok(rule)
    }

    fn strip(&mut self, m: Mode) -> Option<Ext> {
        let real = self.source.strip_prefix(m, self.p(), self.q())?;
        self.source.list_into(m, self.q(), self.list);
        let taken = self.list.len();
        self.source.list_into(m, self.p(), self.list);
        let rule = paper::rest(m, self.p(), self.list, taken, 0);
        if real != rule {
            if taken == self.list.len() && real.len == 0 && rule.len == 0 {
                self.tally.touch(Listed::EmptyStrip, self.asked);
            } else {
                self.tally.unlisted(self.asked, format!("strip_prefix {real:?}, rule {rule:?}"));
            }
        }
        Some(rule)
    }

    // ------------------------------------------------------------ views, verdicts, results

    fn view(&mut self) -> Wanted<Ext> {
        if self.asked.word == Word::Rest {
            return self.rest();
        }
        let m = self.checked()?;
        let p = self.p();
        let got = match self.asked.word {
            Word::Parent => self.source.parent(m, p),
            Word::Name => self.source.file_name(m, p),
            Word::Stem => self.source.file_stem(m, p),
            Word::Extension => self.source.extension(m, p),
            Word::Ancestor => self.source.ancestor(m, p, self.asked.nums[1]),
            Word::Strip => self.strip(m),
            other => unreachable!("{other:?} is no view"),
        };
        got.ok_or(Reply::Absent)
    }

    fn verdict(&mut self) -> Wanted<u64> {
        let m = self.checked()?;
        let (p, q) = (self.p(), self.q());
        Ok(match self.asked.word {
            Word::Root => u64::from(self.source.has_root(m, p)),
            Word::IsAbsolute => u64::from(self.source.is_absolute(m, p)),
            Word::Starts => u64::from(self.source.starts_with(m, p, q)),
            Word::Ends => u64::from(self.source.ends_with(m, p, q)),
            Word::Compare => match self.source.cmp(m, p, q) {
                Ordering::Less => 0,
                Ordering::Equal => 1,
                Ordering::Greater => 2,
            },
            other => unreachable!("{other:?} is no verdict"),
        })
    }

    fn written(&mut self) -> Wanted<Vec<u8>> {
        let m = self.checked()?;
        let (p, q) = (self.p(), self.q());
        match self.asked.word {
            Word::Join => Ok(self.source.join(m, p, q)),
            Word::SetName => Ok(self.source.set_file_name(m, p, q)),
            Word::SetExtension => {
                if q.iter().any(|&c| m.is_sep(c)) {
                    // asked first, because the Rust would panic
                    self.tally.touch(Listed::ExtensionPanic, self.asked);
                    return Err(Reply::Name);
                }
                self.source.set_plain_extension(m, p, q).ok_or(Reply::Absent)
            }
            Word::Absolute => {
                if !p.is_empty() && p[0] != b'/' && q.first() != Some(&b'/') {
                    return Err(Reply::Base);
                }
                self.source.absolute(p, q).ok_or(Reply::Empty)
            }
            other => unreachable!("{other:?} writes nothing"),
        }
    }
}
