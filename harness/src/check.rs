//! One call, asked of the library and of the oracle, and the two answers held
//! against each other: reply, every number, the whole buffer and what lies
//! around it.

use crate::ours;
use oracle::Real;
use oracle::protocol::{Answer, Answerer};
use oracle::readable;
use oracle::words::Asked;

const SHOWN: usize = 10;
/// Bytes on either side of the buffer that no call may touch.
const GUARD: usize = 16;
/// No larger buffer is lent: a request for one is left out.
const LARGEST_ROOM: u64 = 1 << 17;

/// What stands at place i of the memory around the buffer before a call: no
/// neighbours alike, so that bytes which were moved show too.
fn fill(i: usize) -> u8 {
    (i as u8).wrapping_mul(59).wrapping_add(0xa5)
}

#[derive(Default)]
pub struct Checker {
    pub oracle: Answerer<Real>,
    memory: Vec<u8>,
    pub cases: u64,
    pub differ: u64,
    shown: Vec<String>,
}

impl Checker {
    /// Asks both.
    pub fn check(&mut self, asked: &Asked<'_>) {
        let room = if asked.word.writes() { asked.nums[1] } else { 0 };
        if room > LARGEST_ROOM {
            return;
        }
        let room = room as usize;
        let whole = GUARD + room + GUARD;
        while self.memory.len() < whole {
            self.memory.push(fill(self.memory.len()));
        }
        let want = self.oracle.reply(asked);
        let Checker { memory, .. } = self;
        let got = ours::ask(asked, &mut memory[GUARD..GUARD + room], |reply, nums| {
            let same = reply == want.reply as usize && same_numbers(asked, &want, nums);
            if same { None } else { Some((reply, nums.to_vec())) }
        });
        self.cases += 1;
        let buffer_same = mended(&mut memory[..whole], &want.written);
        if got.is_some() || !buffer_same {
            self.show(asked, &want, got, buffer_same);
        }
    }

    fn show(
        &mut self,
        asked: &Asked<'_>,
        want: &Answer,
        got: Option<(usize, Vec<usize>)>,
        buffer_same: bool,
    ) {
        self.differ += 1;
        if self.shown.len() == SHOWN {
            return;
        }
        let mut s = format!("{}\n", readable::request(&asked.line()));
        s += &format!(
            "  oracle {} {:?} {}\n",
            want.reply as u8,
            want.numbers(),
            readable::path(&want.written)
        );
        match got {
            Some((reply, nums)) => s += &format!("  ours   {reply} {nums:?}\n"),
            None => s += "  ours   the same reply and numbers\n",
        }
        if !buffer_same {
            s += "  the buffer, or memory beside it, is not as it should be\n";
        }
        self.shown.push(s);
    }

    /// The first differences, to be read.
    pub fn report(&self) -> String {
        self.shown.concat()
    }
}

/// The protocol leaves the start of a written result out, which is 0.
fn same_numbers(asked: &Asked<'_>, want: &Answer, got: &[usize]) -> bool {
    let got = match got {
        [0, behind @ ..] if asked.word.writes() => behind,
        _ if asked.word.writes() => return false,
        got => got,
    };
    got.len() == want.numbers().len() && got.iter().zip(want.numbers()).all(|(g, w)| *g as u64 == *w)
}

/// Whether the result stands at the buffer's front and every other byte is as
/// it was; all are made so again.
fn mended(memory: &mut [u8], written: &[u8]) -> bool {
    let end = GUARD + written.len();
    let mut same = memory[GUARD..end] == *written;
    for (i, b) in memory.iter_mut().enumerate() {
        let inside = GUARD <= i && i < end;
        same &= inside || *b == fill(i);
        *b = fill(i);
    }
    same
}

#[cfg(test)]
mod tests {
    use super::*;

    fn memory(n: usize) -> Vec<u8> {
        (0..GUARD + n + GUARD).map(fill).collect()
    }

    #[test]
    fn every_byte_of_the_buffer_is_looked_at() {
        let mut good = memory(5);
        good[GUARD..GUARD + 3].copy_from_slice(b"a/b");
        assert!(mended(&mut good.clone(), b"a/b"));
        for i in 0..good.len() {
            let mut bad = good.clone();
            bad[i] ^= 1;
            assert!(!mended(&mut bad, b"a/b"), "byte {i}");
            assert_eq!(bad, memory(5), "made again");
        }
        assert!(!mended(&mut memory(5), b"a/b"), "nothing written");
        assert!(mended(&mut memory(0), b""));
    }

    #[test]
    fn every_number_is_looked_at() {
        let asked = Asked::new("absolute", &[0, 9], &[b"./", b"/w"]);
        let want = Answerer::<Real>::default().reply(&asked);
        assert!(same_numbers(&asked, &want, &[0, 3]));
        for bad in [&[1, 3][..], &[0, 2], &[3], &[0, 3, 0], &[]] {
            assert!(!same_numbers(&asked, &want, bad), "{bad:?}");
        }
        let asked = Asked::new("parent", &[0], &[b"a/b"]);
        let want = Answerer::<Real>::default().reply(&asked);
        assert!(same_numbers(&asked, &want, &[0, 1]) && !same_numbers(&asked, &want, &[1, 1]));
    }
}
