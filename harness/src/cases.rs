//! Cases of the harness's own, beside the oracle's sets: every call on paths
//! of the lengths around each limit, on random pairs and on damaged copies,
//! with random modes, cursors and rooms. All follow from a seed.

use oracle::gen_input::{Rng, random as random_path, related};
use oracle::sets::result_length;
use oracle::types::Mode;
use oracle::words::{Asked, REQUESTS, Slot, Word};
use oracle::{Ext, Paths, Real};

pub type Ask<'a> = dyn FnMut(&Asked<'_>) + 'a;

pub const LENGTHS: [usize; 10] = [0, 1, 2, 3, 4_094, 4_095, 4_096, 4_097, 4_098, 5_000];

/// Draws the numbers of calls.
pub struct Cases {
    rng: Rng,
    list: Vec<(u8, Ext)>,
}

impl Cases {
    pub fn new(seed: u64) -> Cases {
        Cases { rng: Rng(seed.wrapping_mul(0x9E37_79B9_7F4A_7C15) | 1), list: Vec::new() }
    }

    /// 0 or 1, and now and then a number that is no mode.
    fn mode(&mut self) -> u64 {
        match self.rng.below(24) {
            0 => [2, 3, 7, 1 << 32, (1 << 32) + 1, u64::MAX][self.rng.below(6)],
            n => u64::from(n % 3 != 0),
        }
    }

    /// How many components were taken at the front and at the back, of
    /// `there`: mostly no more than there are.
    fn cursor(&mut self, there: usize) -> [u64; 2] {
        let r = &mut self.rng;
        let f = r.below(there + 2);
        let b = match r.below(4) {
            0 => 0,
            1 => there.saturating_sub(f),
            _ => r.below(there.saturating_sub(f) + 2),
        };
        let far = [there as u64 + 1, 1 << 32, 1 << 63, u64::MAX - 1, u64::MAX][r.below(5)];
        match r.below(16) {
            0 => [far, b as u64],
            1 => [f as u64, far],
            2 => [far, far],
            3 => [b as u64, f as u64],
            _ => [f as u64, b as u64],
        }
    }

    /// A room around what the result needs.
    fn room(&mut self, need: Option<u64>) -> u64 {
        let r = &mut self.rng;
        match (need, r.below(6)) {
            (None, n) => n as u64 * 7,
            (_, 0) => 0,
            (Some(n), 1) => r.below(n as usize + 1) as u64,
            (Some(n), 2) => n.saturating_sub(1),
            (Some(n), 3) => n + 1 + r.below(40) as u64,
            (Some(n), _) => n,
        }
    }

    /// Every call once, on the path p and the other q.
    pub fn every_call(&mut self, p: &[u8], q: &[u8], ask: &mut Ask<'_>) {
        for (name, word, slots) in REQUESTS {
            let m = if word == Word::Absolute && self.rng.below(8) > 0 { 0 } else { self.mode() };
            let mode = if m == 0 { Mode::Unix } else { Mode::Windows };
            let nums = match slots {
                [Slot::Number, Slot::Number, Slot::Number, ..] => {
                    Real.list_into(mode, p, &mut self.list);
                    let [f, b] = self.cursor(self.list.len());
                    [m, f, b]
                }
                [Slot::Number, Slot::Number, ..] => {
                    Real.list_into(mode, p, &mut self.list);
                    [m, self.cursor(self.list.len())[0], 0]
                }
                [Slot::Number, Slot::Room, ..] => [m, self.room(result_length(name, m, p, q)), 0],
                _ => [m, 0, 0],
            };
            let two = slots.iter().filter(|s| **s == Slot::Bytes).count() == 2;
            ask(&Asked { word, nums, bytes: [p, if two { q } else { b"" }] });
        }
    }

    /// A path of n bytes, of one of several sorts.
    fn of_length(&mut self, n: usize, out: &mut Vec<u8>) {
        let mut piece = Vec::new();
        random_path(&mut self.rng, 1, out);
        let sort = self.rng.below(5);
        while out.len() < n {
            match sort {
                0 => random_path(&mut self.rng, 12, &mut piece),
                1 => piece.splice(.., self.name(4)).for_each(drop),
                2 => piece.splice(.., self.name(200)).for_each(drop),
                3 => piece.splice(.., *b"/.").for_each(drop),
                _ => piece.splice(.., *b"x").for_each(drop),
            }
            out.extend_from_slice(&piece);
            if matches!(sort, 1 | 2) {
                out.push(b"/\\"[self.rng.below(2)]);
            }
        }
        out.truncate(n);
    }

    /// A name of at most that many bytes.
    fn name(&mut self, most: usize) -> Vec<u8> {
        let letter = b"ab.\xff"[self.rng.below(4)];
        vec![letter; self.rng.below(most) + 1]
    }

    /// Bytes changed, put in, taken out, turned round or swapped.
    fn damage(&mut self, p: &mut Vec<u8>) {
        let r = &mut self.rng;
        for _ in 0..1 + r.below(3) {
            if p.is_empty() {
                p.push(r.draw() as u8);
                continue;
            }
            let i = r.below(p.len());
            match r.below(7) {
                0 => p[i] = r.draw() as u8,
                1 => p[i] = b"/\\.:?aC"[r.below(7)],
                2 => p.insert(i, b"/\\.:?aC"[r.below(7)]),
                3 => drop(p.remove(i)),
                4 => p[i] ^= 1 << r.below(8),
                5 => p.truncate(i),
                _ => {
                    let j = r.below(p.len());
                    p.swap(i, j);
                }
            }
        }
    }

    /// Paths of every length around each limit.
    pub fn lengths(&mut self, times: u64, ask: &mut Ask<'_>) {
        let (mut p, mut q) = (Vec::new(), Vec::new());
        for i in 0..times {
            let one = LENGTHS[i as usize % LENGTHS.len()];
            let other = LENGTHS[self.rng.below(LENGTHS.len())];
            self.of_length(one, &mut p);
            match self.rng.below(3) {
                0 => related(&mut self.rng, &p, 3, &mut q),
                _ => self.of_length(other, &mut q),
            }
            if self.rng.below(2) == 0 {
                std::mem::swap(&mut p, &mut q);
            }
            self.every_call(&p, &q, ask);
        }
    }

    /// Random paths with one related to them.
    pub fn random(&mut self, times: u64, ask: &mut Ask<'_>) {
        let (mut p, mut q) = (Vec::new(), Vec::new());
        for _ in 0..times {
            random_path(&mut self.rng, 16, &mut p);
            related(&mut self.rng, &p, 10, &mut q);
            self.every_call(&p, &q, ask);
        }
    }

    /// A good path and a damaged copy of it, either way round.
    pub fn damaged(&mut self, times: u64, ask: &mut Ask<'_>) {
        let (mut p, mut q) = (Vec::new(), Vec::new());
        for _ in 0..times {
            random_path(&mut self.rng, 10, &mut p);
            q.clone_from(&p);
            self.damage(&mut q);
            self.every_call(&p, &q, ask);
            self.every_call(&q, &p, ask);
        }
    }
}
