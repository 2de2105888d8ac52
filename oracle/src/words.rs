//! Reading a line as a request of the protocol, and writing words: decimal
//! numbers and hex bytes. A line that is no request is answered `?`, which is
//! decided here and nowhere else.

pub const LONGEST_LINE: usize = 33_000;
pub const LONGEST_INPUT: usize = 8_192;
pub const LARGEST_ROOM: u64 = 65_536;

#[derive(Clone, Copy, PartialEq, Eq, Debug)]
pub enum Word {
    Prefix,
    Front,
    Back,
    Rest,
    Parent,
    Name,
    Stem,
    Extension,
    Ancestor,
    Root,
    IsAbsolute,
    Compare,
    Starts,
    Ends,
    Strip,
    Join,
    SetName,
    SetExtension,
    Absolute,
}

impl Word {
    /// Whether the call writes into a buffer.
    pub fn writes(self) -> bool {
        matches!(self, Word::Join | Word::SetName | Word::SetExtension | Word::Absolute)
    }
}

#[derive(Clone, Copy, PartialEq, Eq, Debug)]
pub enum Slot {
    Number,
    Room,
    Bytes,
}

use Slot::{Bytes, Number, Room};

const PATH: &[Slot] = &[Number, Bytes];
const STEP: &[Slot] = &[Number, Number, Number, Bytes];
const PAIR: &[Slot] = &[Number, Bytes, Bytes];
const WRITE: &[Slot] = &[Number, Room, Bytes, Bytes];

/// A request's word as written, and what follows it.
pub type Entry = (&'static str, Word, &'static [Slot]);

pub const REQUESTS: [Entry; 19] = [
    ("prefix", Word::Prefix, PATH),
    ("front", Word::Front, STEP),
    ("back", Word::Back, STEP),
    ("rest", Word::Rest, STEP),
    ("parent", Word::Parent, PATH),
    ("name", Word::Name, PATH),
    ("stem", Word::Stem, PATH),
    ("extension", Word::Extension, PATH),
    ("ancestor", Word::Ancestor, &[Number, Number, Bytes]),
    ("root", Word::Root, PATH),
    ("absolute?", Word::IsAbsolute, PATH),
    ("compare", Word::Compare, PAIR),
    ("starts", Word::Starts, PAIR),
    ("ends", Word::Ends, PAIR),
    ("strip", Word::Strip, PAIR),
    ("join", Word::Join, WRITE),
    ("set-name", Word::SetName, WRITE),
    ("set-extension", Word::SetExtension, WRITE),
    ("absolute", Word::Absolute, WRITE),
];

/// What is asked, with its numbers and paths: a request that need not be text.
#[derive(Clone, Copy, Debug)]
pub struct Asked<'a> {
    pub word: Word,
    /// the mode, then F and B, or N, or ROOM; zeros behind them
    pub nums: [u64; 3],
    /// P, then Q, E or D; empty where the request has none
    pub bytes: [&'a [u8]; 2],
}

impl<'a> Asked<'a> {
    /// With the word as written, and as many numbers and paths as it has.
    pub fn new(word: &str, nums: &[u64], paths: &[&'a [u8]]) -> Asked<'a> {
        let word = entry(word.as_bytes()).expect("a known word").1;
        let mut asked = Asked { word, nums: [0; 3], bytes: [b""; 2] };
        asked.nums[..nums.len()].copy_from_slice(nums);
        asked.bytes[..paths.len()].copy_from_slice(paths);
        asked
    }

    fn entry(&self) -> &'static Entry {
        REQUESTS.iter().find(|r| r.1 == self.word).expect("every word is listed")
    }

    /// How long the line is that `put_line` appends.
    pub fn size(&self) -> usize {
        let (name, _, slots) = self.entry();
        let paths = slots.iter().filter(|s| **s == Bytes).count();
        let digits = |n: &u64| n.checked_ilog10().unwrap_or(0) as usize + 1;
        let numbers: usize = self.nums[..slots.len() - paths].iter().map(digits).sum();
        let hex: usize = self.bytes[..paths].iter().map(|b| (2 * b.len()).max(1)).sum();
        name.len() + slots.len() + numbers + hex
    }

    /// Appends the request as a line, without its byte 10.
    pub fn put_line(&self, out: &mut Vec<u8>) {
        let (name, _, slots) = self.entry();
        out.extend_from_slice(name.as_bytes());
        let (mut nums, mut paths) = (self.nums.iter(), self.bytes.iter());
        for slot in *slots {
            out.push(b' ');
            match slot {
                Bytes => put_hex(out, paths.next().expect("two paths at most")),
                _ => put_number(out, *nums.next().expect("three numbers at most")),
            }
        }
    }

    pub fn line(&self) -> Vec<u8> {
        let mut line = Vec::new();
        self.put_line(&mut line);
        line
    }
}

fn entry(word: &[u8]) -> Option<&'static Entry> {
    REQUESTS.iter().find(|r| r.0.as_bytes() == word)
}

/// A request as read. The buffers are used again for the next line.
#[derive(Clone, Debug)]
pub struct Request {
    pub word: Word,
    /// the mode, then F and B, or N, or ROOM
    pub nums: [u64; 3],
    /// P, then Q, E or D; empty where the request has none
    pub bytes: [Vec<u8>; 2],
}

impl Default for Request {
    fn default() -> Request {
        // with capacity, so that an empty path has an address of its own
        let room = || Vec::with_capacity(LONGEST_INPUT);
        Request { word: Word::Prefix, nums: [0; 3], bytes: [room(), room()] }
    }
}

impl Request {
    pub fn asked(&self) -> Asked<'_> {
        Asked { word: self.word, nums: self.nums, bytes: [&self.bytes[0], &self.bytes[1]] }
    }

    /// Reads a line that has lost its byte 10. False: it is no request.
    pub fn read(&mut self, line: &[u8]) -> bool {
        if line.len() > LONGEST_LINE {
            return false;
        }
        let mut words = line.split(|&b| b == b' ');
        let first = words.next().unwrap_or(b"");
        let Some((_, word, slots)) = entry(first) else { return false };
        self.word = *word;
        self.nums = [0; 3];
        let (mut n, mut b) = (0, 0);
        self.bytes.iter_mut().for_each(Vec::clear);
        for slot in *slots {
            let Some(w) = words.next() else { return false };
            if *slot == Bytes {
                if !bytes(w, &mut self.bytes[b]) {
                    return false;
                }
                b += 1;
            } else {
                let limit = if *slot == Room { LARGEST_ROOM } else { u64::MAX };
                let Some(v) = number(w).filter(|v| *v <= limit) else { return false };
                self.nums[n] = v;
                n += 1;
            }
        }
        words.next().is_none()
    }
}

fn number(word: &[u8]) -> Option<u64> {
    if word.is_empty() || word.len() > 20 {
        return None;
    }
    word.iter().try_fold(0u64, |n, &c| {
        let digit = c.is_ascii_digit().then(|| u64::from(c - b'0'))?;
        n.checked_mul(10)?.checked_add(digit)
    })
}

const NO_DIGIT: u8 = 0xff;
const VALUES: [u8; 256] = {
    let mut t = [NO_DIGIT; 256];
    let mut i = 0;
    while i < 16 {
        t[DIGITS[i] as usize] = i as u8;
        i += 1;
    }
    t
};
const DIGITS: &[u8; 16] = b"0123456789abcdef";

fn bytes(word: &[u8], out: &mut Vec<u8>) -> bool {
    if word == b"-" {
        return true;
    }
    if word.is_empty() || word.len() % 2 == 1 || word.len() > 2 * LONGEST_INPUT {
        return false;
    }
    word.chunks_exact(2).all(|d| {
        let (h, l) = (VALUES[d[0] as usize], VALUES[d[1] as usize]);
        out.push(h << 4 | l & 15);
        (h | l) != NO_DIGIT
    })
}

/// The bytes of a hex word, if it is one.
pub fn unhex(word: &[u8]) -> Option<Vec<u8>> {
    let mut out = Vec::new();
    bytes(word, &mut out).then_some(out)
}

/// Appends `n` in decimal.
pub fn put_number(out: &mut Vec<u8>, mut n: u64) {
    let mut digits = [0u8; 20];
    let mut at = digits.len();
    loop {
        at -= 1;
        digits[at] = b'0' + (n % 10) as u8;
        n /= 10;
        if n == 0 {
            break;
        }
    }
    out.extend_from_slice(&digits[at..]);
}

/// Appends the bytes in hex, `-` for none.
pub fn put_hex(out: &mut Vec<u8>, b: &[u8]) {
    if b.is_empty() {
        out.push(b'-');
    }
    out.reserve(2 * b.len());
    for &c in b {
        out.extend_from_slice(&[DIGITS[(c >> 4) as usize], DIGITS[(c & 15) as usize]]);
    }
}
