//! Requests at the limits, damaged requests, and lines that are none.

use super::Plan;
use crate::gen_input::{Rng, random as random_path, related};
use crate::sink::Sink;
use crate::words::{Entry, LARGEST_ROOM, LONGEST_INPUT, LONGEST_LINE, REQUESTS, Slot, put_hex, put_number};

pub(crate) const MODES: [u64; 7] = [0, 1, 2, 3, 1 << 32, u64::MAX - 1, u64::MAX];
const COUNTS: [u64; 8] = [0, 1, 2, 3, 1 << 32, 1 << 63, u64::MAX - 1, u64::MAX];
const LENGTHS: [usize; 11] = [0, 1, 2, 4_094, 4_095, 4_096, 4_097, 8_191, 8_192, 8_193, 9_000];
const ROOMS: [u64; 14] = [0, 1, 2, 3, 16, 255, 256, 4_095, 4_096, 4_097, 8_193, 65_535, 65_536, 65_537];

/// The pieces that a path of a given length is made of.
const STUFF: [&[u8]; 7] = [b"a", b"a/", b"/", b"./", b"\\a\\..", b"\\\\?\\v\\a\\.", b"C:.\\"];

fn of_length(n: usize, stuff: &[u8]) -> Vec<u8> {
    // a verbatim or disk head stands once, at the front
    let (head, step) = match stuff {
        [b'\\', b'\\', ..] => stuff.split_at(5),
        [b'C', ..] => stuff.split_at(2),
        _ => (&b""[..], stuff),
    };
    head.iter().chain(step.iter().cycle()).copied().take(n).collect()
}

/// One request with every number and path given: numbers in the order of its
/// slots, paths too.
fn whole(s: &mut Sink<'_>, (word, _, slots): Entry, nums: [u64; 3], p: &[u8], q: &[u8]) {
    let n = slots.iter().filter(|k| **k != Slot::Bytes).count();
    let paths: &[&[u8]] = if slots.len() - n == 2 { &[p, q] } else { &[p] };
    s.ask(word, &nums[..n], paths);
}

fn lengths(s: &mut Sink<'_>) {
    for n in LENGTHS {
        for stuff in STUFF {
            let p = of_length(n, stuff);
            for entry in REQUESTS {
                for m in [0, 1, 2] {
                    let room = if entry.2.contains(&Slot::Room) { 4_200 } else { 1 };
                    whole(s, entry, [m, room, 0], &p, b"/w");
                    whole(s, entry, [m, room, 1], b"/w", &p);
                }
            }
        }
    }
}

fn numbers(s: &mut Sink<'_>) {
    let paths: [&[u8]; 7] = [b"", b"a", b"/a/b", b"C:.", b"C:\\a", b"\\\\s\\h\\a", b"\\\\?\\C:\\a\\b"];
    let (long, longer) = (of_length(4_096, b"a/"), of_length(4_097, b"a/"));
    for entry in REQUESTS {
        let firsts: &[u64] = if entry.2.contains(&Slot::Room) { &ROOMS[..6] } else { &COUNTS };
        for (m, p) in MODES.iter().flat_map(|m| paths.iter().map(move |p| (*m, *p))) {
            for &f in firsts {
                for b in COUNTS {
                    whole(s, entry, [m, f, b], p, b"a");
                }
            }
        }
        for m in MODES {
            whole(s, entry, [m, 0, u64::MAX], &long, b"a");
            whole(s, entry, [m, u64::MAX, 0], &longer, b"a");
        }
    }
}

/// Room against results of every length around it.
fn room_limits(s: &mut Sink<'_>) {
    for entry in REQUESTS.into_iter().filter(|e| e.2.contains(&Slot::Room)) {
        for room in ROOMS {
            for n in [0, 1, 254, 4_093, 4_095, 4_096] {
                for m in [0, 1] {
                    let p = of_length(n, b"a");
                    whole(s, entry, [m, room, 0], &p, b"b");
                    whole(s, entry, [m, room, 0], &p, &of_length(4_096, b"/b"));
                    whole(s, entry, [m, room, 0], b"/", &p);
                }
            }
        }
    }
}

pub fn boundary(s: &mut Sink<'_>, _: &Plan) {
    lengths(s);
    numbers(s);
    room_limits(s);
}

// ---------------------------------------------------------------- damaged

fn good(r: &mut Rng, p: &mut Vec<u8>, q: &mut Vec<u8>, line: &mut Vec<u8>) {
    let (word, _, slots) = REQUESTS[r.below(REQUESTS.len())];
    random_path(r, 5, p);
    related(r, p, 4, q);
    line.clear();
    line.extend_from_slice(word.as_bytes());
    let mut paths = [&*p, &*q].into_iter();
    for (i, slot) in slots.iter().enumerate() {
        line.push(b' ');
        match slot {
            Slot::Bytes => put_hex(line, paths.next().unwrap()),
            Slot::Number if i == 0 => put_number(line, r.below(2) as u64),
            Slot::Number => put_number(line, r.below(4) as u64),
            Slot::Room => put_number(line, r.below(40) as u64),
        }
    }
}

fn damage(r: &mut Rng, line: &mut Vec<u8>) {
    let at = r.below(line.len());
    match r.below(8) {
        0 => line[at] = r.draw() as u8,
        1 => line[at] = b" 0189afgAF-?\t\r"[r.below(14)],
        2 => line.insert(at, b" 09af-x"[r.below(7)]),
        3 => {
            line.remove(at);
        }
        4 => line.truncate(at),
        5 => {
            let again = line[at..].to_vec();
            line.extend_from_slice(&again);
        }
        6 => line[at] ^= 1 << r.below(8),
        _ => {
            let to = r.below(line.len());
            line.swap(at, to);
        }
    }
}

pub fn damaged(s: &mut Sink<'_>, plan: &Plan) {
    let mut r = plan.rng();
    let (mut p, mut q, mut line) = (Vec::new(), Vec::new(), Vec::new());
    for _ in 0..plan.times(200_000) {
        good(&mut r, &mut p, &mut q, &mut line);
        for _ in 0..1 + r.below(2) {
            if !line.is_empty() {
                damage(&mut r, &mut line);
            }
        }
        s.raw(&line);
    }
}

// ---------------------------------------------------------------- broken

/// Ways to break the one good line `words` make: all of them answer `?`.
fn break_words(words: &[Vec<u8>], f: &mut dyn FnMut(&[u8])) {
    let joined = |w: &[Vec<u8>]| w.join(&b' ');
    let line = joined(words);
    f(&[b" ", &line[..]].concat());
    f(&[&line[..], b" "].concat());
    f(&first_space(&line, b"  "));
    f(&first_space(&line, b"\t"));
    f(&[&line[..], b"\r"].concat());
    f(&[&line[..], b"\0"].concat());
    f(&[&line[..], b" -"].concat());
    f(&joined(&words[..words.len() - 1]));
    for (i, w) in words.iter().enumerate() {
        let mut with = |new: &[u8]| {
            let mut copy = words.to_vec();
            copy[i] = new.to_vec();
            f(&joined(&copy));
        };
        with(b"");
        if i == 0 {
            with(&w.to_ascii_uppercase());
            with(&[&w[..], b"x"].concat());
        } else if w.iter().all(u8::is_ascii_digit) && w.len() < 3 {
            bad_numbers(&mut with);
        } else {
            bad_bytes(&mut with);
        }
    }
}

fn bad_numbers(with: &mut dyn FnMut(&[u8])) {
    let bad: [&[u8]; 11] = [
        b"-", b"+1", b"-1", b"0x1", b"1a", b"1.", b"1_0", b"18446744073709551616", b"99999999999999999999",
        b"000000000000000000001", b"184467440737095516150",
    ];
    bad.iter().for_each(|b| with(b));
}

fn bad_bytes(with: &mut dyn FnMut(&[u8])) {
    let bad: [&[u8]; 12] =
        [b"6", b"616", b"6A", b"A6", b"6g", b"g6", b"--", b"-61", b"61-", b"0x61", b"6\xc3", b"61,62"];
    bad.iter().for_each(|b| with(b));
    with(&b"61".repeat(LONGEST_INPUT + 1));
}

/// `line` with its first space replaced.
fn first_space(line: &[u8], by: &[u8]) -> Vec<u8> {
    let at = line.iter().position(|&b| b == b' ').unwrap();
    [&line[..at], by, &line[at + 1..]].concat()
}

/// A good line for each request, as words. Its paths have more than two bytes
/// so that they are not taken for numbers.
fn good_words((word, _, slots): Entry) -> Vec<Vec<u8>> {
    let mut words = vec![word.as_bytes().to_vec()];
    words.extend(slots.iter().map(|s| match s {
        Slot::Number => b"0".to_vec(),
        Slot::Room => b"9".to_vec(),
        Slot::Bytes => b"612f62".to_vec(),
    }));
    words
}

/// Lines that are no request, of every sort, for each request.
pub(crate) fn broken_lines(f: &mut dyn FnMut(&[u8])) {
    for entry in REQUESTS {
        let words = good_words(entry);
        break_words(&words, f);
        if let Some(at) = entry.2.iter().position(|s| *s == Slot::Room) {
            for room in [LARGEST_ROOM + 1, u64::MAX] {
                let mut copy = words.clone();
                copy[at + 1] = room.to_string().into_bytes();
                f(&copy.join(&b' '));
            }
        }
    }
    let few: [&[u8]; 12] = [
        b"", b" ", b"  ", b"?", b"-", b"0", b"\0", b"\r", b"ask 0 61", b"absolute ? 0 61",
        b"set name 0 3 61 62", b"\xffprefix 0 61",
    ];
    few.iter().for_each(|l| f(l));
    for n in [LONGEST_LINE - 1, LONGEST_LINE, LONGEST_LINE + 1, 3 * LONGEST_LINE] {
        f(&[b"prefix 0 ", &vec![b'6'; n - 9][..]].concat());
    }
}

/// The broken lines, each followed by a good one: the next line is served.
pub fn broken(s: &mut Sink<'_>, _: &Plan) {
    let mut i = 0;
    broken_lines(&mut |line| {
        s.raw(line);
        s.raw(&good_words(REQUESTS[i % REQUESTS.len()]).join(&b' '));
        i += 1;
    });
}
