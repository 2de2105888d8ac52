//! Replays the vectors of the calls that this crate has (vectors/README.md): each answer is put together from the crate's types, as the
//! numbers that the vector has.

use bridlestep::{Component, Components, Error, Kind, Mode, Prefix, compare, join, prefix};
use std::fmt::Write;

fn bytes(word: &str) -> Vec<u8> {
    if word == "-" {
        return Vec::new();
    }
    (0..word.len()).step_by(2).map(|i| u8::from_str_radix(&word[i..i + 2], 16).unwrap()).collect()
}

fn hex(bytes: &[u8]) -> String {
    if bytes.is_empty() {
        return "-".to_string();
    }
    bytes.iter().fold(String::new(), |mut s, b| {
        write!(s, "{b:02x}").unwrap();
        s
    })
}

fn number(e: Error) -> usize {
    match e {
        Error::Length => 2,
        Error::Room => 7,
        Error::Cursor => 8,
    }
}

fn words(numbers: &[usize]) -> String {
    numbers.iter().map(usize::to_string).collect::<Vec<_>>().join(" ")
}

/// Kind, letter, start and length of either name.
fn prefix_numbers(path: &[u8], p: &Prefix<'_>) -> [usize; 6] {
    let at = |name: &[u8]| name.as_ptr() as usize - path.as_ptr() as usize;
    match *p {
        Prefix::Verbatim(n) => [1, 0, at(n), n.len(), 0, 0],
        Prefix::VerbatimUnc(s, h) => [2, 0, at(s), s.len(), at(h), h.len()],
        Prefix::VerbatimDisk(d) => [3, d as usize, 0, 0, 0, 0],
        Prefix::DeviceNs(n) => [4, 0, at(n), n.len(), 0, 0],
        Prefix::Unc(s, h) => [5, 0, at(s), s.len(), at(h), h.len()],
        Prefix::Disk(d) => [6, d as usize, 0, 0, 0, 0],
    }
}

fn prefix_answer(mode: Mode, path: &[u8]) -> String {
    match prefix(mode, path) {
        Err(e) => words(&[number(e), 0, 0, 0, 0, 0, 0, 0]),
        Ok(None) => words(&[3, 0, 0, 0, 0, 0, 0, 0]),
        Ok(Some((p, bytes))) => {
            let [kind, letter, s1, l1, s2, l2] = prefix_numbers(path, &p);
            words(&[0, kind, letter, s1, l1, s2, l2, bytes.len()])
        }
    }
}

fn component_numbers(path: &[u8], c: &Component<'_>) -> Vec<usize> {
    let (kind, held) = match &c.kind {
        Kind::Prefix(p) => (1, prefix_numbers(path, p)),
        Kind::RootDir => (2, [0; 6]),
        Kind::CurDir => (3, [0; 6]),
        Kind::ParentDir => (4, [0; 6]),
        Kind::Normal => (5, [0; 6]),
    };
    let extent = c.extent();
    [&[kind][..], &held, &[extent.start, extent.len()]].concat()
}

type Step = for<'a, 'b> fn(&'a mut Components<'b>) -> Option<Component<'b>>;

fn step_answer(mode: Mode, front: usize, back: usize, path: &[u8], step: Step) -> String {
    let (reply, numbers, taken) = match Components::resume(mode, path, front, back) {
        Err(e) => (number(e), vec![0; 9], (front, back)),
        Ok(mut parts) => match step(&mut parts) {
            None => (3, vec![0; 9], parts.taken()),
            Some(c) => (0, component_numbers(path, &c), parts.taken()),
        },
    };
    words(&[&[reply][..], &numbers, &[mode as usize, taken.0, taken.1]].concat())
}

fn compare_answer(mode: Mode, p: &[u8], q: &[u8]) -> String {
    match compare(mode, p, q) {
        Err(e) => words(&[number(e), 0]),
        Ok(order) => words(&[0, (order as i8 + 1) as usize]),
    }
}

fn join_answer(mode: Mode, room: usize, p: &[u8], q: &[u8]) -> String {
    let mut out = vec![0xa5; room];
    let (reply, len) = match join(mode, p, q, &mut out) {
        Err(e) => (number(e), 0),
        Ok(joined) => (0, joined.len()),
    };
    format!("{reply} {len} {}", hex(&out))
}

/// The crate's answer to a request, if it has the call.
fn answer(mode: Mode, request: &str) -> Option<String> {
    let w: Vec<&str> = request.split(' ').collect();
    let count = |at: usize| w[at].parse::<usize>().unwrap();
    Some(match w[0] {
        "prefix" => prefix_answer(mode, &bytes(w[2])),
        "front" => step_answer(mode, count(2), count(3), &bytes(w[4]), |c| c.next()),
        "back" => step_answer(mode, count(2), count(3), &bytes(w[4]), |c| c.next_back()),
        "compare" => compare_answer(mode, &bytes(w[2]), &bytes(w[3])),
        "join" => join_answer(mode, count(2), &bytes(w[3]), &bytes(w[4])),
        _ => return None,
    })
}

/// How many vectors of a file were replayed.
fn replayed(mode: Mode, name: &str) -> usize {
    let file = concat!(env!("CARGO_MANIFEST_DIR"), "/../vectors/").to_string() + name;
    let text = std::fs::read_to_string(&file).unwrap();
    let mut count = 0;
    for line in text.lines().filter(|line| !line.starts_with('#')) {
        let (request, stored) = line.split_once(" -> ").unwrap();
        if let Some(ours) = answer(mode, request) {
            assert_eq!(ours, stored, "{request}");
            count += 1;
        }
    }
    count
}

#[test]
fn unix() {
    assert!(replayed(Mode::Unix, "unix.txt") > 700);
}

#[test]
fn windows() {
    assert!(replayed(Mode::Windows, "windows.txt") > 3000);
}
