//! Requests and answers as a person reads them: hex words become paths.

use crate::words::{REQUESTS, Slot, unhex};

const SHOWN: usize = 100;

/// The bytes as text: `\` stands for itself, what is not printable ASCII is
/// written `<ff>`, and a long path is cut.
pub fn path(b: &[u8]) -> String {
    let mut s = String::from("`");
    for &c in &b[..b.len().min(SHOWN)] {
        match c {
            b' '..=b'~' => s.push(c as char),
            _ => s.push_str(&format!("<{c:02x}>")),
        }
    }
    s.push('`');
    if b.len() > SHOWN {
        s.push_str(&format!(".. ({} bytes)", b.len()));
    }
    s
}

fn word_or_path(word: &[u8], is_path: bool) -> String {
    match unhex(word).filter(|_| is_path) {
        Some(b) => path(&b),
        None => path(word).trim_matches('`').to_string(),
    }
}

fn words(line: &[u8], is_path: impl Fn(usize) -> bool) -> String {
    let shown: Vec<String> =
        line.split(|&b| b == b' ').enumerate().map(|(i, w)| word_or_path(w, is_path(i))).collect();
    shown.join(" ")
}

/// A request line; one that starts with no known word is shown as it is.
pub fn request(line: &[u8]) -> String {
    words(line, |i| slots(line).get(i.wrapping_sub(1)) == Some(&Slot::Bytes))
}

fn slots(line: &[u8]) -> &'static [Slot] {
    let first = line.split(|&b| b == b' ').next().unwrap_or(b"");
    REQUESTS.iter().find(|r| r.0.as_bytes() == first).map_or(&[], |r| r.2)
}

/// An answer to that request: only the buffer of a written result is bytes.
pub fn answer(request: &[u8], line: &[u8]) -> String {
    let written = slots(request).contains(&Slot::Room);
    words(line, |i| written && i == 2)
}
