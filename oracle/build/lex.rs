//! Rust text as tokens, just finely enough to find attributes, items and
//! brackets. Joining the tokens gives the text back, byte for byte.

#[derive(Clone, Copy, PartialEq, Debug)]
pub enum K {
    Space,
    Comment,
    Doc,
    Str,   // string, byte string, char, byte
    Word,  // identifier, keyword, number, lifetime
    Punct, // one character
}

#[derive(Clone, Debug)]
pub struct Tok {
    pub k: K,
    pub s: String,
    pub line: usize,
}

pub fn lex(src: &str) -> Vec<Tok> {
    let mut out = Vec::new();
    let (mut i, mut line) = (0, 1);
    while i < src.len() {
        let (k, end) = token(src, i);
        let s = src[i..end].to_string();
        let lines = s.bytes().filter(|&c| c == b'\n').count();
        out.push(Tok { k, s, line });
        line += lines;
        i = end;
    }
    out
}

/// The first place from `i` on whose byte is not such a one.
fn past(b: &[u8], i: usize, such: impl Fn(u8) -> bool) -> usize {
    b[i..].iter().position(|&c| !such(c)).map_or(b.len(), |n| i + n)
}

/// The token that starts at `i`: its kind and its end.
fn token(src: &str, i: usize) -> (K, usize) {
    let b = src.as_bytes();
    let plain = |c: u8| c.is_ascii_alphanumeric() || c == b'_';
    if b[i].is_ascii_whitespace() {
        (K::Space, past(b, i, |c| c.is_ascii_whitespace()))
    } else if b[i..].starts_with(b"//") {
        let end = past(b, i, |c| c != b'\n');
        let t = &src[i..end];
        let doc = t.starts_with("//!") || (t.starts_with("///") && !t.starts_with("////"));
        (if doc { K::Doc } else { K::Comment }, end)
    } else if b[i..].starts_with(b"/*") {
        let end = block_end(b, i);
        let t = &src[i..end];
        let doc = t.starts_with("/*!") || (t.starts_with("/**") && t.len() > 5);
        (if doc { K::Doc } else { K::Comment }, end)
    } else if let Some(end) = string_end(b, i) {
        (K::Str, end)
    } else if b[i] == b'\'' {
        // a lifetime
        (K::Word, past(b, i + 1, plain))
    } else if plain(b[i]) || b[i] >= 0x80 {
        (K::Word, past(b, i, |c| plain(c) || c >= 0x80))
    } else {
        (K::Punct, i + 1)
    }
}

/// The end of the block comment, which may hold others, that starts at `i`.
fn block_end(b: &[u8], mut i: usize) -> usize {
    let mut depth = 0;
    loop {
        if b[i..].starts_with(b"/*") {
            depth += 1;
            i += 2;
        } else if b[i..].starts_with(b"*/") {
            depth -= 1;
            i += 2;
            if depth == 0 {
                return i;
            }
        } else {
            i += 1;
        }
    }
}

/// The end of a string-like literal that starts at `i`, if one does.
fn string_end(b: &[u8], i: usize) -> Option<usize> {
    let mut j = i;
    if b[j] == b'b' || b[j] == b'c' {
        j += 1;
    }
    match *b.get(j)? {
        b'r' => raw_end(b, j + 1),
        b'"' => {
            j += 1;
            while b[j] != b'"' {
                j += if b[j] == b'\\' { 2 } else { 1 };
            }
            Some(j + 1)
        }
        b'\'' if j == i || b[i] == b'b' => char_end(b, j),
        _ => None,
    }
}

/// The end of a raw string whose `r` stands before `j`.
fn raw_end(b: &[u8], j: usize) -> Option<usize> {
    let open = past(b, j, |c| c == b'#');
    let hashes = &b[j..open];
    if b.get(open) != Some(&b'"') {
        return None;
    }
    let mut j = open + 1;
    while b[j] != b'"' || !b[j + 1..].starts_with(hashes) {
        j += 1;
    }
    Some(j + 1 + hashes.len())
}

/// The end of a char whose quote is at `j`; None if it is a lifetime's.
fn char_end(b: &[u8], mut j: usize) -> Option<usize> {
    if b[j + 1] == b'\\' {
        j += 3;
        while b[j] != b'\'' {
            j += 1;
        }
        return Some(j + 1);
    }
    // one (possibly multi-byte) character, then a quote
    let end = past(b, j + 2, |c| c & 0xC0 == 0x80);
    (b.get(end) == Some(&b'\'')).then_some(end + 1)
}

pub fn text(t: &[Tok]) -> String {
    t.iter().map(|t| t.s.as_str()).collect()
}

/// The first token from `i` on that is neither space nor comment.
pub fn next_solid(t: &[Tok], mut i: usize) -> usize {
    while i < t.len() && matches!(t[i].k, K::Space | K::Comment | K::Doc) {
        i += 1;
    }
    i
}

pub fn is(t: &[Tok], i: usize, s: &str) -> bool {
    i < t.len() && t[i].s == s && t[i].k != K::Str && t[i].k != K::Comment
}

/// `i` is at an opening bracket; the index of its closing one.
pub fn close(t: &[Tok], i: usize) -> usize {
    let mut depth = 0usize;
    for (j, tok) in t.iter().enumerate().skip(i).filter(|(_, tok)| tok.k == K::Punct) {
        match tok.s.as_str() {
            "(" | "[" | "{" => depth += 1,
            ")" | "]" | "}" => {
                depth -= 1;
                if depth == 0 {
                    return j;
                }
            }
            _ => (),
        }
    }
    panic!("unclosed bracket, line {}", t[i].line)
}
