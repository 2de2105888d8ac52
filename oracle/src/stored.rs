//! The stored requests: small groups, each line there for a reason, whose
//! answers are kept as files. Every example and edge of document 01 is here.

use crate::gen_input::every;
use crate::sets;
use crate::sink::Sink;
use std::collections::HashSet;

type Group = fn(&mut Sink<'_>);

/// Each group's name and what asks for it; `write` leaves out what was asked.
pub const GROUPS: [(&str, Group); 6] = [
    ("prefix", prefix),
    ("steps", steps),
    ("views", views),
    ("pairs", pairs),
    ("writes", writes),
    ("broken", broken),
];

/// Hands each line of a group on, no request twice.
pub fn write(group: Group, to: &mut dyn FnMut(&[u8])) {
    let mut asked = HashSet::new();
    group(&mut Sink::new(0, 1, &mut |line| {
        if asked.insert(line.to_vec()) {
            to(line);
        }
    }));
}

/// Something in front of a path for each prefix kind, its near misses, none.
const HEADS: [&[u8]; 18] = [
    b"", b"C:", b"c:", b"1:", b"\\\\s\\h", b"//s/h", b"\\\\s", b"\\\\.\\d", b"//./", b"\\\\?\\C:",
    b"\\\\?\\C:x", b"\\\\?\\v/w", b"\\\\?\\", b"//?/C:", b"\\\\?\\UNC\\s\\h", b"\\\\?\\UNC\\s",
    b"\\\\?\\UNC\\", b"\\\\?\\UNC/s\\h",
];

/// One head of each kind, two where it may have a share or not.
const KINDS: [&[u8]; 10] = [
    b"", b"C:", b"\\\\s\\h", b"\\\\.\\d", b"\\\\?\\C:", b"\\\\?\\v", b"\\\\?\\UNC\\s\\h", b"\\\\?\\UNC\\s",
    b"\\\\?\\UNC\\", b"\\\\?\\UNC/s",
];

const TAILS: [&[u8]; 12] =
    [b"", b"\\", b"/", b".", b".\\", b"a", b"\\a", b"/a", b"\\\\a", b".\\a", b"\\..\\a.b", b"\\.\\a\\"];

/// Unix paths: empty segments, dots in each place, names with dots.
const UNIX_PATHS: [&[u8]; 34] = [
    b"", b"/", b"//", b"///", b".", b"./", b"./.", b"..", b"../", b"/.", b"/..", b"/./..", b"a", b"a/",
    b"a//", b"/a", b"//a", b"a/b", b"a//b", b"a/./b", b"a/../b", b"./a", b"././a", b"../a", b"a/.", b"a/..",
    b"/a//./b/", b"./a/../b/.", b".bashrc", b"a.", b"a.b.c", b"..a", b"...", b"a\\b",
];

fn each_head(heads: &[&[u8]], tails: &[&[u8]], f: &mut dyn FnMut(&[u8])) {
    for head in heads {
        for tail in tails {
            f(&[*head, *tail].concat());
        }
    }
}

/// E13: `/` behind `\\?\UNC`, a `/` among the first four bytes, small letters.
const NEAR_UNC: [&[u8]; 3] = [b"\\\\?\\UNC/s\\h", b"\\\\?/UNC\\s\\h", b"\\\\?\\unc\\s\\h"];

/// Mode numbers that are none, and the two that are.
const MODES: [u64; 6] = [0, 1, 2, 7, 1 << 32, u64::MAX];

// ---------------------------------------------------------------- prefixes

fn prefix(s: &mut Sink<'_>) {
    let examples: [&[u8]; 8] = [
        b"c:\\a", b"C:.", b"//?/C:/x", b"\\\\?\\C:x\\y", b"\\\\server", b"\\\\?\\UNC\\", b"\\\\?\\C:\\a",
        b"C:a",
    ];
    for p in examples.iter().copied().chain(NEAR_UNC) {
        MODES.iter().for_each(|&m| s.ask("prefix", &[m], &[p]));
    }
    each_head(&HEADS, &TAILS, &mut |p| s.ask("prefix", &[1], &[p]));
    // every string short enough to show what `\\`, a letter and `:` do
    every(b"", b"\\/.:C?", 0, 3, &mut |p| s.ask("prefix", &[1], &[p]));
    every(b"\\\\", b"\\/.?s", 1, 3, &mut |p| s.ask("prefix", &[1], &[p]));
    for letter in [b'@', b'A', b'Z', b'[', b'`', b'a', b'z', b'{', 0, 0xff] {
        s.ask("prefix", &[1], &[&[letter, b':']]);
        s.ask("prefix", &[1], &[&[b"\\\\?\\", &[letter, b':'][..]].concat()]);
    }
    every(b"\\\\?\\UNC", b"\\/sh", 1, 2, &mut |p| s.ask("prefix", &[1], &[p]));
    each_turned(&mut |p| s.ask("prefix", &[1], &[p]));
    // byte 7: the neighbours of `/` and of `\`, and the ends
    for b in [0, b'.', b'0', b'[', b']', 0xff] {
        s.ask("prefix", &[1], &[&[b"\\\\?\\UNC", &[b][..], b"s\\h"].concat()]);
    }
    for n in 1..16 {
        s.ask("prefix", &[1], &[&b"\\\\?\\UNC\\s\\h\\abcd"[..n]]);
        s.ask("prefix", &[1], &[&b"//?/UNC/s/h/abcd"[..n]]);
    }
    for n in [4_095, 4_096, 4_097, 8_192] {
        s.ask("prefix", &[1], &[&long(b"\\\\?\\UNC\\", b"s", n)]);
    }
    s.ask("prefix", &[0], &[&long(b"", b"a", 4_097)]);
    s.ask("prefix", &[2], &[&long(b"", b"a", 4_097)]);
}

/// `\\?\UNC\s\h` with any of the bytes 0 to 7 as what may be taken for it: `/`
/// for `\`, and a small letter.
fn each_turned(f: &mut dyn FnMut(&[u8])) {
    let (plain, turned) = (b"\\\\?\\UNC\\s\\h", b"//?/unc/");
    for choice in 0..1 << 7 {
        let mut p = *plain;
        for (bit, i) in [0, 1, 3, 4, 5, 6, 7].into_iter().enumerate() {
            if choice >> bit & 1 == 1 {
                p[i] = turned[i];
            }
        }
        f(&p);
    }
}

/// `head` and then `step` again and again, `n` bytes in all.
fn long(head: &[u8], step: &[u8], n: usize) -> Vec<u8> {
    head.iter().chain(step.iter().cycle()).copied().take(n).collect()
}

// ---------------------------------------------------------------- steps

fn steps(s: &mut Sink<'_>) {
    let tails: [&[u8]; 6] = [b"", b"\\", b".", b".\\a", b"\\a\\..\\b", b"/a/.\\"];
    each_head(&KINDS, &tails, &mut |p| sets::each_mixture(s, 1, p, 1));
    let unix: [&[u8]; 9] = [b"", b"/", b"//", b"a", b"a/", b"/a//./b/", b"./a/../b/.", b"./.", b"C:\\a"];
    unix.iter().for_each(|p| sets::each_mixture(s, 0, p, 1));
    let examples: [&[u8]; 6] =
        [b"c:\\a", b"//?/C:/x", b"\\\\?\\C:x\\y", b"\\\\server", b"C:.\\.\\a\\.", b"\\\\?\\C:/x\\.\\y/z"];
    examples.iter().chain(&NEAR_UNC).for_each(|p| sets::each_mixture(s, 1, p, 1));
    refused_steps(s);
}

fn refused_steps(s: &mut Sink<'_>) {
    let far = [0, 1, 2, 1 << 63, u64::MAX];
    for word in ["front", "back", "rest"] {
        for m in MODES {
            s.ask(word, &[m, 0, 0], &[b"C:\\a"]);
            s.ask(word, &[m, u64::MAX, 3], &[b"C:\\a"]);
        }
        for (f, b) in far.iter().flat_map(|f| far.iter().map(move |b| (*f, *b))) {
            s.ask(word, &[0, f, b], &[b"/a"]);
        }
        s.ask(word, &[0, 2_047, 0], &[&long(b"", b"a/", 4_096)]);
        s.ask(word, &[1, 9, 9], &[&long(b"", b"a/", 4_097)]);
    }
}

// ---------------------------------------------------------------- views

fn views(s: &mut Sink<'_>) {
    UNIX_PATHS.iter().for_each(|p| sets::each_view(s, 0, p));
    let tails: [&[u8]; 8] = [b"", b"\\", b".", b"a", b"\\a", b".\\a.b", b"\\..\\.a", b"\\.\\a.\\"];
    each_head(&KINDS, &tails, &mut |p| sets::each_view(s, 1, p));
    for p in UNIX_PATHS.iter().copied().chain([&b"C:\\"[..], b"\\a", b"\\\\s\\h"]) {
        for m in [0, 1] {
            s.ask("root", &[m], &[p]);
            s.ask("absolute?", &[m], &[p]);
        }
    }
    each_head(&HEADS, &[b"", b"\\", b"/", b"."], &mut |p| {
        s.ask("root", &[1], &[p]);
        s.ask("absolute?", &[1], &[p]);
    });
    for word in ["parent", "name", "stem", "extension", "root", "absolute?"] {
        MODES.iter().for_each(|&m| s.ask(word, &[m], &[b"a.b"]));
        s.ask(word, &[0], &[&long(b"", b"a", 4_096)]);
        s.ask(word, &[1], &[&long(b"", b"a", 4_097)]);
    }
    MODES.iter().for_each(|&m| s.ask("ancestor", &[m, 1], &[b"/a/b"]));
}

// ---------------------------------------------------------------- pairs

fn both(s: &mut Sink<'_>, m: u64, p: &[u8], q: &[u8]) {
    sets::each_test(s, m, p, q);
    sets::each_test(s, m, q, p);
}

/// One path of each kind of component and of each prefix kind.
const ONE_EACH: [&[u8]; 14] = [
    b"", b"\\\\?\\v", b"\\\\?\\w", b"\\\\?\\UNC\\s\\h", b"\\\\?\\C:", b"\\\\.\\d", b"\\\\s\\h", b"C:", b"c:",
    b"\\", b".", b"..", b"a", b"b",
];

type Pair = (&'static [u8], &'static [u8]);

const UNIX_PAIRS: [Pair; 16] = [
    (b"/maps/120", b"/maps/12"),
    (b"/a//./b/", b"/a/b"),
    (b"a/", b"a"),
    (b"a//", b"a"),
    (b"./a", b"a"),
    (b"a/b/c", b"b/c"),
    (b"/a/b", b"/b"),
    (b"/a", b"/"),
    (b"//", b"/"),
    (b"a/../b", b"a"),
    (b"a", b""),
    (b"abcd", b"abce"),
    (b"ab", b"abc"),
    (b"a/b", b"a-b"),
    (b"a\\b", b"a/b"),
    (b"\xff", b"a"),
];

const WINDOWS_PAIRS: [Pair; 21] = [
    (b"c:\\a", b"C:\\"),
    (b"C:.", b"C:"),
    (b"C:.\\a", b"C:"),
    (b"C:.\\a", b"C:a"),
    (b"C:a", b"C:\\a"),
    (b"\\\\s\\h", b"\\\\s\\h\\"),
    (b"\\\\s\\h\\a", b"//s/h"),
    (b"\\\\S\\h", b"\\\\s\\h"),
    (b"\\\\.\\d", b"\\\\.\\d\\"),
    (b"\\\\?\\C:\\a", b"C:\\a"),
    (b"\\\\?\\C:/a", b"\\\\?\\C:\\a"),
    (b"\\\\?\\v\\a/b", b"\\\\?\\v\\a"),
    (b"\\\\?\\v\\.\\a", b"\\\\?\\v\\a"),
    (b"\\\\?\\UNC\\s\\h\\a", b"\\\\?\\UNC\\s\\h"),
    (b"\\\\?\\UNC/s\\h", b"\\\\?\\UNC\\s\\h"),
    (b"\\\\?\\UNC\\s\\h\\a", b"\\\\?\\UNC/s\\h"),
    (b"\\\\?/UNC\\s\\h", b"\\\\?\\UNC\\s\\h"),
    (b"\\\\?\\unc\\s\\h", b"\\\\?\\UNC\\s\\h"),
    (b"a\\b", b"a/b"),
    (b"a\\b\\", b"b"),
    (b"\\\\server", b"\\server"),
];

fn pairs(s: &mut Sink<'_>) {
    // each against every other, so that each pair of kinds is ordered both ways
    for p in ONE_EACH {
        ONE_EACH.iter().for_each(|q| sets::each_test(s, 1, p, q));
    }
    UNIX_PAIRS.iter().for_each(|(p, q)| both(s, 0, p, q));
    WINDOWS_PAIRS.iter().for_each(|(p, q)| both(s, 1, p, q));
    for word in ["compare", "starts", "ends", "strip"] {
        MODES.iter().for_each(|&m| s.ask(word, &[m], &[b"a/b", b"a"]));
        s.ask(word, &[0], &[b"a", &long(b"", b"a", 4_097)]);
    }
    both(s, 0, &long(b"x/", b"a", 150), &long(b"x/", b"a", 151));
    s.ask("compare", &[0], &[&long(b"", b"a/", 4_096), &long(b"", b"a//", 4_096)]);
}

// ---------------------------------------------------------------- writes

/// A request with room 0, one less than the result, exactly it, and more.
fn rooms(s: &mut Sink<'_>, word: &str, m: u64, p: &[u8], q: &[u8]) {
    for room in sets::rooms(sets::length(word, m, p, q)) {
        s.ask(word, &[m, room], &[p, q]);
    }
}

fn writes(s: &mut Sink<'_>) {
    let seconds: [&[u8]; 7] = [b"", b"x", b"\\b", b"..\\b", b".\\..", b"C:x", b"/a/../b/"];
    each_head(&KINDS, &[b"", b"\\a", b"a\\", b"\\a\\.."], &mut |p| {
        seconds.iter().for_each(|q| rooms(s, "join", 1, p, q));
    });
    let long_join = b"long\\..\\b";
    rooms(s, "join", 1, b"\\\\?\\C:\\a", long_join);
    for p in NEAR_UNC {
        [&b"a"[..], b"\\b"].iter().for_each(|q| rooms(s, "join", 1, p, q));
    }
    rooms(s, "join", 1, b"C:", b"x");
    rooms(s, "join", 1, b"C:a", b"\\b");
    for p in UNIX_PATHS {
        [&b""[..], b"b", b"/b", b"./b/"].iter().for_each(|q| rooms(s, "join", 0, p, q));
        [&b""[..], b"b.c", b"/b"].iter().for_each(|q| rooms(s, "set-name", 0, p, q));
        [&b""[..], b"x", b".x", b"a/b"].iter().for_each(|q| rooms(s, "set-extension", 0, p, q));
        [&b"/w"[..], b"/", b"w"].iter().for_each(|d| rooms(s, "absolute", 0, p, d));
    }
    each_head(&KINDS, &[b"", b".", b"\\a.b", b"\\..", b"a\\"], &mut |p| {
        [&b""[..], b"x", b"\\x"].iter().for_each(|q| rooms(s, "set-name", 1, p, q));
        [&b""[..], b"x", b"a/b", b"\\"].iter().for_each(|q| rooms(s, "set-extension", 1, p, q));
    });
    absolute_examples(s);
    refused_writes(s);
}

fn absolute_examples(s: &mut Sink<'_>) {
    for (p, d) in
        [(&b"//a/./b/"[..], &b"/w"[..]), (b"///a", b"/w"), (b"./", b"/w"), (b"a", b""), (b"a", b"/w/./x/..")]
    {
        rooms(s, "absolute", 0, p, d);
    }
}

fn refused_writes(s: &mut Sink<'_>) {
    for word in ["join", "set-name", "set-extension", "absolute"] {
        for m in MODES {
            s.ask(word, &[m, 2], &[b"a", b"b"]);
            s.ask(word, &[m, 0], &[b"", b""]);
        }
        s.ask(word, &[0, 9], &[b"", &long(b"/", b"a", 4_097)]);
        s.ask(word, &[0, 9], &[&long(b"/", b"a", 4_097), b"/"]);
    }
    let (a, b) = (long(b"/", b"a", 4_096), long(b"", b"b", 4_096));
    s.ask("join", &[0, 8_193], &[&a, &b]);
    s.ask("join", &[0, 8_192], &[&a, &b]);
}

// ---------------------------------------------------------------- lines that are none

/// Every sort of broken line once, most for one request, and a good line
/// between them now and then, which is served.
fn broken(s: &mut Sink<'_>) {
    let mut seen: u64 = 0;
    sets::broken_lines(&mut |line| {
        let long = line.len() > 1_000;
        seen += 1;
        // all of `rest` and `join`, and a spread of the others
        let whole = line.starts_with(b"rest ") || line.starts_with(b"join ");
        if long && !line.starts_with(b"prefix ") {
            return;
        }
        if whole || long || line.len() < 6 || seen.is_multiple_of(16) {
            s.raw(line);
        }
        if seen.is_multiple_of(64) {
            s.ask("ancestor", &[0, seen / 64], &[b"/a/b/c/d/e/f/g/h"]);
        }
    });
}
