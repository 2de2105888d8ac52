//! The crate at its edges: every kind, every refusal, what a refusal leaves as it was.

use bridlestep::{Component, Components, Error, Kind, LONGEST, Mode, Prefix, compare, join, prefix};
use std::cmp::Ordering;

fn all(mode: Mode, path: &[u8]) -> Vec<Component<'_>> {
    Components::new(mode, path).unwrap().collect()
}

fn kinds(mode: Mode, path: &[u8]) -> Vec<Kind<'_>> {
    all(mode, path).into_iter().map(|c| c.kind).collect()
}

#[test]
fn every_prefix() {
    let of = |path: &'static [u8]| prefix(Mode::Windows, path).unwrap();
    assert_eq!(of(br"\\?\pictures\a"), Some((Prefix::Verbatim(b"pictures"), &br"\\?\pictures"[..])));
    assert_eq!(of(br"\\?\UNC\s\h\a"), Some((Prefix::VerbatimUnc(b"s", b"h"), &br"\\?\UNC\s\h"[..])));
    assert_eq!(of(br"\\?\UNC\"), Some((Prefix::VerbatimUnc(b"", b""), &br"\\?\UNC\"[..])));
    // a `/` behind \\?\UNC counts as `\`; one among the first four bytes, or small letters, make it another kind
    assert_eq!(of(br"\\?\UNC/s\h"), Some((Prefix::VerbatimUnc(b"s", b"h"), &br"\\?\UNC/s\h"[..])));
    assert_eq!(of(br"\\?/UNC\s\h"), Some((Prefix::Unc(b"?", b"UNC"), &br"\\?/UNC"[..])));
    assert_eq!(of(br"\\?\unc\s\h"), Some((Prefix::Verbatim(b"unc"), &br"\\?\unc"[..])));
    assert_eq!(of(br"\\?\d:\a"), Some((Prefix::VerbatimDisk(b'D'), &br"\\?\d:"[..])));
    assert_eq!(of(br"\\.\COM1"), Some((Prefix::DeviceNs(b"COM1"), &br"\\.\COM1"[..])));
    assert_eq!(of(b"//s/h/a"), Some((Prefix::Unc(b"s", b"h"), &b"//s/h"[..])));
    assert_eq!(of(b"z:"), Some((Prefix::Disk(b'Z'), &b"z:"[..])));
    assert_eq!(of(br"\\server"), None);
    assert_eq!(of(b""), None);
    assert_eq!(prefix(Mode::Unix, b"z:"), Ok(None));
}

#[test]
fn every_component() {
    use Kind::{CurDir, Normal, ParentDir, RootDir};
    assert_eq!(kinds(Mode::Unix, b"./a/../b/."), [CurDir, Normal, ParentDir, Normal]);
    assert_eq!(kinds(Mode::Unix, b"/"), [RootDir]);
    assert_eq!(kinds(Mode::Windows, b"C:."), [Kind::Prefix(Prefix::Disk(b'C'))]);
    assert_eq!(kinds(Mode::Windows, br"\\?\UNC/s\h"), [Kind::Prefix(Prefix::VerbatimUnc(b"s", b"h"))]);
    let share = all(Mode::Windows, br"\\s\h");
    assert_eq!(share[1], Component { kind: RootDir, bytes: b"", start: 5 });
    assert_eq!(share[1].extent(), 5..5);
    assert_eq!(all(Mode::Unix, b""), []);
}

#[test]
fn both_ends_meet() {
    let path = br"\\?\C:\a\..\b";
    let forward = all(Mode::Windows, path);
    let mut backward: Vec<_> = Components::new(Mode::Windows, path).unwrap().rev().collect();
    backward.reverse();
    assert_eq!(forward, backward);
    for front in 0..=forward.len() {
        let mut parts = Components::new(Mode::Windows, path).unwrap();
        for component in &forward[..front] {
            assert_eq!(parts.next().as_ref(), Some(component));
        }
        for component in forward[front..].iter().rev() {
            assert_eq!(parts.next_back().as_ref(), Some(component));
        }
        // a step that finds nothing moves nothing, however often it is asked
        let taken = parts.taken();
        assert_eq!(taken, (front, forward.len() - front));
        assert_eq!((parts.next(), parts.next_back(), parts.next()), (None, None, None));
        assert_eq!(parts.taken(), taken);
    }
}

#[test]
fn cursors() {
    let resume = |front, back| Components::resume(Mode::Unix, b"a/b", front, back);
    assert_eq!(resume(1, 1).unwrap().next(), None);
    assert_eq!(resume(0, 1).unwrap().next().unwrap().bytes, b"a");
    assert_eq!(resume(2, 1).unwrap_err(), Error::Cursor);
    // the sum does not wrap
    assert_eq!(resume(usize::MAX, 1).unwrap_err(), Error::Cursor);
    assert_eq!(resume(usize::MAX, usize::MAX).unwrap_err(), Error::Cursor);
}

#[test]
fn lengths() {
    let most = vec![b'x'; LONGEST];
    let over = vec![b'x'; LONGEST + 1];
    for mode in [Mode::Unix, Mode::Windows] {
        assert_eq!(all(mode, &most)[0].extent(), 0..LONGEST);
        assert_eq!(Components::new(mode, &over).unwrap_err(), Error::Length);
        // Length comes before Cursor
        assert_eq!(Components::resume(mode, &over, 9, 9).unwrap_err(), Error::Length);
        assert_eq!(prefix(mode, &most), Ok(None));
        assert_eq!(prefix(mode, &over), Err(Error::Length));
        assert_eq!(compare(mode, &most, &most), Ok(Ordering::Equal));
        assert_eq!(compare(mode, &over, b""), Err(Error::Length));
        assert_eq!(compare(mode, b"", &over), Err(Error::Length));
        let mut out = vec![0xa5; 2 * LONGEST + 1];
        assert_eq!(join(mode, &over, b"", &mut out), Err(Error::Length));
        assert_eq!(join(mode, b"", &over, &mut out), Err(Error::Length));
        assert!(out.iter().all(|&b| b == 0xa5));
        assert_eq!(join(mode, &most, &most, &mut out).unwrap().len(), 2 * LONGEST + 1);
    }
}

#[test]
fn rooms() {
    let whole = br"\\?\C:\a\b";
    for room in 0..16 {
        let mut out = [0xa5; 16];
        let joined = join(Mode::Windows, br"\\?\C:\a", br"long\..\b", &mut out[..room]).map(<[u8]>::to_vec);
        if room < whole.len() {
            assert_eq!(joined, Err(Error::Room));
            assert_eq!(out, [0xa5; 16]);
        } else {
            assert_eq!(joined.as_deref(), Ok(&whole[..]));
            assert_eq!(&out[..whole.len()], whole);
            assert!(out[whole.len()..].iter().all(|&b| b == 0xa5));
        }
    }
    assert_eq!(join(Mode::Unix, b"", b"", &mut []), Ok(&b""[..]));
}

#[test]
fn orders() {
    assert_eq!(compare(Mode::Unix, b"a", b"b"), Ok(Ordering::Less));
    assert_eq!(compare(Mode::Unix, b"b", b"a"), Ok(Ordering::Greater));
    assert_eq!(compare(Mode::Unix, b"a/./b", b"a//b/"), Ok(Ordering::Equal));
    assert_eq!(compare(Mode::Unix, br"a\b", b"a/b"), Ok(Ordering::Greater));
    assert_eq!(compare(Mode::Windows, br"a\b", b"a/b"), Ok(Ordering::Equal));
    assert_eq!(compare(Mode::Windows, br"\\?\UNC/s\h", br"\\?\UNC\s\h"), Ok(Ordering::Equal));
}

#[test]
fn errors_in_words() {
    assert_eq!(Error::Length.to_string(), "a path is longer than 4,096 bytes");
    let boxed: Box<dyn std::error::Error> = Box::new(Error::Room);
    assert_eq!(boxed.to_string(), "the joined path is longer than the buffer");
}
