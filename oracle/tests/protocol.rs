//! The protocol's own examples, document 01's examples and edges, and every
//! sort of line that is no request.

use oracle::protocol::answer;
use oracle::sets;
use oracle::sink::Sink;

fn hex(p: &[u8]) -> String {
    if p.is_empty() { "-".into() } else { p.iter().map(|b| format!("{b:02x}")).collect() }
}

fn ask(line: &[u8]) -> String {
    let mut out = Vec::new();
    answer(line, &mut out);
    assert_eq!(out.pop(), Some(b'\n'), "an answer ends in byte 10");
    String::from_utf8(out).unwrap()
}

/// Asks with the words before the paths and the paths as they are.
fn of(words: &str, paths: &[&[u8]]) -> String {
    let mut line = words.to_string();
    for p in paths {
        line = line + " " + &hex(p);
    }
    ask(line.as_bytes())
}

/// What the list of a path is, by front steps: kind, prefix kind and extent.
fn list(m: u8, p: &[u8]) -> Vec<[usize; 4]> {
    let mut out = Vec::new();
    loop {
        let got = of(&format!("front {m} {} 0", out.len()), &[p]);
        let n: Vec<usize> = got.split(' ').map(|w| w.parse().unwrap()).collect();
        assert_eq!(n.len(), 13);
        match n[0] {
            0 => out.push([n[1], n[2], n[8], n[9]]),
            3 => return out,
            r => panic!("reply {r}"),
        }
    }
}

#[test]
fn examples_of_the_protocol() {
    for (request, want) in [
        ("prefix 1 633a5c61", "0 6 67 0 0 0 0 2"),
        ("front 0 0 0 2f61", "0 2 0 0 0 0 0 0 0 1 0 1 0"),
        ("front 0 1 1 2f61", "3 0 0 0 0 0 0 0 0 0 0 1 1"),
        ("join 0 4 61 62", "0 3 612f62a5"),
        ("join 0 2 61 62", "7 0 a5a5"),
        ("absolute 0 8 2e2f 2f77", "0 3 2f772fa5a5a5a5a5"),
        ("parent 7 61", "1 0 0"),
    ] {
        assert_eq!(ask(request.as_bytes()), want, "{request}");
        assert_eq!(ask(format!("{request}\n").as_bytes()), want, "{request} with byte 10");
    }
}

#[test]
fn places_of_empty_shares() {
    assert_eq!(of("prefix 1", &[b"\\\\?\\UNC\\s"]), "0 2 0 8 1 9 0 9");
    assert_eq!(of("prefix 1", &[b"\\\\?\\UNC\\s\\"]), "0 2 0 8 1 10 0 9");
    assert_eq!(of("prefix 1", &[b"\\\\?\\UNC\\"]), "0 2 0 8 0 8 0 8");
    assert_eq!(of("prefix 1", &[b"\\\\?\\UNC\\\\"]), "0 2 0 8 0 9 0 8");
}

#[test]
fn e1_to_e4_lists() {
    assert_eq!(list(0, b"/a//./b/"), [[2, 0, 0, 1], [5, 0, 1, 1], [5, 0, 6, 1]]);
    assert_eq!(list(0, b"./a/../b/."), [[3, 0, 0, 1], [5, 0, 2, 1], [4, 0, 4, 2], [5, 0, 7, 1]]);
    assert!(list(0, b"").is_empty() && list(1, b"").is_empty());
    assert_eq!(list(1, b"c:\\a"), [[1, 6, 0, 2], [2, 0, 2, 1], [5, 0, 3, 1]]);
    assert_eq!(of("front 1 0 0", &[b"c:\\a"]), "0 1 6 67 0 0 0 0 0 2 1 1 0");
}

#[test]
fn e5_to_e9_windows() {
    assert_eq!(of("rest 1 1 0", &[b"C:."]), "0 2 1");
    assert_eq!(list(1, b"//?/C:/x"), [[1, 5, 0, 6], [2, 0, 6, 1], [5, 0, 7, 1]]);
    assert_eq!(of("prefix 1", &[b"//?/C:/x"]), "0 5 0 2 1 4 2 6");
    assert_eq!(list(1, b"\\\\?\\C:x\\y"), [[1, 1, 0, 7], [2, 0, 7, 1], [5, 0, 8, 1]]);
    assert_eq!(of("prefix 1", &[b"\\\\?\\C:x\\y"]), "0 1 0 4 3 0 0 7");
    assert_eq!(list(1, b"\\\\server"), [[2, 0, 0, 1], [5, 0, 2, 6]]);
    assert_eq!(list(1, b"\\\\?\\UNC\\"), [[1, 2, 0, 8]]);
}

#[test]
fn e13_unc_with_a_slash() {
    assert_eq!(list(1, b"\\\\?\\UNC/s\\h"), [[1, 2, 0, 11]]);
    assert_eq!(of("prefix 1", &[b"\\\\?\\UNC/s\\h"]), "0 2 0 8 1 10 1 11");
    assert_eq!(list(1, b"\\\\?/UNC\\s\\h"), [[1, 5, 0, 7], [2, 0, 7, 1], [5, 0, 8, 1], [5, 0, 10, 1]]);
    assert_eq!(of("prefix 1", &[b"\\\\?/UNC\\s\\h"]), "0 5 0 2 1 4 3 7");
    assert_eq!(list(1, b"\\\\?\\unc\\s\\h"), [[1, 1, 0, 7], [2, 0, 7, 1], [5, 0, 8, 1], [5, 0, 10, 1]]);
    assert_eq!(of("prefix 1", &[b"\\\\?\\unc\\s\\h"]), "0 1 0 4 3 0 0 7");
}

fn written(words: &str, p: &[u8], q: &[u8], result: &[u8]) {
    let n = result.len();
    for room in [n, n + 2] {
        let got = of(&format!("{words} {room}"), &[p, q]);
        let mut buffer = result.to_vec();
        buffer.resize(room, 0xa5);
        assert_eq!(got, format!("0 {n} {}", hex(&buffer)), "{words} room {room}");
    }
    if n > 0 {
        assert_eq!(of(&format!("{words} {}", n - 1), &[p, q]), format!("7 0 {}", hex(&vec![0xa5; n - 1])));
    }
}

#[test]
fn e10_to_e12_results() {
    written("absolute 0", b"//a/./b/", b"/w", b"//a/b/");
    written("absolute 0", b"///a", b"", b"/a");
    written("join 1", b"C:", b"x", b"C:x");
    written("join 1", b"C:a", b"\\b", b"C:\\b");
    written("join 1", b"\\\\?\\C:\\a", b"long\\..\\b", b"\\\\?\\C:\\a\\b");
}

#[test]
fn edges() {
    let long = vec![b'a'; 4_097];
    assert_eq!(of("name 0", &[&long[1..]]), "0 0 4096");
    assert_eq!(of("name 0", &[&long]), "2 0 0");
    written("join 0", b"a", b"", b"a/");
    assert_eq!(of("stem 0", &[b".bashrc"]), "0 0 7");
    assert_eq!(of("extension 0", &[b".bashrc"]), "3 0 0");
    assert_eq!(of("extension 0", &[b"a."]), "0 2 0");
    written("absolute 0", b"./", b"/w", b"/w/");
    written("join 0", &long[1..], &long[1..], &[&long[1..], b"/", &long[1..]].concat());
    assert_eq!(of("strip 0", &[b"/maps/120", b"/maps/12"]), "3 0 0");
    assert_eq!(of("strip 0", &[b"/maps/12/0", b"/maps/12"]), "0 9 1");
}

#[test]
fn order_of_replies() {
    let long = vec![b'a'; 4_097];
    assert_eq!(of("front 2 9 9", &[&long]), "1 0 0 0 0 0 0 0 0 0 2 9 9");
    assert_eq!(of("front 1 9 9", &[&long]), "2 0 0 0 0 0 0 0 0 0 1 9 9");
    let far = u64::MAX;
    assert_eq!(of(&format!("back 0 {far} {far}"), &[b"a"]), format!("8 0 0 0 0 0 0 0 0 0 0 {far} {far}"));
    assert_eq!(of("rest 0 2 0", &[b"a"]), "8 0 0");
    assert_eq!(of("rest 0 1 0", &[b"a"]), "0 1 0");
    assert_eq!(of("set-extension 0 0", &[b"..", b"/"]), "4 0 -");
    assert_eq!(of("set-extension 1 1", &[b"\\\\?\\v\\a", b"/"]), "4 0 a5");
    assert_eq!(of("set-extension 0 0", &[b"..", b"x"]), "3 0 -");
    assert_eq!(of("set-extension 0 0", &[b"a", b"x"]), "7 0 -");
    assert_eq!(of("absolute 1 0", &[b"", b""]), "1 0 -");
    assert_eq!(of("absolute 0 0", &[b"", &long]), "2 0 -");
    assert_eq!(of("absolute 0 0", &[b"", b"w"]), "5 0 -");
    assert_eq!(of("absolute 0 0", &[b"a", b"w"]), "6 0 -");
    assert_eq!(of("absolute 0 1", &[b"/", b"w"]), "0 1 2f");
    assert_eq!(of("join 0 0", &[b"", b""]), "0 0 -");
}

#[test]
fn numbers_as_words() {
    assert_eq!(ask(b"parent 00000000000000000000 612f62"), "0 0 1");
    assert_eq!(ask(b"parent 18446744073709551615 61"), "1 0 0");
    assert_eq!(ask(b"ancestor 0 18446744073709551615 61"), "3 0 0");
    assert_eq!(ask(b"front 0 007 01 61"), "8 0 0 0 0 0 0 0 0 0 0 7 1");
    assert_eq!(of("parent 0", &[&vec![b'a'; 8_192]]), "2 0 0");
    assert_eq!(ask(b"join 0 65537 - -"), "?");
    let most = ask(b"join 0 65536 - -");
    assert_eq!(most.len(), "0 0 ".len() + 2 * 65_536);
}

#[test]
fn lines_that_are_none() {
    for line in [
        &b""[..],
        b" ",
        b"parent",
        b"parent 0",
        b"parent 0 61 ",
        b" parent 0 61",
        b"parent  0 61",
        b"parent 0  61",
        b"parent 0 61 61",
        b"parent\t0 61",
        b"parent 0 61\r",
        b"Parent 0 61",
        b"parent 0 6",
        b"parent 0 616",
        b"parent 0 6A",
        b"parent 0 6g",
        b"parent 0 ",
        b"parent - 61",
        b"parent +0 61",
        b"parent -1 61",
        b"parent 18446744073709551616 61",
        b"parent 000000000000000000000 61",
        b"parent 9 6X",
        b"walk 0 61",
        b"join 0 3 61",
        b"join 0 3 61 62 63",
        b"join 0 - 61 62",
        b"parent 0 --",
        b"parent 0 61\0",
    ] {
        assert_eq!(ask(line), "?", "{}", line.escape_ascii());
    }
    assert_eq!(of("parent 0", &[&vec![b'a'; 8_193]]), "?");
    assert_eq!(ask(&vec![b'a'; 33_001]), "?");
}

/// The set `broken` is a broken line and a good one by turns.
#[test]
fn broken_set() {
    let mut seen = 0;
    let set = sets::find("broken").unwrap();
    let mut check = |line: &[u8]| {
        assert_eq!(ask(line) == "?", seen % 2 == 0, "{}", line.escape_ascii());
        seen += 1;
    };
    (set.write)(&mut Sink::new(0, 1, &mut check), &sets::Plan { seed: 1, count: None });
    assert!(seen > 1_000);
}
