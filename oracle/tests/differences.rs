//! Each listed difference with its smallest input, the comparer, the stored
//! groups, and short runs against document 01's rules and the installed std.

use oracle::compare::compare;
use oracle::listed::Listed;
use oracle::paper::Paper;
use oracle::protocol::Answerer;
use oracle::{Dir, Ext, Mode, Paths, Real, findings, stored};

/// The answer to one line, which touches that difference.
fn touches(line: &str, which: Listed) -> String {
    let mut a = Answerer::<Real>::default();
    let mut out = Vec::new();
    a.answer(line.as_bytes(), &mut out);
    assert_eq!(a.tally.count(which), 1, "{line}");
    assert_eq!(a.tally.unlisted_count(), 0, "{line}");
    String::from_utf8(out).unwrap().trim_end().to_string()
}

#[test]
fn rest_after_a_back_step_took_the_prefix() {
    assert_eq!(touches("rest 1 0 1 433a", Listed::BackTookPrefix), "0 0 0");
    assert_eq!(Real.rest_after(Mode::Windows, b"C:", 0, 1), Ext::new(0, 2));
}

#[test]
fn rest_after_absent() {
    let (_, steps) = Real.steps(Mode::Windows, b"C:.", &[Dir::Front, Dir::Front]);
    assert_eq!((steps[0].rest, steps[1].rest), (Ext::new(2, 1), Ext::new(3, 0)));
    assert!(steps[1].taken.is_none());
}

#[test]
fn prefix_from_the_back() {
    let want = "0 1 6 67 0 0 0 0 0 2 1 0 1";
    assert_eq!(touches("back 1 0 0 433a2e", Listed::PrefixFromBack), want);
    assert_eq!(Real.list_back(Mode::Windows, b"C:.")[0].ext, Ext::new(0, 3));
}

#[test]
fn places_of_empty_views() {
    assert_eq!(touches("rest 0 1 0 612f", Listed::EmptyRest), "0 1 0");
    assert_eq!(Real.rest_after(Mode::Unix, b"a/", 1, 0), Ext::new(2, 0));
    assert_eq!(touches("strip 0 612f 61", Listed::EmptyStrip), "0 1 0");
    assert_eq!(Real.strip_prefix(Mode::Unix, b"a/", b"a"), Some(Ext::new(2, 0)));
}

#[test]
fn share_without_a_place() {
    let line = "prefix 1 5c5c3f5c554e435c";
    assert_eq!(touches(line, Listed::ShareOutside), "0 2 0 8 0 8 0 8");
}

#[test]
fn extension_with_a_separator() {
    assert_eq!(touches("set-extension 0 0 - 2f", Listed::ExtensionPanic), "4 0 -");
    assert_eq!(Real.set_extension(Mode::Unix, b"", b"/"), oracle::SetExt::Separator);
}

/// Document 01, amended by request c, reads `\\?\UNC/s\h` as the Rust does.
#[test]
fn unc_with_a_slash_is_no_difference() {
    let (mut real, mut rules) = (Answerer::<Real>::default(), Answerer::<Paper>::default());
    let (mut a, mut b) = (Vec::new(), Vec::new());
    let line = b"prefix 1 5c5c3f5c554e432f735c68";
    real.answer(line, &mut a);
    rules.answer(line, &mut b);
    assert_eq!((&a[..], &b[..]), (&b"0 2 0 8 1 10 1 11\n"[..], &b"0 2 0 8 1 10 1 11\n"[..]));
    assert_eq!(real.tally.report(), "unlisted x0\n");
}

/// The program's own answers agree with themselves; a changed, a missing and
/// a left-over one are seen.
#[test]
fn the_comparer_sees_what_differs() {
    let requests = b"parent 0 612f62\nroot 0 2f\nparent 0 6".to_vec();
    let right = b"0 0 1\n0 1\n?\n".to_vec();
    let run = |answers: &[u8]| {
        let mut said = Vec::new();
        let o = compare(&mut &requests[..], &mut &answers[..], &mut said).unwrap();
        (o, String::from_utf8(said).unwrap())
    };
    assert!(run(&right).0.agreed());
    let (o, said) = run(b"0 0 1\n0 0\n?\n");
    assert!(o.differ == 1 && said.contains("root 0 `/`"), "{said}");
    assert_eq!(run(b"0 0 1\n0 1\n").0.missing, 1);
    assert_eq!(run(b"0 0 1\n0 1\n?").0.differ, 1);
    assert_eq!(run(b"0 0 1\n0 1\n?\n?\n").0.left_over, 1);
}

#[test]
fn stored_groups_are_large_enough() {
    let mut bytes = 0;
    let least = [600, 1_500, 750, 750, 1_500, 150];
    for ((name, group), least) in stored::GROUPS.iter().zip(least) {
        let mut lines = 0;
        stored::write(*group, &mut |l| {
            lines += 1;
            bytes += l.len();
        });
        assert!(lines >= least, "{name}: {lines} lines");
    }
    assert!(bytes < 1_500_000, "{bytes} bytes");
}

/// Document 01's rules give the same answers over a slice of every set, with
/// nothing unlisted.
#[test]
fn the_paper_agrees() {
    let mut said = Vec::new();
    assert!(findings::paper(&mut said, 5, (11, 83)).unwrap(), "{}", String::from_utf8_lossy(&said));
}

/// The Unix flavour against the std of the compiler that built this.
#[test]
fn a_short_run_against_the_installed_std() {
    let run = std::process::Command::new(env!("CARGO_BIN_EXE_vs_std")).args(["5", "3"]).output().unwrap();
    let said = String::from_utf8_lossy(&run.stdout);
    assert!(run.status.success() && said.ends_with("no difference\n"), "{said}");
}
