//! The calls that are timed, in the library's form and in the Rust's: the same
//! question on the same inputs.

use crate::inputs::{HEADS, Input, VARIANTS};
use crate::ours;
use oracle::types::Mode;
use std::hint::black_box;

/// How many of a path's components lie before the one that is asked for.
#[derive(Clone, Copy, PartialEq, Eq, Debug)]
pub enum Place {
    First,
    Half,
    Last,
}

impl Place {
    fn of(self, count: usize) -> usize {
        match self {
            Place::First => 0,
            Place::Half => count / 2,
            Place::Last => count - 1,
        }
    }
}

#[derive(Clone, Copy, PartialEq, Eq, Debug)]
pub enum Call {
    /// of the n-th head of `inputs::HEADS`
    Prefix(usize),
    Front(Place),
    Back(Place),
    /// the rest with nothing taken, and with half of all taken, as many from either end
    Whole,
    Rest,
    Parent,
    Ancestor,
    FileName,
    FileStem,
    Extension,
    HasRoot,
    IsAbsolute,
    CompareSame,
    CompareNear,
    CompareFar,
    Starts,
    Ends,
    Strip,
    Join,
    JoinVerbatim,
    SetFileName,
    SetExtension,
    AbsolutePath,
    AbsoluteRelative,
}

/// Every call, in the order of the table.
pub fn calls(mode: Mode) -> Vec<Call> {
    let mut all = Vec::new();
    if mode == Mode::Windows {
        all.extend((0..HEADS.len()).map(Call::Prefix));
    }
    for place in [Place::First, Place::Half, Place::Last] {
        all.push(Call::Front(place));
    }
    for place in [Place::First, Place::Half, Place::Last] {
        all.push(Call::Back(place));
    }
    all.extend([
        Call::Whole,
        Call::Rest,
        Call::Parent,
        Call::Ancestor,
        Call::FileName,
        Call::FileStem,
        Call::Extension,
        Call::HasRoot,
        Call::IsAbsolute,
        Call::CompareSame,
        Call::CompareNear,
        Call::CompareFar,
        Call::Starts,
        Call::Ends,
        Call::Strip,
        Call::Join,
    ]);
    if mode == Mode::Windows {
        all.push(Call::JoinVerbatim);
    }
    all.extend([Call::SetFileName, Call::SetExtension]);
    if mode == Mode::Unix {
        all.extend([Call::AbsolutePath, Call::AbsoluteRelative]);
    }
    all
}

impl Call {
    pub fn name(self) -> String {
        let at = |p: Place| match p {
            Place::First => "nearest",
            Place::Half => "half way",
            Place::Last => "farthest",
        };
        let fixed = match self {
            Call::Prefix(head) => return format!("`prefix`, {}", HEADS[head].0),
            Call::Front(p) => return format!("`next`, {}", at(p)),
            Call::Back(p) => return format!("`next_back`, {}", at(p)),
            Call::Whole => "`as_path`, nothing taken",
            Call::Rest => "`as_path`, half taken",
            Call::Parent => "`parent`",
            Call::Ancestor => "`ancestor`, half way up",
            Call::FileName => "`file_name`",
            Call::FileStem => "`file_stem`",
            Call::Extension => "`extension`",
            Call::HasRoot => "`has_root`",
            Call::IsAbsolute => "`is_absolute`",
            Call::CompareSame => "`compare`, equal",
            Call::CompareNear => "`compare`, last byte differs",
            Call::CompareFar => "`compare`, first name differs",
            Call::Starts => "`starts_with`, half",
            Call::Ends => "`ends_with`, half",
            Call::Strip => "`strip_prefix`, half",
            Call::Join => "`join`",
            Call::JoinVerbatim => "`join`, verbatim",
            Call::SetFileName => "`set_file_name`",
            Call::SetExtension => "`set_extension`",
            Call::AbsolutePath => "`absolute`, of an absolute path",
            Call::AbsoluteRelative => "`absolute`, of a relative path",
        };
        fixed.to_string()
    }
}

/// Runs a call that many times, over the variants by turns.
pub type Timed<'a> = Box<dyn FnMut(usize) + 'a>;

/// What a call answers is looked at where it stands: nothing is copied.
fn timed<'a, T>(inputs: &'a [Input], mut f: impl FnMut(&'a Input) -> T + 'a) -> Timed<'a> {
    assert_eq!(inputs.len(), VARIANTS);
    Box::new(move |times| {
        for n in 0..times {
            let answer = f(black_box(&inputs[n % VARIANTS]));
            black_box(&answer);
        }
    })
}

/// A call of the Rust's stays a call, as one of the archive's does: it is not
/// taken into the loop that times it.
#[inline(never)]
fn called<'a, T>(f: &mut impl FnMut(&'a Input) -> T, x: &'a Input) -> T {
    f(x)
}

fn rust<'a, T>(inputs: &'a [Input], mut f: impl FnMut(&'a Input) -> T + 'a) -> Timed<'a> {
    timed(inputs, move |x| called(&mut f, x))
}

/// The library's calls, whose numbers come back through an array.
fn numbered<'a, const N: usize>(
    inputs: &'a [Input],
    mut f: impl FnMut(&'a Input, &mut [usize; N]) -> usize + 'a,
) -> Timed<'a> {
    let mut answer = [0; N];
    timed(inputs, move |x| {
        let reply = f(x, &mut answer);
        black_box(&answer);
        reply
    })
}

/// Longer than any result that is timed.
const ROOM: usize = 8_400;
pub const CWD: &[u8] = b"/home/cab/maps/2026";
pub const FILE_NAME: &[u8] = b"dose-12.map";
pub const EXTENSION: &[u8] = b"bin";

/// The library's form.
pub fn ours<'a>(call: Call, mode: Mode, i: &'a [Input]) -> Timed<'a> {
    // a number that the compiler does not know
    let m = black_box(mode as usize);
    let mut out = vec![0; ROOM];
    match call {
        Call::Prefix(head) => numbered(i, move |x, n| ours::prefix(m, &x.prefixed[head], n)),
        Call::Front(at) => numbered(i, move |x, n| ours::next(m, at.of(x.count), 0, &x.p, n)),
        Call::Back(at) => numbered(i, move |x, n| ours::next_back(m, 0, at.of(x.count), &x.p, n)),
        Call::Whole => numbered(i, move |x, n| ours::as_path(m, 0, 0, &x.p, n)),
        Call::Rest => numbered(i, move |x, n| ours::as_path(m, x.count / 4, x.count / 4, &x.p, n)),
        Call::Parent => numbered(i, move |x, n| ours::parent(m, &x.p, n)),
        Call::Ancestor => numbered(i, move |x, n| ours::ancestor(m, x.count / 2, &x.p, n)),
        Call::FileName => numbered(i, move |x, n| ours::file_name(m, &x.p, n)),
        Call::FileStem => numbered(i, move |x, n| ours::file_stem(m, &x.p, n)),
        Call::Extension => numbered(i, move |x, n| ours::extension(m, &x.p, n)),
        Call::HasRoot => numbered(i, move |x, n| ours::has_root(m, &x.p, n)),
        Call::IsAbsolute => numbered(i, move |x, n| ours::is_absolute(m, &x.p, n)),
        Call::CompareSame => numbered(i, move |x, n| ours::compare(m, &x.p, &x.same, n)),
        Call::CompareNear => numbered(i, move |x, n| ours::compare(m, &x.p, &x.near, n)),
        Call::CompareFar => numbered(i, move |x, n| ours::compare(m, &x.p, &x.far, n)),
        Call::Starts => numbered(i, move |x, n| ours::starts_with(m, &x.p, &x.base, n)),
        Call::Ends => numbered(i, move |x, n| ours::ends_with(m, &x.p, &x.tail, n)),
        Call::Strip => numbered(i, move |x, n| ours::strip_prefix(m, &x.p, &x.base, n)),
        Call::Join => numbered(i, move |x, n| ours::join(m, &x.p, &x.q, &mut out, n)),
        Call::JoinVerbatim => numbered(i, move |x, n| ours::join(m, &x.verbatim, &x.up, &mut out, n)),
        Call::SetFileName => numbered(i, move |x, n| ours::set_file_name(m, &x.p, FILE_NAME, &mut out, n)),
        Call::SetExtension => numbered(i, move |x, n| ours::set_extension(m, &x.p, EXTENSION, &mut out, n)),
        Call::AbsolutePath => numbered(i, move |x, n| ours::absolute(m, &x.p, CWD, &mut out, n)),
        Call::AbsoluteRelative => numbered(i, move |x, n| ours::absolute(m, &x.relative, CWD, &mut out, n)),
    }
}

/// The Rust's forms of the calls that both flavours have. Where the Rust hands
/// out a PathBuf, there are two: one made anew each time, and one with enough
/// capacity that is used again.
macro_rules! flavour {
    ($name:ident, $text:path, $strings:path) => {
        mod $name {
            use super::{Call, EXTENSION, FILE_NAME, Input, ROOM, Timed, rust};
            #[allow(unused_imports)]
            use std::os::unix::ffi::OsStrExt;
            use strings::OsStr;
            use text::{Component, Path, PathBuf};
            use $strings as strings;
            use $text as text;

            pub fn path(b: &[u8]) -> &Path {
                Path::new(OsStr::from_bytes(b))
            }

            pub fn front(b: &[u8], before: usize) -> Option<Component<'_>> {
                let mut c = path(b).components();
                for _ in 0..before {
                    c.next();
                }
                c.next()
            }

            fn back(b: &[u8], behind: usize) -> Option<Component<'_>> {
                let mut c = path(b).components();
                for _ in 0..behind {
                    c.next_back();
                }
                c.next_back()
            }

            fn rest(b: &[u8], n: usize) -> &Path {
                let mut c = path(b).components();
                for _ in 0..n {
                    c.next();
                }
                for _ in 0..n {
                    c.next_back();
                }
                c.as_path()
            }

            /// Sets a used buffer to p and changes it; how long it is then.
            fn reused<'a>(
                i: &'a [Input],
                p: impl Fn(&'a Input) -> &'a [u8] + 'a,
                change: impl Fn(&'a Input, &mut PathBuf) + 'a,
            ) -> Timed<'a> {
                let mut buffer = PathBuf::with_capacity(ROOM);
                rust(i, move |x| {
                    buffer.clear();
                    buffer.as_mut_os_string().push(OsStr::from_bytes(p(x)));
                    change(x, &mut buffer);
                    buffer.as_os_str().len()
                })
            }

            pub fn forms<'a>(call: Call, i: &'a [Input]) -> Vec<Timed<'a>> {
                let (name, extension) = (OsStr::from_bytes(FILE_NAME), OsStr::from_bytes(EXTENSION));
                let one = match call {
                    Call::Front(at) => rust(i, move |x| front(&x.p, at.of(x.count))),
                    Call::Back(at) => rust(i, move |x| back(&x.p, at.of(x.count))),
                    Call::Whole => rust(i, |x| rest(&x.p, 0)),
                    Call::Rest => rust(i, |x| rest(&x.p, x.count / 4)),
                    Call::Parent => rust(i, |x| path(&x.p).parent()),
                    Call::Ancestor => rust(i, |x| path(&x.p).ancestors().nth(x.count / 2)),
                    Call::FileName => rust(i, |x| path(&x.p).file_name()),
                    Call::FileStem => rust(i, |x| path(&x.p).file_stem()),
                    Call::Extension => rust(i, |x| path(&x.p).extension()),
                    Call::HasRoot => rust(i, |x| path(&x.p).has_root()),
                    Call::IsAbsolute => rust(i, |x| path(&x.p).is_absolute()),
                    Call::CompareSame => rust(i, |x| path(&x.p).cmp(path(&x.same))),
                    Call::CompareNear => rust(i, |x| path(&x.p).cmp(path(&x.near))),
                    Call::CompareFar => rust(i, |x| path(&x.p).cmp(path(&x.far))),
                    Call::Starts => rust(i, |x| path(&x.p).starts_with(path(&x.base))),
                    Call::Ends => rust(i, |x| path(&x.p).ends_with(path(&x.tail))),
                    Call::Strip => rust(i, |x| path(&x.p).strip_prefix(path(&x.base)).ok()),
                    Call::Join => {
                        return vec![
                            rust(i, |x| path(&x.p).join(path(&x.q))),
                            reused(i, |x| &x.p, |x, b| b.push(path(&x.q))),
                        ];
                    }
                    Call::JoinVerbatim => {
                        return vec![
                            rust(i, |x| path(&x.verbatim).join(path(&x.up))),
                            reused(i, |x| &x.verbatim, |x, b| b.push(path(&x.up))),
                        ];
                    }
                    Call::SetFileName => {
                        return vec![
                            rust(i, move |x| path(&x.p).with_file_name(name)),
                            reused(i, |x| &x.p, move |_, b| b.set_file_name(name)),
                        ];
                    }
                    Call::SetExtension => {
                        return vec![
                            rust(i, move |x| path(&x.p).with_extension(extension)),
                            reused(i, |x| &x.p, move |_, b| assert!(b.set_extension(extension))),
                        ];
                    }
                    Call::Prefix(_) | Call::AbsolutePath | Call::AbsoluteRelative => return Vec::new(),
                };
                vec![one]
            }
        }
    };
}

flavour!(installed, std::path, std::ffi);
flavour!(unix, oracle::unix::path, oracle::unix::ffi);
flavour!(windows, oracle::windows::path, oracle::windows::ffi);

/// The Rust's forms: on Unix of the installed std and of the oracle's text, on
/// Windows of the oracle's text.
pub fn rusts<'a>(call: Call, mode: Mode, i: &'a [Input]) -> Vec<Timed<'a>> {
    oracle::unix::env::set_current_dir(CWD);
    match (call, mode) {
        // what a user writes, and what the text itself calls
        (Call::Prefix(head), _) => vec![
            rust(i, move |x| windows::front(&x.prefixed[head], 0)),
            rust(i, move |x| windows::path(&x.prefixed[head]).oracle_prefix()),
        ],
        // the installed std asks the operating system for the directory
        (Call::AbsolutePath, _) => vec![
            rust(i, |x| std::path::absolute(installed::path(&x.p))),
            rust(i, |x| oracle::unix::path::absolute(unix::path(&x.p))),
        ],
        (Call::AbsoluteRelative, _) => {
            vec![rust(i, |x| oracle::unix::path::absolute(unix::path(&x.relative)))]
        }
        (_, Mode::Windows) => windows::forms(call, i),
        (_, Mode::Unix) => {
            let mut forms = installed::forms(call, i);
            forms.extend(unix::forms(call, i));
            forms
        }
    }
}
