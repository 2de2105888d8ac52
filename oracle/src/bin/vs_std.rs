//! The Unix flavour against the std::path of the rustc that compiles this.
//! usage: vs_std [random cases in thousands] [seed]

#![cfg_attr(feature = "unstable-std", feature(normalize_lexically))]

use oracle::gen_input::*;
use oracle::*;
use std::collections::BTreeMap;
use std::ffi::OsStr;
use std::os::unix::ffi::{OsStrExt, OsStringExt};
use std::path::{Component, Components, Path};

fn path(p: &[u8]) -> &Path {
    Path::new(OsStr::from_bytes(p))
}

fn place(p: &[u8], part: &[u8]) -> Ext {
    Ext::new(part.as_ptr() as usize - p.as_ptr() as usize, part.len())
}

fn ext(p: &[u8], x: Option<&OsStr>) -> Option<Ext> {
    x.map(|s| place(p, s.as_bytes()))
}

fn kind(c: Component<'_>) -> Kind {
    match c {
        Component::Prefix(_) => unreachable!(),
        Component::RootDir => Kind::RootDir,
        Component::CurDir => Kind::CurDir,
        Component::ParentDir => Kind::ParentDir,
        Component::Normal(s) => Kind::Normal(s.as_bytes().to_vec()),
    }
}

#[derive(Default)]
struct Check {
    cases: u64,
    answers: u64,
    diffs: BTreeMap<&'static str, (u64, String)>,
}

impl Check {
    fn same<T: PartialEq + std::fmt::Debug>(
        &mut self,
        what: &'static str,
        p: &[u8],
        q: &[u8],
        real: T,
        std: T,
    ) {
        self.answers += 1;
        if real != std {
            let e = self.diffs.entry(what).or_insert_with(|| {
                (0, format!("p={} q={} oracle={real:?} std={std:?}", p.escape_ascii(), q.escape_ascii()))
            });
            e.0 += 1;
        }
    }

    fn walk(&mut self, p: &[u8], w: &unix::glue::Walk<'_>, c: &Components<'_>, depth: usize) {
        self.same("as_path", p, b"", w.rest(), place(p, c.as_path().as_os_str().as_bytes()));
        if depth == 0 {
            return;
        }
        for d in [Dir::Front, Dir::Back] {
            let (mut w2, mut c2) = (w.clone(), c.clone());
            let a = w2.step(d);
            let b = if d == Dir::Front { c2.next() } else { c2.next_back() };
            if let (Some(x), Some(Component::Normal(s))) = (&a, &b) {
                self.same("extent", p, b"", x.ext, place(p, s.as_bytes()));
            }
            self.same("step", p, b"", a.map(|x| x.kind), b.map(kind));
            self.walk(p, &w2, &c2, depth - 1);
        }
    }

    fn one(&mut self, p: &[u8], cwd: &[u8]) {
        self.cases += 1;
        let x = path(p);
        let m = Mode::Unix;
        let n = x.components().count();
        self.same(
            "list",
            p,
            b"",
            Real.list(m, p).into_iter().map(|c| c.kind).collect::<Vec<_>>(),
            x.components().map(kind).collect(),
        );
        self.walk(p, &unix::glue::Walk::new(p), &x.components(), (n + 2).min(8));
        self.same("parent", p, b"", Real.parent(m, p), ext(p, x.parent().map(|a| a.as_os_str())));
        self.same(
            "ancestors",
            p,
            b"",
            Real.ancestors(m, p),
            x.ancestors().map(|a| place(p, a.as_os_str().as_bytes())).collect(),
        );
        self.views(p);
        self.absolutes(p, cwd);
    }

    fn views(&mut self, p: &[u8]) {
        let (m, x) = (Mode::Unix, path(p));
        self.same("file_name", p, b"", Real.file_name(m, p), ext(p, x.file_name()));
        self.same("file_stem", p, b"", Real.file_stem(m, p), ext(p, x.file_stem()));
        self.same("extension", p, b"", Real.extension(m, p), ext(p, x.extension()));
        self.same("has_root", p, b"", Real.has_root(m, p), x.has_root());
        self.same("is_absolute", p, b"", Real.is_absolute(m, p), x.is_absolute());
    }

    fn absolutes(&mut self, p: &[u8], cwd: &[u8]) {
        let x = path(p);
        self.same(
            "absolute",
            p,
            cwd,
            Real.absolute(p, cwd),
            std::path::absolute(x).ok().map(|b| b.into_os_string().into_vec()),
        );
        #[cfg(feature = "unstable-std")]
        self.same(
            "normalize",
            p,
            b"",
            Real.normalize(Mode::Unix, p),
            x.normalize_lexically().ok().map(|b| b.into_os_string().into_vec()),
        );
    }

    fn two(&mut self, p: &[u8], q: &[u8]) {
        self.cases += 1;
        let m = Mode::Unix;
        let (x, y) = (path(p), path(q));
        self.same("cmp", p, q, Real.cmp(m, p, q), x.cmp(y));
        self.same("eq", p, q, Real.eq(m, p, q), x == y);
        self.same("starts_with", p, q, Real.starts_with(m, p, q), x.starts_with(y));
        self.same("ends_with", p, q, Real.ends_with(m, p, q), x.ends_with(y));
        self.same(
            "strip_prefix",
            p,
            q,
            Real.strip_prefix(m, p, q),
            ext(p, x.strip_prefix(y).ok().map(|a| a.as_os_str())),
        );
        self.results(p, q);
        if !q.contains(&b'/') {
            self.extensions(p, q);
        }
    }

    fn results(&mut self, p: &[u8], q: &[u8]) {
        let (m, x, y) = (Mode::Unix, path(p), path(q));
        self.same("join", p, q, Real.join(m, p, q), x.join(y).into_os_string().into_vec());
        self.same("set_file_name", p, q, Real.set_file_name(m, p, q), {
            let mut b = x.to_path_buf();
            b.set_file_name(OsStr::from_bytes(q));
            b.into_os_string().into_vec()
        });
        self.same(
            "with_file_name",
            p,
            q,
            Real.with_file_name(m, p, q),
            x.with_file_name(OsStr::from_bytes(q)).into_os_string().into_vec(),
        );
    }

    /// For a `q` without a separator, which would make both calls panic.
    fn extensions(&mut self, p: &[u8], q: &[u8]) {
        let (m, x) = (Mode::Unix, path(p));
        let mut b = x.to_path_buf();
        let done = b.set_extension(OsStr::from_bytes(q));
        let want = if done { SetExt::Done(b.into_os_string().into_vec()) } else { SetExt::NoStem };
        self.same("set_extension", p, q, Real.set_extension(m, p, q), want);
        self.same(
            "with_extension",
            p,
            q,
            Real.with_extension(m, p, q),
            Some(x.with_extension(OsStr::from_bytes(q)).into_os_string().into_vec()),
        );
    }

    fn say(&self) {
        println!(
            "{} cases, {} answers compared, differences: {}",
            self.cases,
            self.answers,
            self.diffs.len()
        );
    }
}

fn exhaustive(c: &mut Check) {
    for cwd in ["/", "/tmp", "/usr/lib"] {
        std::env::set_current_dir(cwd).unwrap();
        every(b"", b"/.a\\", 0, 7, &mut |p| c.one(p, cwd.as_bytes()));
        every(b"", b"/\\.a:?CUN", 0, 5, &mut |p| c.one(p, cwd.as_bytes()));
        every(b"", b"/.a", 0, 9, &mut |p| c.one(p, cwd.as_bytes()));
        c.say();
    }
    let mut all = Vec::new();
    every(b"", b"/.a", 0, 6, &mut |p| all.push(p.to_vec()));
    every(b"", b"\\b:", 1, 3, &mut |p| all.push(p.to_vec()));
    every(b"", b"/.ab", 4, 4, &mut |p| all.push(p.to_vec()));
    for p in &all {
        all.iter().for_each(|q| c.two(p, q));
    }
    c.say();
}

fn main() {
    let mut args = std::env::args().skip(1);
    let thousands: u64 = args.next().map_or(2000, |a| a.parse().unwrap());
    let seed: u64 = args.next().map_or(1, |a| a.parse().unwrap());
    println!("{}\nagainst the std of {}", oracle::SOURCE, oracle::RUSTC);
    let mut c = Check::default();
    exhaustive(&mut c);
    let mut r = Rng(seed.wrapping_mul(0x9E3779B97F4A7C15) | 1);
    let (mut p, mut q) = (Vec::new(), Vec::new());
    for _ in 0..thousands * 1000 {
        random(&mut r, 12, &mut p);
        c.one(&p, b"/usr/lib");
        related(&mut r, &p, 8, &mut q);
        c.two(&p, &q);
        c.two(&q, &p);
    }
    c.say();
    for (k, (n, e)) in &c.diffs {
        println!("DIFF {k} x{n}: {e}");
    }
    if c.diffs.is_empty() {
        println!("no difference");
    } else {
        std::process::exit(1);
    }
}
