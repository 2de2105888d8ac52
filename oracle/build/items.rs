//! Step 5 of the change: the text as items, and which of them are dropped.

use crate::lex::{K, Tok, close, is, lex, next_solid, text};
use crate::strip::strip;
use std::collections::BTreeMap;
use std::fmt::Write as _;

/// An item, or a member of an impl.
pub struct Item {
    pub header: String,
    pub line: usize,
    pub toks: Vec<Tok>,
}

/// Cuts a token run into items.
pub fn items(t: &[Tok]) -> Vec<Item> {
    let mut out = Vec::new();
    let mut start = 0;
    loop {
        // attributes and spaces before the item belong to it
        let mut h = next_solid(t, start);
        while is(t, h, "#") {
            h = next_solid(t, close(t, h + 1) + 1);
        }
        if h >= t.len() {
            return out;
        }
        let (header_end, end) = item_end(t, h);
        let words = text(&t[h..header_end]);
        let header = words.split_whitespace().collect::<Vec<_>>().join(" ");
        out.push(Item { header, line: t[h].line, toks: t[start..=end].to_vec() });
        start = end + 1;
    }
}

/// Where the header of the item at `h` ends, and the item's last token.
fn item_end(t: &[Tok], h: usize) -> (usize, usize) {
    let by_semicolon = ends_by_semicolon(t, h);
    let mut j = h;
    loop {
        if t[j].k == K::Punct {
            match t[j].s.as_str() {
                ";" => return (j, j),
                "{" if !by_semicolon => return (j, close(t, j)),
                "(" | "[" | "{" => j = close(t, j),
                _ => (),
            }
        }
        j += 1;
    }
}

/// Whether the word that decides it says that braces do not end the item.
fn ends_by_semicolon(t: &[Tok], mut w: usize) -> bool {
    loop {
        let next = next_solid(t, w + 1);
        match t[w].s.as_str() {
            "pub" if is(t, next, "(") => w = next_solid(t, close(t, next) + 1),
            "pub" | "unsafe" => w = next,
            "const" if is(t, next, "fn") || is(t, next, "unsafe") => w = next,
            "const" | "use" | "static" | "type" => return true,
            _ => return false,
        }
    }
}

/// Items of path.rs dropped whole: the header contains this.
const DROP_ITEMS: &[&str] = &[
    "CloneToUninit", // the use line and the impl
    "Box<Path>", "Rc<Path>", "Arc<Path>", "Cow<'a, Path>", "Cow<'_, Path>", "Cow<'_, OsStr>", "for Display<",
    "pub struct Display<", "fmt::Display for", "impl Error for", "fmt::Debug for Components",
    "fmt::Debug for Iter", "FromStr for PathBuf", "use crate::FLAVOUR::rc::Rc",
    "use crate::FLAVOUR::sync::Arc", "use crate::FLAVOUR::error::Error", "use crate::FLAVOUR::str::FromStr",
    "use crate::FLAVOUR::collections::TryReserveError",
];

/// Members of `impl Path` dropped whole, by name.
const DROP_PATH_FNS: &[&str] = &[
    "as_mut_os_str", "to_str", "to_string_lossy", "with_trailing_sep", // answers a Cow
    "display", "metadata", "symlink_metadata", "canonicalize", "read_link", "read_dir", "exists",
    "try_exists", "is_file", "is_dir", "is_symlink", "into_path_buf",
];

/// Members of `impl PathBuf` dropped whole.
const DROP_PATHBUF_FNS: &[&str] = &[
    "leak", "into_string", "into_boxed_path", "try_reserve", "try_reserve_exact", "shrink_to_fit",
    "shrink_to", "capacity", "reserve", "reserve_exact",
];

/// `extend_one` is unstable in the trait.
const DROP_EXTEND_FNS: &[&str] = &["extend_one"];

/// Dropped in the Windows flavour only: they end in GetFullPathNameW.
const DROP_WINDOWS_ITEMS: &[&str] = &["pub fn absolute<"];
const DROP_WINDOWS_PATH_FNS: &[&str] = &["absolute"];

/// What was dropped so far, so that a list entry that matches nothing is seen.
#[derive(Default)]
struct Drops {
    used: BTreeMap<String, usize>,
    report: String,
}

impl Drops {
    fn note(&mut self, pattern: &str, line: usize, what: &str) {
        *self.used.entry(pattern.to_string()).or_insert(0) += 1;
        writeln!(self.report, "  {line:5}  {what}").unwrap();
    }
    fn check(&self, pattern: &str) {
        assert!(
            self.used.contains_key(pattern),
            "drop list entry {pattern:?} matches nothing in this source"
        );
    }

    /// The impl without the members named.
    fn members(&mut self, body: &[Tok], owner: &str, names: &[&str]) -> String {
        let open = body.iter().position(|t| t.k == K::Punct && t.s == "{").unwrap();
        let last = close(body, open);
        let mut s = text(&body[..=open]);
        for item in items(&body[open + 1..last]) {
            match fn_name(&item.header) {
                Some(n) if names.contains(&n) => {
                    let what = format!("{owner}::{n}");
                    self.note(&what, item.line, &what);
                }
                _ => s += &text(&item.toks),
            }
        }
        for n in names {
            self.check(&format!("{owner}::{n}"));
        }
        s + "\n}"
    }
}

fn fn_name(header: &str) -> Option<&str> {
    let at = header.find("fn ")? + 3;
    let rest = &header[at..];
    let end = rest.find(|c: char| !(c.is_ascii_alphanumeric() || c == '_')).unwrap_or(rest.len());
    Some(&rest[..end])
}

/// path.rs for one flavour.
pub fn path_rs(src: &str, flavour: &str, report: &mut String) -> String {
    let mut patterns: Vec<String> = DROP_ITEMS.iter().map(|p| p.replace("FLAVOUR", flavour)).collect();
    let mut path_fns = DROP_PATH_FNS.to_vec();
    if flavour == "windows" {
        patterns.extend(DROP_WINDOWS_ITEMS.iter().map(|p| p.to_string()));
        path_fns.extend(DROP_WINDOWS_PATH_FNS);
    }
    let mut d = Drops::default();
    let mut out = String::new();
    for item in items(&strip(&lex(src), flavour)) {
        if let Some(p) = patterns.iter().find(|p| item.header.contains(p.as_str())) {
            d.note(p, item.line, &item.header);
            continue;
        }
        out += &match item.header.as_str() {
            "impl Path" => d.members(&item.toks, "Path", &path_fns),
            "impl PathBuf" => d.members(&item.toks, "PathBuf", DROP_PATHBUF_FNS),
            "impl<P: AsRef<Path>> Extend<P> for PathBuf" => d.members(&item.toks, "Extend", DROP_EXTEND_FNS),
            _ => text(&item.toks),
        };
    }
    patterns.iter().for_each(|p| d.check(p));
    writeln!(report, "path.rs, {flavour} flavour; dropped (source line, item):").unwrap();
    report.push_str(&d.report);
    out
}

/// Of a small file only the items whose header starts with one of `keep`.
pub fn only(src: &str, flavour: &str, what: &str, keep: &[&str], report: &mut String) -> String {
    let mut used = vec![false; keep.len()];
    let mut out = String::new();
    writeln!(report, "{what}; dropped:").unwrap();
    for item in items(&strip(&lex(src), flavour)) {
        match keep.iter().position(|k| item.header.starts_with(k)) {
            Some(k) => {
                used[k] = true;
                out += &text(&item.toks);
            }
            None => writeln!(report, "  {:5}  {}", item.line, item.header).unwrap(),
        }
    }
    for (k, u) in keep.iter().zip(used) {
        assert!(u, "{what}: no item {k:?}");
    }
    out
}
