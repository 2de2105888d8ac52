//! Takes the text of Rust's std::path (path.rs, sys/path/*.rs) from the folder
//! rust-1.97.0, or PATH_SRC if that is set, and writes two mechanically changed
//! copies to OUT_DIR, one for the Unix flavour and one for the Windows flavour.
//! What is done, and nothing else:
//!
//!  1. doc comments are removed;
//!  2. attributes stable, unstable, rustc_*, must_use, doc, cfg_attr, deny, and
//!     every inner attribute (#![..]) are removed;
//!  3. `impl const` becomes `impl`; `[const] X` becomes `X`, and the `const` of
//!     a `const fn` whose generics held such a bound goes;
//!  4. `crate::` becomes `crate::unix::` or `crate::windows::`;
//!  5. whole items and whole members named in build/items.rs are dropped.
//!
//! No kept function body is changed apart from 4. OUT_DIR/report.txt says what
//! was dropped. A name in a drop list that matches nothing stops the build.

#[path = "build/items.rs"]
mod items;
#[path = "build/lex.rs"]
mod lex;
#[path = "build/strip.rs"]
mod strip;

use items::{only, path_rs};
use std::fmt::Write as _;
use std::path::{Path, PathBuf};
use std::{env, fs};

const FILES: [&str; 5] = [
    "library/std/src/path.rs", "library/std/src/sys/path/mod.rs", "library/std/src/sys/path/unix.rs",
    "library/std/src/sys/path/windows.rs", "library/std/src/sys/path/windows_prefix.rs",
];

/// Of windows.rs: the separator helpers and is_absolute.
const WINDOWS_KEEP: [&str; 6] = [
    "use crate::windows::path::{Path, PathBuf}", "pub use super::windows_prefix::parse_prefix",
    "path_separator_bytes!", "pub const HAS_PREFIXES", "pub const fn is_verbatim_sep",
    "pub(crate) fn is_absolute(",
];

/// The name of the text, which holds no folder of this machine, and its folder.
fn source() -> (&'static str, PathBuf) {
    match env::var_os("PATH_SRC") {
        Some(d) => ("Rust text of PATH_SRC", PathBuf::from(d)),
        None => {
            let here = env::var_os("CARGO_MANIFEST_DIR").unwrap();
            ("Rust 1.97.0", Path::new(&here).join("rust-1.97.0"))
        }
    }
}

fn read(file: &Path) -> String {
    println!("cargo:rerun-if-changed={}", file.display());
    fs::read_to_string(file).unwrap_or_else(|e| panic!("{}: {e}; is PATH_SRC right?", file.display()))
}

fn fnv(b: &[u8]) -> u64 {
    b.iter().fold(0xcbf29ce484222325, |h, &c| (h ^ c as u64).wrapping_mul(0x100000001b3))
}

/// What the compiler of this build, whose std vs_std compares with, says it is.
fn compiler() -> String {
    let rustc = env::var_os("RUSTC").unwrap();
    let said = std::process::Command::new(rustc).arg("-V").output().unwrap().stdout;
    String::from_utf8(said).unwrap().trim().to_string()
}

fn main() {
    println!("cargo:rerun-if-env-changed=PATH_SRC");
    println!("cargo:rerun-if-changed=build.rs");
    println!("cargo:rerun-if-changed=build");
    let (mut version, dir) = (source().0.to_string(), source().1);
    let texts = FILES.map(|f| read(&dir.join(f)));
    for (logical, s) in FILES.iter().zip(&texts) {
        let name = logical.rsplit("src/").next().unwrap();
        write!(version, "; {name} {} lines fnv1a64 {:016x}", s.lines().count(), fnv(s.as_bytes())).unwrap();
    }
    println!("cargo:rustc-env=ORACLE_SOURCE={version}");
    println!("cargo:rustc-env=ORACLE_RUSTC={}", compiler());
    generate(&texts);
}

/// Writes what src/lib.rs includes.
fn generate([path, sysmod, unix, windows, prefix]: &[String; 5]) {
    let out = PathBuf::from(env::var_os("OUT_DIR").unwrap());
    let put = |name: &str, s: &str| fs::write(out.join(name), s).unwrap();
    let whole = |src: &str, flavour: &str| lex::text(&strip::strip(&lex::lex(src), flavour));
    let mut report = String::new();
    for flavour in ["unix", "windows"] {
        put(&format!("{flavour}_path.rs"), &path_rs(path, flavour, &mut report));
        let what = format!("sys/path/mod.rs for {flavour}");
        let keep = ["macro_rules! path_separator_bytes"];
        put(&format!("{flavour}_sysmacro.rs"), &only(sysmod, flavour, &what, &keep, &mut report));
    }
    put("unix_sys.rs", &whole(unix, "unix"));
    put("windows_prefix.rs", &whole(prefix, "windows"));
    let what = "sys/path/windows.rs";
    put("windows_sys.rs", &only(windows, "windows", what, &WINDOWS_KEEP, &mut report));
    put("report.txt", &report);
}
