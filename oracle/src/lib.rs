//! Rust's own std::path, Unix and Windows flavours side by side, over any bytes.
//! See README.md; build.rs makes the two copies.

pub mod compare;
pub mod findings;
pub mod gen_input;
pub mod listed;
pub mod paper;
pub mod protocol;
pub mod readable;
pub mod sets;
pub mod sink;
pub mod stored;
pub mod types;
pub mod words;

use std::cmp::Ordering;
pub use types::*;

#[allow(dead_code, unused_imports, unused_macros, clippy::all)]
pub mod unix {
    include!(concat!(env!("CARGO_MANIFEST_DIR"), "/src/shim.rs"));
    pub mod path {
        include!(concat!(env!("OUT_DIR"), "/unix_path.rs"));
        include!(concat!(env!("CARGO_MANIFEST_DIR"), "/src/peek.rs"));
    }
    pub mod sys {
        pub mod path {
            include!(concat!(env!("OUT_DIR"), "/unix_sysmacro.rs"));
            mod unix {
                include!(concat!(env!("OUT_DIR"), "/unix_sys.rs"));
            }
            pub use unix::*;
            pub(crate) use unix::{absolute, is_absolute};
        }
    }
    pub mod glue {
        include!(concat!(env!("CARGO_MANIFEST_DIR"), "/src/glue.rs"));
        /// `std::path::absolute` with `cwd` as the current directory.
        pub fn absolute_in(p: &[u8], cwd: &[u8]) -> Option<Vec<u8>> {
            super::env::set_current_dir(cwd);
            absolute(path(p)).ok().map(|b| b.into_os_string().into_bytes())
        }
    }
}

#[allow(dead_code, unused_imports, unused_macros, clippy::all)]
pub mod windows {
    include!(concat!(env!("CARGO_MANIFEST_DIR"), "/src/shim.rs"));
    pub mod path {
        include!(concat!(env!("OUT_DIR"), "/windows_path.rs"));
        include!(concat!(env!("CARGO_MANIFEST_DIR"), "/src/peek.rs"));
    }
    pub mod sys {
        pub mod path {
            include!(concat!(env!("OUT_DIR"), "/windows_sysmacro.rs"));
            mod windows {
                include!(concat!(env!("OUT_DIR"), "/windows_sys.rs"));
            }
            mod windows_prefix {
                include!(concat!(env!("OUT_DIR"), "/windows_prefix.rs"));
            }
            pub(crate) use windows::is_absolute;
            pub use windows::*;
        }
    }
    pub mod glue {
        include!(concat!(env!("CARGO_MANIFEST_DIR"), "/src/glue.rs"));
    }
}

/// Which text this was built from, and by which compiler.
pub const SOURCE: &str = env!("ORACLE_SOURCE");
pub const RUSTC: &str = env!("ORACLE_RUSTC");

/// catch_unwind that prints nothing.
pub fn quietly<T>(
    f: impl FnOnce() -> T + std::panic::UnwindSafe,
) -> Result<T, Box<dyn std::any::Any + Send>> {
    use std::cell::Cell;
    use std::sync::Once;
    thread_local!(static QUIET: Cell<u32> = const { Cell::new(0) });
    static HOOK: Once = Once::new();
    HOOK.call_once(|| {
        let old = std::panic::take_hook();
        std::panic::set_hook(Box::new(move |i| {
            if QUIET.get() == 0 {
                old(i)
            }
        }));
    });
    QUIET.set(QUIET.get() + 1);
    let r = std::panic::catch_unwind(f);
    QUIET.set(QUIET.get() - 1);
    r
}

/// The real code.
#[derive(Clone, Copy, Default)]
pub struct Real;

macro_rules! both {
    ($m:expr, $f:ident ( $($a:expr),* )) => {
        match $m {
            Mode::Unix => unix::glue::$f($($a),*),
            Mode::Windows => windows::glue::$f($($a),*),
        }
    };
}

impl Paths for Real {
    fn prefix_bare(&self, m: Mode, p: &[u8]) -> Option<BarePrefix> {
        both!(m, prefix_bare(p))
    }
    fn list_into(&self, m: Mode, p: &[u8], out: &mut Vec<(u8, Ext)>) {
        both!(m, list_into(p, out))
    }
    fn step_after(&self, m: Mode, p: &[u8], f: usize, b: usize, d: Dir) -> Option<(u8, Ext)> {
        both!(m, step_after(p, f, b, d))
    }
    fn rest_after(&self, m: Mode, p: &[u8], f: usize, b: usize) -> Ext {
        both!(m, rest_after(p, f, b))
    }
    fn parent(&self, m: Mode, p: &[u8]) -> Option<Ext> {
        both!(m, parent(p))
    }
    fn ancestor(&self, m: Mode, p: &[u8], n: u64) -> Option<Ext> {
        both!(m, ancestor(p, n))
    }
    fn file_name(&self, m: Mode, p: &[u8]) -> Option<Ext> {
        both!(m, file_name(p))
    }
    fn file_stem(&self, m: Mode, p: &[u8]) -> Option<Ext> {
        both!(m, file_stem(p))
    }
    fn extension(&self, m: Mode, p: &[u8]) -> Option<Ext> {
        both!(m, extension(p))
    }
    fn has_root(&self, m: Mode, p: &[u8]) -> bool {
        both!(m, has_root(p))
    }
    fn is_absolute(&self, m: Mode, p: &[u8]) -> bool {
        both!(m, is_absolute(p))
    }
    fn cmp(&self, m: Mode, p: &[u8], q: &[u8]) -> Ordering {
        both!(m, cmp(p, q))
    }
    fn starts_with(&self, m: Mode, p: &[u8], base: &[u8]) -> bool {
        both!(m, starts_with(p, base))
    }
    fn ends_with(&self, m: Mode, p: &[u8], child: &[u8]) -> bool {
        both!(m, ends_with(p, child))
    }
    fn strip_prefix(&self, m: Mode, p: &[u8], base: &[u8]) -> Option<Ext> {
        both!(m, strip_prefix(p, base))
    }
    fn join(&self, m: Mode, p: &[u8], q: &[u8]) -> Vec<u8> {
        both!(m, join(p, q))
    }
    fn set_file_name(&self, m: Mode, p: &[u8], name: &[u8]) -> Vec<u8> {
        both!(m, set_file_name(p, name))
    }
    fn set_plain_extension(&self, m: Mode, p: &[u8], ext: &[u8]) -> Option<Vec<u8>> {
        both!(m, set_plain_extension(p, ext))
    }
    fn absolute(&self, p: &[u8], cwd: &[u8]) -> Option<Vec<u8>> {
        unix::glue::absolute_in(p, cwd)
    }
}

/// What the protocol does not ask for.
impl Real {
    /// All components taken from the front.
    pub fn list(&self, m: Mode, p: &[u8]) -> Vec<Comp> {
        both!(m, list(p))
    }
    /// All components taken from the back, in the order taken.
    pub fn list_back(&self, m: Mode, p: &[u8]) -> Vec<Comp> {
        both!(m, list_back(p))
    }
    /// `as_path` before any step, then each step.
    pub fn steps(&self, m: Mode, p: &[u8], dirs: &[Dir]) -> (Ext, Vec<StepOut>) {
        both!(m, steps(p, dirs))
    }
    pub fn ancestors(&self, m: Mode, p: &[u8]) -> Vec<Ext> {
        both!(m, ancestors(p))
    }
    pub fn eq(&self, m: Mode, p: &[u8], q: &[u8]) -> bool {
        both!(m, eq(p, q))
    }
    pub fn with_file_name(&self, m: Mode, p: &[u8], name: &[u8]) -> Vec<u8> {
        both!(m, with_file_name(p, name))
    }
    /// As it is, with its panic as a value.
    pub fn set_extension(&self, m: Mode, p: &[u8], ext: &[u8]) -> SetExt {
        both!(m, set_extension(p, ext))
    }
    /// None: it panicked because of a separator.
    pub fn with_extension(&self, m: Mode, p: &[u8], ext: &[u8]) -> Option<Vec<u8>> {
        both!(m, with_extension(p, ext))
    }
    /// None where Rust answers NormalizeError.
    pub fn normalize(&self, m: Mode, p: &[u8]) -> Option<Vec<u8>> {
        both!(m, normalize(p))
    }
}
