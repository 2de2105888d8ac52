//! The library's calls, as the archive of the crate `probe` exports them. A
//! slice is a pointer and a length; an answer's numbers come back through an
//! array, the reply as the result.

use oracle::words::{Asked, Word};

unsafe extern "C" {
    fn probe_prefix(mode: usize, p: *const u8, n: usize, answer: &mut [usize; 7]) -> usize;
    fn probe_next(mode: usize, f: usize, b: usize, p: *const u8, n: usize, answer: &mut [usize; 12])
    -> usize;
    fn probe_next_back(
        mode: usize,
        f: usize,
        b: usize,
        p: *const u8,
        n: usize,
        answer: &mut [usize; 12],
    ) -> usize;
    fn probe_as_path(
        mode: usize,
        f: usize,
        b: usize,
        p: *const u8,
        n: usize,
        answer: &mut [usize; 2],
    ) -> usize;
    fn probe_parent(mode: usize, p: *const u8, n: usize, answer: &mut [usize; 2]) -> usize;
    fn probe_ancestor(mode: usize, up: usize, p: *const u8, n: usize, answer: &mut [usize; 2]) -> usize;
    fn probe_file_name(mode: usize, p: *const u8, n: usize, answer: &mut [usize; 2]) -> usize;
    fn probe_file_stem(mode: usize, p: *const u8, n: usize, answer: &mut [usize; 2]) -> usize;
    fn probe_extension(mode: usize, p: *const u8, n: usize, answer: &mut [usize; 2]) -> usize;
    fn probe_has_root(mode: usize, p: *const u8, n: usize, answer: &mut [usize; 1]) -> usize;
    fn probe_is_absolute(mode: usize, p: *const u8, n: usize, answer: &mut [usize; 1]) -> usize;
    fn probe_compare(
        mode: usize,
        p: *const u8,
        n: usize,
        q: *const u8,
        q_n: usize,
        answer: &mut [usize; 1],
    ) -> usize;
    fn probe_starts_with(
        mode: usize,
        p: *const u8,
        n: usize,
        q: *const u8,
        q_n: usize,
        answer: &mut [usize; 1],
    ) -> usize;
    fn probe_ends_with(
        mode: usize,
        p: *const u8,
        n: usize,
        q: *const u8,
        q_n: usize,
        answer: &mut [usize; 1],
    ) -> usize;
    fn probe_strip_prefix(
        mode: usize,
        p: *const u8,
        n: usize,
        q: *const u8,
        q_n: usize,
        answer: &mut [usize; 2],
    ) -> usize;
    fn probe_join(
        mode: usize,
        p: *const u8,
        n: usize,
        q: *const u8,
        q_n: usize,
        out: *mut u8,
        room: usize,
        answer: &mut [usize; 2],
    ) -> usize;
    fn probe_set_file_name(
        mode: usize,
        p: *const u8,
        n: usize,
        q: *const u8,
        q_n: usize,
        out: *mut u8,
        room: usize,
        answer: &mut [usize; 2],
    ) -> usize;
    fn probe_set_extension(
        mode: usize,
        p: *const u8,
        n: usize,
        q: *const u8,
        q_n: usize,
        out: *mut u8,
        room: usize,
        answer: &mut [usize; 2],
    ) -> usize;
    fn probe_absolute(
        mode: usize,
        p: *const u8,
        n: usize,
        q: *const u8,
        q_n: usize,
        out: *mut u8,
        room: usize,
        answer: &mut [usize; 2],
    ) -> usize;
}

/// Where a slice stands; an empty one may stand anywhere, so it is at 0.
#[inline]
fn at(s: &[u8]) -> *const u8 {
    if s.is_empty() { std::ptr::null() } else { s.as_ptr() }
}

#[inline]
fn at_mut(s: &mut [u8]) -> *mut u8 {
    if s.is_empty() { std::ptr::null_mut() } else { s.as_mut_ptr() }
}

macro_rules! of_one_path {
    ($($name:ident = $probe:ident -> $n:literal;)*) => {$(
        #[inline]
        pub fn $name(mode: usize, p: &[u8], answer: &mut [usize; $n]) -> usize {
            // SAFETY: a slice as pointer and length, and an array of that many numbers
            unsafe { $probe(mode, at(p), p.len(), answer) }
        }
    )*};
}

of_one_path! {
    prefix = probe_prefix -> 7;
    parent = probe_parent -> 2;
    file_name = probe_file_name -> 2;
    file_stem = probe_file_stem -> 2;
    extension = probe_extension -> 2;
    has_root = probe_has_root -> 1;
    is_absolute = probe_is_absolute -> 1;
}

macro_rules! of_a_cursor {
    ($($name:ident = $probe:ident -> $n:literal;)*) => {$(
        #[inline]
        pub fn $name(mode: usize, f: usize, b: usize, p: &[u8], answer: &mut [usize; $n]) -> usize {
            // SAFETY: as above
            unsafe { $probe(mode, f, b, at(p), p.len(), answer) }
        }
    )*};
}

of_a_cursor! {
    next = probe_next -> 12;
    next_back = probe_next_back -> 12;
    as_path = probe_as_path -> 2;
}

#[inline]
pub fn ancestor(mode: usize, n: usize, p: &[u8], answer: &mut [usize; 2]) -> usize {
    // SAFETY: as above
    unsafe { probe_ancestor(mode, n, at(p), p.len(), answer) }
}

macro_rules! of_two_paths {
    ($($name:ident = $probe:ident -> $n:literal;)*) => {$(
        #[inline]
        pub fn $name(mode: usize, p: &[u8], q: &[u8], answer: &mut [usize; $n]) -> usize {
            // SAFETY: as above
            unsafe { $probe(mode, at(p), p.len(), at(q), q.len(), answer) }
        }
    )*};
}

of_two_paths! {
    compare = probe_compare -> 1;
    starts_with = probe_starts_with -> 1;
    ends_with = probe_ends_with -> 1;
    strip_prefix = probe_strip_prefix -> 2;
}

macro_rules! of_a_buffer {
    ($($name:ident = $probe:ident;)*) => {$(
        #[inline]
        pub fn $name(mode: usize, p: &[u8], q: &[u8], out: &mut [u8], answer: &mut [usize; 2]) -> usize {
            // SAFETY: as above; the buffer is lent for the call alone
            unsafe { $probe(mode, at(p), p.len(), at(q), q.len(), at_mut(out), out.len(), answer) }
        }
    )*};
}

of_a_buffer! {
    join = probe_join;
    set_file_name = probe_set_file_name;
    set_extension = probe_set_extension;
    absolute = probe_absolute;
}

/// Asks with an array that holds what no call leaves in it, and shows the
/// reply and the numbers.
fn told<const N: usize, R>(
    call: impl FnOnce(&mut [usize; N]) -> usize,
    see: impl FnOnce(usize, &[usize]) -> R,
) -> R {
    let mut answer = [usize::MAX - 1; N];
    let reply = call(&mut answer);
    see(reply, &answer)
}

/// The call that a word names, for whoever goes through all of them.
pub fn ask<R>(a: &Asked<'_>, out: &mut [u8], see: impl FnOnce(usize, &[usize]) -> R) -> R {
    let [m, f, b] = a.nums.map(|n| n as usize);
    let [p, q] = a.bytes;
    match a.word {
        Word::Prefix => told(|n| prefix(m, p, n), see),
        Word::Front => told(|n| next(m, f, b, p, n), see),
        Word::Back => told(|n| next_back(m, f, b, p, n), see),
        Word::Rest => told(|n| as_path(m, f, b, p, n), see),
        Word::Parent => told(|n| parent(m, p, n), see),
        Word::Ancestor => told(|n| ancestor(m, f, p, n), see),
        Word::Name => told(|n| file_name(m, p, n), see),
        Word::Stem => told(|n| file_stem(m, p, n), see),
        Word::Extension => told(|n| extension(m, p, n), see),
        Word::Root => told(|n| has_root(m, p, n), see),
        Word::IsAbsolute => told(|n| is_absolute(m, p, n), see),
        Word::Compare => told(|n| compare(m, p, q, n), see),
        Word::Starts => told(|n| starts_with(m, p, q, n), see),
        Word::Ends => told(|n| ends_with(m, p, q, n), see),
        Word::Strip => told(|n| strip_prefix(m, p, q, n), see),
        Word::Join => told(|n| join(m, p, q, out, n), see),
        Word::SetName => told(|n| set_file_name(m, p, q, out, n), see),
        Word::SetExtension => told(|n| set_extension(m, p, q, out, n), see),
        Word::Absolute => told(|n| absolute(m, p, q, out, n), see),
    }
}
