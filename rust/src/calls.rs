//! The archive's five functions as include/bridlestep.h has them, each behind a safe one. All `unsafe` of the crate is in this file.
//!
//! What every call below is owed by the header: a path is memory that can be read for its length (for length 0 the pointer is not
//! used), what is written to can be written for its whole size and lies apart from everything else handed over. A `&[u8]` is the
//! first, a `&mut` the second. The archive keeps no pointer, and answers any mode number, length and cursor without fault.

/// A reply's number; 0 is Done.
pub type Reply = usize;

// The archive's numbers have 64 bits.
const _: () = assert!(usize::BITS == 64);

unsafe extern "C" {
    fn bridlestep_prefix(mode: usize, path: *const u8, path_len: usize, prefix: *mut [usize; 7]) -> Reply;
    fn bridlestep_next(
        mode: usize,
        front: usize,
        back: usize,
        path: *const u8,
        path_len: usize,
        step: *mut [usize; 12],
    ) -> Reply;
    fn bridlestep_next_back(
        mode: usize,
        front: usize,
        back: usize,
        path: *const u8,
        path_len: usize,
        step: *mut [usize; 12],
    ) -> Reply;
    fn bridlestep_compare(
        mode: usize,
        p: *const u8,
        p_len: usize,
        q: *const u8,
        q_len: usize,
        order: *mut usize,
    ) -> Reply;
    fn bridlestep_join(
        mode: usize,
        p: *const u8,
        p_len: usize,
        q: *const u8,
        q_len: usize,
        out: *mut u8,
        room: usize,
        len: *mut usize,
    ) -> Reply;
}

pub fn prefix(mode: usize, path: &[u8]) -> (Reply, [usize; 7]) {
    let mut numbers = [0; 7];
    // SAFETY: `path` can be read for its length; `numbers` is ours alone, of the seven numbers of a struct bridlestep_prefix.
    let reply = unsafe { bridlestep_prefix(mode, path.as_ptr(), path.len(), &mut numbers) };
    (reply, numbers)
}

pub fn next(mode: usize, front: usize, back: usize, path: &[u8]) -> (Reply, [usize; 12]) {
    let mut numbers = [0; 12];
    // SAFETY: `path` can be read for its length; `numbers` is ours alone, of the twelve numbers of a struct bridlestep_step.
    let reply = unsafe { bridlestep_next(mode, front, back, path.as_ptr(), path.len(), &mut numbers) };
    (reply, numbers)
}

pub fn next_back(mode: usize, front: usize, back: usize, path: &[u8]) -> (Reply, [usize; 12]) {
    let mut numbers = [0; 12];
    // SAFETY: as for `next`.
    let reply = unsafe { bridlestep_next_back(mode, front, back, path.as_ptr(), path.len(), &mut numbers) };
    (reply, numbers)
}

pub fn compare(mode: usize, p: &[u8], q: &[u8]) -> (Reply, usize) {
    let mut order = 0;
    // SAFETY: `p` and `q` can be read for their lengths, and may be the same bytes; `order` is ours alone.
    let reply = unsafe { bridlestep_compare(mode, p.as_ptr(), p.len(), q.as_ptr(), q.len(), &mut order) };
    (reply, order)
}

pub fn join(mode: usize, p: &[u8], q: &[u8], out: &mut [u8]) -> (Reply, usize) {
    let mut len = 0;
    // SAFETY: `p` and `q` can be read for their lengths; `out` can be written for its length and, as a `&mut`, overlaps neither of
    // them; `len` is ours alone.
    let reply = unsafe {
        bridlestep_join(mode, p.as_ptr(), p.len(), q.as_ptr(), q.len(), out.as_mut_ptr(), out.len(), &mut len)
    };
    (reply, len)
}
