//! The proved library and the real Rust in one process: the same calls, asked
//! of both. `harness` compares the answers, `speed` times them.

pub mod calls;
pub mod cases;
pub mod check;
pub mod inputs;
pub mod ours;
