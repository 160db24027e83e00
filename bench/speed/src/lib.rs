//! The library and the original, given the same calls.
//!
//! - [`sides`]: what is timed: the library through C and through the safe crate, the original, and
//!   a copy of the original whose `insert` shifts with `copy_within`.
//! - [`forms`]: `push` written by hand in several forms, to tell what of its time comes from where.
//! - [`inputs`]: numbers from a fixed seed, and the calls made of them.
//! - [`cases`]: the calls of each case, the same for each side.
//! - [`audits`]: the audit of full pools, beside a plain pass over the same words.

// What list.rs names by these paths, for the copy of it.
extern crate alloc;
#[doc(hidden)]
pub extern crate core as __core;
pub use original::{packed_option, EntityRef};

pub mod audits;
pub mod cases;
pub mod forms;
pub mod inputs;
pub mod sides;

/// The original with another `insert`, which build.rs makes.
#[allow(clippy::all)]
pub mod shifting {
    include!(concat!(env!("OUT_DIR"), "/list.rs"));
}
