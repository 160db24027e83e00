//! Runs the library beside the original list.rs, and beside a plain model of paper 01.
//!
//! - [`world`]: what is lent, and the calls as data, so that all three can be given the same.
//! - [`library`]: a call by the library, through its C functions or through the safe crate.
//! - [`original`]: a call by the original, docs/src/src/list.rs as it stands.
//! - [`model`]: a call by the rules of paper 01.
//! - [`fixed`]: a call on a world that is written out, by the library and by the model.
//! - [`draws`]: random calls and damages, made from numbers that shrink.
//! - [`pair`]: the library and the original side by side, compared after each call.
//! - [`runs`]: as many cases of a property as it takes to make a number of calls, and what they
//!   came to.
//! - [`panics`]: panics that are wanted, caught and not printed.

#[cfg(feature = "random")]
pub mod draws;
pub mod fixed;
pub mod library;
pub mod model;
pub mod original;
pub mod pair;
pub mod panics;
#[cfg(feature = "random")]
pub mod runs;
pub mod world;
