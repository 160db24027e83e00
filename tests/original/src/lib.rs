//! The original, docs/src/src/list.rs as it stands, with a stand-in for what it leans on of its own
//! crate, and its elements.
//!
//! The tests beside the original (tests/rust), the list of its answers (tests/answers) and the
//! times (bench/speed) all take it from here.

// What list.rs names by these paths.
extern crate alloc;
#[doc(hidden)]
pub extern crate core as __core;

use std::fmt;

// Nothing here changes the file: the second attribute keeps `cargo fmt` off it.
#[path = "../../../docs/src/src/list.rs"]
#[allow(clippy::all)]
#[rustfmt::skip]
pub mod list;

/// What list.rs asks of an element, as in the original's lib.rs.
pub trait EntityRef: Copy + Eq {
    /// Makes an element from an index.
    fn new(index: usize) -> Self;
    /// The index that the element was made from.
    fn index(self) -> usize;
}

/// The part of the original's packed_option.rs that list.rs uses.
pub mod packed_option {
    /// Types that have a reserved value.
    pub trait ReservedValue {
        /// The reserved value.
        fn reserved_value() -> Self;
        /// Is this the reserved value?
        fn is_reserved_value(&self) -> bool;
    }
}

/// An element: any word, with 4,294,967,295 as the reserved one. `entity_impl!` makes the same, but
/// asserts in debug builds that an index is not the reserved value.
#[derive(Clone, Copy, PartialEq, Eq)]
#[repr(transparent)]
pub struct Word(pub u32);

impl EntityRef for Word {
    #[inline]
    fn new(index: usize) -> Word {
        Word(index as u32)
    }

    #[inline]
    fn index(self) -> usize {
        self.0 as usize
    }
}

impl packed_option::ReservedValue for Word {
    #[inline]
    fn reserved_value() -> Word {
        Word(u32::MAX)
    }

    #[inline]
    fn is_reserved_value(&self) -> bool {
        self.0 == u32::MAX
    }
}

/// As its number alone: tests/answers reads a pool's private words from what `Debug` writes of it.
impl fmt::Debug for Word {
    fn fmt(&self, f: &mut fmt::Formatter<'_>) -> fmt::Result {
        self.0.fmt(f)
    }
}

impl Word {
    /// Words as elements.
    #[inline]
    pub fn from_words(words: &[u32]) -> &[Word] {
        // SAFETY: an element is laid out as the word in it.
        unsafe { core::slice::from_raw_parts(words.as_ptr().cast(), words.len()) }
    }

    /// Elements as words.
    #[inline]
    pub fn to_words(elements: &[Word]) -> &[u32] {
        // SAFETY: as above.
        unsafe { core::slice::from_raw_parts(elements.as_ptr().cast(), elements.len()) }
    }
}
