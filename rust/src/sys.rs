//! The declarations of `include/maaliskur.h`, as they stand there.
//!
//! What the functions do is proved; that these lines say the same as the header, and the header the
//! same as the archive, is not. The tests of this crate hold the lines to the header, the layouts
//! to their sizes and offsets, and every function to known answers.

/// The pool's state, a value that each call takes and hands back: `struct maaliskur_state`.
#[repr(C)]
#[derive(Clone, Copy, Debug, Default, PartialEq, Eq, Hash)]
pub struct State {
    /// How many words of the pool are used.
    pub used: u32,
    /// The head of each class's chain of free blocks.
    pub heads: [u32; 15],
}

/// What a call answers: `struct maaliskur_answer`.
#[repr(C)]
#[derive(Clone, Copy, Debug, PartialEq, Eq)]
pub struct Answer {
    /// 0 where the call is done, else why it is refused.
    pub number: u32,
    /// What the call returns, 0 where it is refused or has nothing to return.
    pub value: u32,
    /// The next state.
    pub state: State,
}

/// Where a list's elements lie in the pool: `struct maaliskur_part`.
#[repr(C)]
#[derive(Clone, Copy, Debug, PartialEq, Eq)]
pub struct Part {
    /// The index of the first element.
    pub start: usize,
    /// The index behind the last element.
    pub end: usize,
}

#[rustfmt::skip]
#[allow(missing_docs)]
extern "C" {
    pub fn maaliskur_from_slice(state: State, pool: *mut u32, pool_len: usize, handles: *mut u32, handles_len: usize, slot: usize, elements: *const u32, n: usize) -> Answer;
    pub fn maaliskur_is_empty(state: State, pool: *const u32, pool_len: usize, handles: *const u32, handles_len: usize, slot: usize) -> Answer;
    pub fn maaliskur_len(state: State, pool: *const u32, pool_len: usize, handles: *const u32, handles_len: usize, slot: usize) -> Answer;
    pub fn maaliskur_is_valid(state: State, pool: *const u32, pool_len: usize, handles: *const u32, handles_len: usize, slot: usize) -> Answer;
    pub fn maaliskur_part(state: State, pool: *const u32, pool_len: usize, handles: *const u32, handles_len: usize, slot: usize) -> Part;
    pub fn maaliskur_get(state: State, pool: *const u32, pool_len: usize, handles: *const u32, handles_len: usize, slot: usize, position: usize) -> Answer;
    pub fn maaliskur_first(state: State, pool: *const u32, pool_len: usize, handles: *const u32, handles_len: usize, slot: usize) -> Answer;
    pub fn maaliskur_set(state: State, pool: *mut u32, pool_len: usize, handles: *const u32, handles_len: usize, slot: usize, position: usize, element: u32) -> Answer;
    pub fn maaliskur_deep_clone(state: State, pool: *mut u32, pool_len: usize, handles: *mut u32, handles_len: usize, slot: usize, to: usize) -> Answer;
    pub fn maaliskur_clear(state: State, pool: *mut u32, pool_len: usize, handles: *mut u32, handles_len: usize, slot: usize) -> Answer;
    pub fn maaliskur_take(state: State, pool: *const u32, pool_len: usize, handles: *mut u32, handles_len: usize, slot: usize, to: usize) -> Answer;
    pub fn maaliskur_push(state: State, pool: *mut u32, pool_len: usize, handles: *mut u32, handles_len: usize, slot: usize, element: u32) -> Answer;
    pub fn maaliskur_extend(state: State, pool: *mut u32, pool_len: usize, handles: *mut u32, handles_len: usize, slot: usize, elements: *const u32, n: usize) -> Answer;
    pub fn maaliskur_copy_from(state: State, pool: *mut u32, pool_len: usize, handles: *mut u32, handles_len: usize, slot: usize, source: usize, start: usize, end: usize, position: usize) -> Answer;
    pub fn maaliskur_insert(state: State, pool: *mut u32, pool_len: usize, handles: *mut u32, handles_len: usize, slot: usize, position: usize, element: u32) -> Answer;
    pub fn maaliskur_remove(state: State, pool: *mut u32, pool_len: usize, handles: *mut u32, handles_len: usize, slot: usize, position: usize) -> Answer;
    pub fn maaliskur_swap_remove(state: State, pool: *mut u32, pool_len: usize, handles: *mut u32, handles_len: usize, slot: usize, position: usize) -> Answer;
    pub fn maaliskur_truncate(state: State, pool: *mut u32, pool_len: usize, handles: *mut u32, handles_len: usize, slot: usize, length: usize) -> Answer;
    pub fn maaliskur_grow_at(state: State, pool: *mut u32, pool_len: usize, handles: *mut u32, handles_len: usize, slot: usize, position: usize, count: usize) -> Answer;
    pub fn maaliskur_clear_pool(state: State, pool: *const u32, pool_len: usize, handles: *mut u32, handles_len: usize) -> Answer;
    pub fn maaliskur_audit(state: State, pool: *const u32, pool_len: usize, handles: *const u32, handles_len: usize, map: *mut u32, map_len: usize) -> Answer;
    pub fn maaliskur_class(length: u32) -> u32;
    pub fn maaliskur_size(size_class: u32) -> u32;
}
