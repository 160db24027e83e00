//! `push` written by hand in several forms, to tell what of its time comes from where.
//!
//! Each form is a function that is called, as those of an archive are. The state goes in and comes
//! back by value, or is written where a pointer says; the call judges all that paper 01 has it
//! judge, or what the original does. What a form does to the pool is what the library does.

use crate::inputs::POOL;
use crate::sides::{refused, Original, Pushes};
use maaliskur::sys::{Answer, State};
use maaliskur::{LONGEST, POOL_LIMIT, TABLE_LIMIT};
use std::mem::MaybeUninit;
use std::slice::from_raw_parts_mut;

/// The class of a length.
#[inline(always)]
fn class(length: u32) -> usize {
    30 - (length | 3).leading_zeros() as usize
}

/// Does a list that gets one more element need a block?
#[inline(always)]
fn moves(length: u32) -> bool {
    length == 0 || length > 2 && (length + 1).is_power_of_two()
}

/// The length of the list at a handle.
#[inline(always)]
fn length_at(pool: &[u32], handle: u32) -> u32 {
    match handle {
        0 => 0,
        handle => pool[handle as usize - 1],
    }
}

/// The number that `push` answers with.
#[inline(always)]
fn number(state: &State, pool: &[u32], handles: &[u32], slot: usize) -> u32 {
    let used = state.used as usize;
    if pool.len() > POOL_LIMIT || handles.len() > TABLE_LIMIT || used > pool.len() || used % 4 != 0
    {
        return 1;
    }
    let handle = match handles.get(slot) {
        None => return 2,
        Some(&handle) => handle,
    };
    let at = handle as usize;
    if handle != 0 {
        if handle % 4 != 1 || at >= used {
            return 3;
        }
        let length = pool[at - 1];
        if length < 1 || at - 1 + (4 << class(length)) > used {
            return 3;
        }
    }
    let length = length_at(pool, handle);
    if length as usize >= LONGEST {
        return 7;
    }
    if moves(length) {
        let to = class(length + 1);
        let head = state.heads[to];
        if head == 0 {
            if used + (4 << to) > pool.len() {
                return 7;
            }
        } else if head % 4 != 1
            || head as usize - 1 + (4 << to) > used
            || pool[head as usize - 1] != 0
        {
            return 6;
        }
    }
    0
}

/// What `push` does: the length before.
#[inline(always)]
fn work(
    state: &mut State,
    pool: &mut [u32],
    handles: &mut [u32],
    slot: usize,
    element: u32,
) -> u32 {
    let handle = handles[slot];
    let length = length_at(pool, handle);
    let block = if moves(length) {
        let block = moved(state, pool, handle, length);
        handles[slot] = block as u32 + 1;
        block
    } else {
        handle as usize - 1
    };
    pool[block + length as usize + 1] = element;
    pool[block] = length + 1;
    length
}

/// The block for one more element.
#[inline(never)]
fn moved(state: &mut State, pool: &mut [u32], handle: u32, length: u32) -> usize {
    let to = class(length + 1);
    let head = state.heads[to] as usize;
    let block = if head == 0 {
        let block = state.used as usize;
        pool[block..block + (4 << to)].fill(u32::MAX);
        state.used += 4 << to;
        block
    } else {
        state.heads[to] = pool[head];
        head - 1
    };
    if length > 0 {
        let (old, from) = (handle as usize - 1, class(length));
        pool.copy_within(old..=old + length as usize, block);
        pool[old] = 0;
        pool[old + 1] = state.heads[from];
        state.heads[from] = old as u32 + 1;
    }
    block
}

/// What a form without the state answers.
#[repr(C)]
#[derive(Clone, Copy)]
struct Reply {
    number: u32,
    value: u32,
}

/// The state by value, and all judged: as the library.
#[inline(never)]
unsafe extern "C" fn value_judged(
    mut state: State,
    pool: *mut u32,
    pool_len: usize,
    handles: *mut u32,
    handles_len: usize,
    slot: usize,
    element: u32,
) -> Answer {
    let pool = from_raw_parts_mut(pool, pool_len);
    let handles = from_raw_parts_mut(handles, handles_len);
    match number(&state, pool, handles, slot) {
        0 => {
            let value = work(&mut state, pool, handles, slot, element);
            Answer { number: 0, value, state }
        }
        number => Answer { number, value: 0, state },
    }
}

/// The state by value, and all judged, cut into functions as the library was when its times were
/// taken for docs/SPEED.md: one for the number, and one for the rest that takes the state by value
/// and hands it back in an answer of its own.
#[inline(never)]
unsafe extern "C" fn value_cut(
    state: State,
    pool: *mut u32,
    pool_len: usize,
    handles: *mut u32,
    handles_len: usize,
    slot: usize,
    element: u32,
) -> Answer {
    let pool = from_raw_parts_mut(pool, pool_len);
    let handles = from_raw_parts_mut(handles, handles_len);
    let judged = state;
    match cut_number(&judged, pool, handles, slot) {
        0 => cut_work(state, pool, handles, slot, element),
        number => Answer { number, value: 0, state },
    }
}

#[inline(never)]
fn cut_number(state: &State, pool: &[u32], handles: &[u32], slot: usize) -> u32 {
    number(state, pool, handles, slot)
}

#[inline(never)]
fn cut_work(
    mut state: State,
    pool: &mut [u32],
    handles: &mut [u32],
    slot: usize,
    element: u32,
) -> Answer {
    let value = work(&mut state, pool, handles, slot, element);
    Answer { number: 0, value, state }
}

/// As [`value_cut`], and the first words of the state are handed back one by one.
///
/// A processor passes a word that was just written on to a load at once, but not where the load
/// takes 16 bytes that were written in several pieces: then it waits until all are in the cache.
#[inline(never)]
unsafe extern "C" fn value_split(
    state: State,
    pool: *mut u32,
    pool_len: usize,
    handles: *mut u32,
    handles_len: usize,
    slot: usize,
    element: u32,
) -> Answer {
    let pool = from_raw_parts_mut(pool, pool_len);
    let handles = from_raw_parts_mut(handles, handles_len);
    let judged = state;
    match cut_number(&judged, pool, handles, slot) {
        0 => {
            let mut answer = MaybeUninit::uninit();
            split_work(&mut answer, &state, pool, handles, slot, element);
            *answer.as_ptr()
        }
        number => Answer { number, value: 0, state },
    }
}

#[inline(never)]
fn split_work(
    answer: &mut MaybeUninit<Answer>,
    state: &State,
    pool: &mut [u32],
    handles: &mut [u32],
    slot: usize,
    element: u32,
) {
    let mut state = *state;
    let value = work(&mut state, pool, handles, slot, element);
    let [a, b, c] = [state.heads[0], state.heads[1], state.heads[2]];
    answer.write(Answer { number: 0, value, state });
    let words = answer.as_mut_ptr().cast::<u32>();
    for (at, word) in [state.used, a, b, c].into_iter().enumerate() {
        // SAFETY: the state begins at the answer's third word, and has these four and more.
        unsafe { words.add(2 + at).write_volatile(word) }
    }
}

/// The state by value, and as little judged as the original does.
#[inline(never)]
unsafe extern "C" fn value_bare(
    mut state: State,
    pool: *mut u32,
    pool_len: usize,
    handles: *mut u32,
    handles_len: usize,
    slot: usize,
    element: u32,
) -> Answer {
    let pool = from_raw_parts_mut(pool, pool_len);
    let handles = from_raw_parts_mut(handles, handles_len);
    let value = work(&mut state, pool, handles, slot, element);
    Answer { number: 0, value, state }
}

/// The state where the pointer says, and all judged.
#[inline(never)]
unsafe extern "C" fn pointer_judged(
    state: &mut State,
    pool: *mut u32,
    pool_len: usize,
    handles: *mut u32,
    handles_len: usize,
    slot: usize,
    element: u32,
) -> Reply {
    let pool = from_raw_parts_mut(pool, pool_len);
    let handles = from_raw_parts_mut(handles, handles_len);
    match number(state, pool, handles, slot) {
        0 => Reply { number: 0, value: work(state, pool, handles, slot, element) },
        number => Reply { number, value: 0 },
    }
}

/// The state where the pointer says, and as little judged as the original does.
#[inline(never)]
unsafe extern "C" fn pointer_bare(
    state: &mut State,
    pool: *mut u32,
    pool_len: usize,
    handles: *mut u32,
    handles_len: usize,
    slot: usize,
    element: u32,
) -> Reply {
    let pool = from_raw_parts_mut(pool, pool_len);
    let handles = from_raw_parts_mut(handles, handles_len);
    Reply { number: 0, value: work(state, pool, handles, slot, element) }
}

/// A side that has `push` alone, by a form.
macro_rules! form {
    ($(#[$doc:meta])* $side:ident, $name:literal, |$state:ident, $arguments:tt| $call:expr) => {
        $(#[$doc])*
        pub struct $side {
            state: State,
            pool: Vec<u32>,
            handles: Vec<u32>,
        }

        impl Pushes for $side {
            const NAME: &'static str = $name;

            fn cleared(slots: usize) -> $side {
                $side { state: State::default(), pool: vec![0; POOL], handles: vec![0; slots] }
            }

            fn clear_pool(&mut self) {
                self.state = State::default();
                self.handles.fill(0);
            }

            fn as_slice(&self, slot: usize) -> &[u32] {
                let handle = self.handles[slot];
                let length = length_at(&self.pool, handle);
                &self.pool[handle as usize..][..length as usize]
            }

            #[inline]
            fn push(&mut self, slot: usize, element: u32) -> usize {
                let $side { state: $state, pool, handles } = self;
                let $arguments =
                    (pool.as_mut_ptr(), pool.len(), handles.as_mut_ptr(), handles.len(), slot, element);
                // SAFETY: the pointers and lengths are those of the vectors, which are borrowed
                // mutably.
                let (number, value) = unsafe { $call };
                if number != 0 {
                    refused(number);
                }
                value as usize
            }
        }
    };
}

form! {
    /// The state by value, and all judged.
    ValueJudged, "value judged", |state, (p, n, h, m, slot, element)| {
        let answer = &value_judged(*state, p, n, h, m, slot, element);
        *state = answer.state;
        (answer.number, answer.value)
    }
}
form! {
    /// The state by value, and as little judged as the original does.
    ValueBare, "value bare", |state, (p, n, h, m, slot, element)| {
        let answer = &value_bare(*state, p, n, h, m, slot, element);
        *state = answer.state;
        (answer.number, answer.value)
    }
}
form! {
    /// The state where a pointer says, and all judged.
    PointerJudged, "pointer judged", |state, (p, n, h, m, slot, element)| {
        let reply = pointer_judged(state, p, n, h, m, slot, element);
        (reply.number, reply.value)
    }
}
form! {
    /// The state where a pointer says, and as little judged as the original does.
    PointerBare, "pointer bare", |state, (p, n, h, m, slot, element)| {
        let reply = pointer_bare(state, p, n, h, m, slot, element);
        (reply.number, reply.value)
    }
}

/// The original, whose `push` is called and not made part of the loop.
pub struct OriginalCalled(Original);

#[inline(never)]
fn original_called(side: &mut Original, slot: usize, element: u32) -> usize {
    side.push(slot, element)
}

impl Pushes for OriginalCalled {
    const NAME: &'static str = "original called";

    fn cleared(slots: usize) -> OriginalCalled {
        OriginalCalled(Original::cleared(slots))
    }

    fn clear_pool(&mut self) {
        self.0.clear_pool()
    }

    fn as_slice(&self, slot: usize) -> &[u32] {
        self.0.as_slice(slot)
    }

    #[inline]
    fn push(&mut self, slot: usize, element: u32) -> usize {
        original_called(&mut self.0, slot, element)
    }
}
form! {
    /// The state by value, and all judged, cut into functions as the library was.
    ValueCut, "value cut", |state, (p, n, h, m, slot, element)| {
        let answer = &value_cut(*state, p, n, h, m, slot, element);
        *state = answer.state;
        (answer.number, answer.value)
    }
}
form! {
    /// As that, and the first words of the state are handed back one by one.
    ValueSplit, "value split", |state, (p, n, h, m, slot, element)| {
        let answer = &value_split(*state, p, n, h, m, slot, element);
        *state = answer.state;
        (answer.number, answer.value)
    }
}
