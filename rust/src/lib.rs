//! Lists of 32-bit words in a lent pool: a safe wrapper over the proved library `libmaaliskur.a`.
//!
//! Small lists live side by side in one slice of words, the pool; a second slice, the table, has a
//! handle for each list, and a list is named by its slot in the table. Both slices are the
//! caller's: nothing is allocated, and nothing grows. Where a call cannot be done it is refused,
//! says why, and has changed nothing; only an audit that finds the pool not sound has cleared the
//! first used / 4 words of its map.
//!
//! ```
//! use maaliskur::{Lists, Refusal};
//!
//! fn main() -> Result<(), Refusal> {
//!     let (mut pool, mut handles, mut map) = ([0; 1024], [0; 16], [0; 256]);
//!     let mut lists = Lists::new(&mut pool, &mut handles)?;
//!     lists.push(3, 7)?;
//!     lists.extend(3, &[8, 9])?;
//!     assert_eq!(lists.as_slice(3), [7, 8, 9]);
//!     lists.audit(&mut map)
//! }
//! ```
//!
//! What is refused says why, and what the audit found stands in its map:
//!
//! ```
//! # use maaliskur::{Lists, Refusal};
//! let (mut pool, mut handles, mut map) = ([0; 16], [0; 3], [5; 4]);
//! let mut lists = Lists::new(&mut pool, &mut handles)?;
//! assert_eq!(lists.push(3, 7), Err(Refusal::NoSlot));
//! assert_eq!(lists.push(2, 7), Ok(0));
//! assert_eq!(lists.get(2, 1), Err(Refusal::Outside));
//! assert_eq!(lists.from_slice(1, &[1; 16]), Err(Refusal::NoRoom));
//! assert_eq!(lists.audit(&mut []), Err(Refusal::ShortMap));
//! lists.audit(&mut map)?;
//! assert_eq!(map, [3, 5, 5, 5]);
//! # Ok::<(), Refusal>(())
//! ```
//!
//! A block that belongs to no list and is on no chain: the audit is refused, and the map 5, 6 is
//! then 0, 6.
//!
//! ```
//! # use maaliskur::{Lists, Refusal, State};
//! let (mut pool, mut handles, mut map) = ([0, 0, u32::MAX, u32::MAX], [0; 1], [5, 6]);
//! let lists = Lists::resume(State { used: 4, heads: [0; 15] }, &mut pool, &mut handles);
//! assert_eq!(lists.audit(&mut map), Err(Refusal::NotSound));
//! assert_eq!(map, [0, 6]);
//! ```
//!
//! To link, the crate needs the archive: `rt lib` in the folder `crates/maaliskur` of this
//! repository writes it to `out/` there, and the environment variable `MAALISKUR_LIB_DIR` names
//! any other folder.
//! The feature `std` makes a [`Refusal`] a `std::error::Error`.

#![no_std]
#![warn(missing_docs)]

#[cfg(feature = "std")]
extern crate std;

mod refusal;
pub mod sys;

use core::ops::Range;

pub use refusal::Refusal;
pub use sys::State;

/// The most words that a pool may have.
pub const POOL_LIMIT: usize = 65_536;

/// The most handles that a table may have.
pub const TABLE_LIMIT: usize = 16_384;

/// The longest list.
pub const LONGEST: usize = 65_535;

/// What a free block's mark in the audit's map adds to its class.
pub const FREE: u32 = 1 << 31;

/// Lists in a lent pool, each named by its slot in a lent table of handles.
///
/// The state is a small value beside the two slices. A call that is done puts the next state in its
/// place; [`Lists::state`] reads it, and [`Lists::resume`] takes up the slices again with a state
/// that was kept.
#[derive(Debug)]
pub struct Lists<'a> {
    state: State,
    pool: &'a mut [u32],
    handles: &'a mut [u32],
}

/// Calls a function of the library that reads: the state, the two slices, then the call's own
/// arguments.
macro_rules! reading {
    ($lists:ident.$function:ident($($argument:expr),*)) => {{
        let Lists { state, pool, handles } = $lists;
        // SAFETY: each pointer goes with the length of the slice that it is taken from, and these
        // are borrowed for as long as the call takes. The library reads and writes inside them
        // only, and writes none of these: that is proved of it.
        unsafe { sys::$function(*state, pool.as_ptr(), pool.len(), handles.as_ptr(), handles.len() $(, $argument)*) }
    }};
}

/// Calls a function of the library that writes: the state, the two slices, then the call's own
/// arguments. The next state takes its place.
macro_rules! writing {
    ($lists:ident.$function:ident($($argument:expr),*)) => {{
        let Lists { state, pool, handles } = $lists;
        // SAFETY: each pointer goes with the length of the slice that it is taken from. The two
        // slices that may be written are borrowed mutably, so they overlap with nothing else, and
        // the library reads and writes inside the slices only: that is proved of it.
        let answer = unsafe {
            sys::$function(*state, pool.as_mut_ptr(), pool.len(), handles.as_mut_ptr(), handles.len() $(, $argument)*)
        };
        *state = answer.state;
        answer
    }};
}

/// Returns the value of an answer, or why the call was refused.
fn judged(answer: sys::Answer) -> Result<u32, Refusal> {
    match answer.number {
        0 => Ok(answer.value),
        number => {
            Err(Refusal::from_number(number).expect("the library gives the numbers 0 to 9 only"))
        }
    }
}

/// Returns nothing where a call was done that has nothing to return, or why it was refused.
fn done(answer: sys::Answer) -> Result<(), Refusal> {
    judged(answer).map(|_| ())
}

impl<'a> Lists<'a> {
    /// Borrows a pool and a table and clears them: every list is empty. The pool's words stay as
    /// they are.
    ///
    /// Refused where one is over its limit ([`POOL_LIMIT`], [`TABLE_LIMIT`]).
    ///
    /// ```
    /// use maaliskur::{Lists, Refusal};
    /// let (mut pool, mut handles) = ([0; 16], [9; 3]);
    /// assert_eq!(Lists::new(&mut pool, &mut handles)?.handles(), [0, 0, 0]);
    ///
    /// let (mut pool, mut handles) = (vec![0; 65_537], []);
    /// assert_eq!(Lists::new(&mut pool, &mut handles).unwrap_err(), Refusal::OverLimit);
    /// # Ok::<(), Refusal>(())
    /// ```
    pub fn new(pool: &'a mut [u32], handles: &'a mut [u32]) -> Result<Lists<'a>, Refusal> {
        let mut lists = Lists::resume(State::default(), pool, handles);
        lists.clear_pool()?;
        Ok(lists)
    }

    /// Takes up a pool and a table again, with the state that belongs to them.
    ///
    /// Nothing is judged here: each call judges what it needs, whatever stands in the slices and
    /// the state, and [`Lists::audit`] judges all.
    ///
    /// ```
    /// use maaliskur::Lists;
    /// let (mut pool, mut handles) = ([0; 16], [0; 3]);
    /// let mut lists = Lists::new(&mut pool, &mut handles)?;
    /// lists.push(0, 7)?;
    /// let state = lists.state();
    ///
    /// let lists = Lists::resume(state, &mut pool, &mut handles);
    /// assert_eq!(lists.as_slice(0), [7]);
    /// # Ok::<(), maaliskur::Refusal>(())
    /// ```
    pub fn resume(state: State, pool: &'a mut [u32], handles: &'a mut [u32]) -> Lists<'a> {
        Lists { state, pool, handles }
    }

    /// Returns the state: how many words are used, and the heads of the chains of free blocks.
    ///
    /// ```
    /// # use maaliskur::Lists;
    /// # let (mut pool, mut handles) = ([0; 16], [0; 3]);
    /// # let mut lists = Lists::new(&mut pool, &mut handles)?;
    /// lists.push(0, 7)?;
    /// lists.clear(0)?;
    /// assert_eq!((lists.state().used, lists.state().heads[0]), (4, 1));
    /// # Ok::<(), maaliskur::Refusal>(())
    /// ```
    pub fn state(&self) -> State {
        self.state
    }

    /// Returns the words of the pool.
    pub fn pool(&self) -> &[u32] {
        self.pool
    }

    /// Returns the handles of the table.
    pub fn handles(&self) -> &[u32] {
        self.handles
    }

    /// Puts a list of the elements into an empty slot.
    ///
    /// ```
    /// # use maaliskur::{Lists, Refusal};
    /// # let (mut pool, mut handles) = ([0; 16], [0; 3]);
    /// # let mut lists = Lists::new(&mut pool, &mut handles)?;
    /// lists.from_slice(0, &[7, 8, 9, 10])?;
    /// assert_eq!(lists.as_slice(0), [7, 8, 9, 10]);
    /// assert_eq!(lists.from_slice(0, &[]), Err(Refusal::Clash));
    /// # Ok::<(), Refusal>(())
    /// ```
    pub fn from_slice(&mut self, slot: usize, elements: &[u32]) -> Result<(), Refusal> {
        done(writing!(self.maaliskur_from_slice(slot, elements.as_ptr(), elements.len())))
    }

    /// Returns whether the list in a slot is empty.
    ///
    /// ```
    /// # use maaliskur::{Lists, Refusal};
    /// # let (mut pool, mut handles) = ([0; 16], [0; 3]);
    /// # let mut lists = Lists::new(&mut pool, &mut handles)?;
    /// assert_eq!(lists.is_empty(0), Ok(true));
    /// lists.push(0, 7)?;
    /// assert_eq!(lists.is_empty(0), Ok(false));
    /// assert_eq!(lists.is_empty(3), Err(Refusal::NoSlot));
    /// # Ok::<(), Refusal>(())
    /// ```
    pub fn is_empty(&self, slot: usize) -> Result<bool, Refusal> {
        judged(reading!(self.maaliskur_is_empty(slot))).map(|value| value != 0)
    }

    /// Returns the number of elements of the list in a slot.
    ///
    /// ```
    /// # use maaliskur::{Lists, Refusal};
    /// # let (mut pool, mut handles) = ([0; 16], [0; 3]);
    /// # let mut lists = Lists::new(&mut pool, &mut handles)?;
    /// lists.extend(0, &[7, 8])?;
    /// assert_eq!(lists.len(0), Ok(2));
    /// assert_eq!(lists.len(1), Ok(0));
    /// # Ok::<(), Refusal>(())
    /// ```
    pub fn len(&self, slot: usize) -> Result<usize, Refusal> {
        judged(reading!(self.maaliskur_len(slot))).map(|value| value as usize)
    }

    /// Returns whether the list in a slot is valid: `Ok(true)`, or refused. A handle that is not
    /// locally sound is [`Refusal::BadHandle`].
    ///
    /// ```
    /// use maaliskur::{Lists, Refusal, State};
    /// let (mut pool, mut handles) = ([1, 7, 0, 0], [1, 2]);
    /// let lists = Lists::resume(State { used: 4, heads: [0; 15] }, &mut pool, &mut handles);
    /// assert_eq!(lists.is_valid(0), Ok(true));
    /// assert_eq!(lists.is_valid(1), Err(Refusal::BadHandle));
    /// ```
    pub fn is_valid(&self, slot: usize) -> Result<bool, Refusal> {
        judged(reading!(self.maaliskur_is_valid(slot))).map(|value| value != 0)
    }

    /// Returns the elements of the list in a slot, as they lie in the pool: nothing where reading
    /// the list is refused.
    ///
    /// ```
    /// # use maaliskur::Lists;
    /// # let (mut pool, mut handles) = ([0; 16], [0; 3]);
    /// # let mut lists = Lists::new(&mut pool, &mut handles)?;
    /// lists.extend(0, &[7, 8])?;
    /// assert_eq!(lists.as_slice(0), [7, 8]);
    /// assert_eq!(lists.as_slice(9), []);
    /// # Ok::<(), maaliskur::Refusal>(())
    /// ```
    pub fn as_slice(&self, slot: usize) -> &[u32] {
        &self.pool[self.part(slot)]
    }

    /// Returns the elements of the list in a slot, to be written where they lie: nothing where
    /// reading the list is refused.
    ///
    /// ```
    /// # use maaliskur::Lists;
    /// # let (mut pool, mut handles) = ([0; 16], [0; 3]);
    /// # let mut lists = Lists::new(&mut pool, &mut handles)?;
    /// lists.extend(0, &[9, 7, 8])?;
    /// lists.as_mut_slice(0).sort_unstable();
    /// assert_eq!(lists.as_slice(0), [7, 8, 9]);
    /// # Ok::<(), maaliskur::Refusal>(())
    /// ```
    pub fn as_mut_slice(&mut self, slot: usize) -> &mut [u32] {
        let part = self.part(slot);
        &mut self.pool[part]
    }

    /// Returns where the elements of the list in a slot lie in the pool.
    fn part(&self, slot: usize) -> Range<usize> {
        let part = reading!(self.maaliskur_part(slot));
        part.start..part.end
    }

    /// Returns the element at a position of the list in a slot.
    ///
    /// ```
    /// # use maaliskur::{Lists, Refusal};
    /// # let (mut pool, mut handles) = ([0; 16], [0; 3]);
    /// # let mut lists = Lists::new(&mut pool, &mut handles)?;
    /// lists.extend(0, &[7, 8])?;
    /// assert_eq!(lists.get(0, 1), Ok(8));
    /// assert_eq!(lists.get(0, 2), Err(Refusal::Outside));
    /// # Ok::<(), Refusal>(())
    /// ```
    pub fn get(&self, slot: usize, position: usize) -> Result<u32, Refusal> {
        judged(reading!(self.maaliskur_get(slot, position)))
    }

    /// Returns the first element of the list in a slot.
    ///
    /// ```
    /// # use maaliskur::{Lists, Refusal};
    /// # let (mut pool, mut handles) = ([0; 16], [0; 3]);
    /// # let mut lists = Lists::new(&mut pool, &mut handles)?;
    /// assert_eq!(lists.first(0), Err(Refusal::Outside));
    /// lists.extend(0, &[7, 8])?;
    /// assert_eq!(lists.first(0), Ok(7));
    /// # Ok::<(), Refusal>(())
    /// ```
    pub fn first(&self, slot: usize) -> Result<u32, Refusal> {
        judged(reading!(self.maaliskur_first(slot)))
    }

    /// Sets the element at a position of the list in a slot.
    ///
    /// ```
    /// # use maaliskur::Lists;
    /// # let (mut pool, mut handles) = ([0; 16], [0; 3]);
    /// # let mut lists = Lists::new(&mut pool, &mut handles)?;
    /// lists.extend(0, &[7, 8])?;
    /// lists.set(0, 1, 5)?;
    /// assert_eq!(lists.as_slice(0), [7, 5]);
    /// # Ok::<(), maaliskur::Refusal>(())
    /// ```
    pub fn set(&mut self, slot: usize, position: usize, element: u32) -> Result<(), Refusal> {
        done(writing!(self.maaliskur_set(slot, position, element)))
    }

    /// Puts a copy of the list in a slot into the empty slot `to`.
    ///
    /// ```
    /// # use maaliskur::Lists;
    /// # let (mut pool, mut handles) = ([0; 16], [0; 3]);
    /// # let mut lists = Lists::new(&mut pool, &mut handles)?;
    /// lists.extend(0, &[7, 8])?;
    /// lists.deep_clone(0, 1)?;
    /// lists.set(0, 0, 5)?;
    /// assert_eq!(lists.as_slice(1), [7, 8]);
    /// # Ok::<(), maaliskur::Refusal>(())
    /// ```
    pub fn deep_clone(&mut self, slot: usize, to: usize) -> Result<(), Refusal> {
        done(writing!(self.maaliskur_deep_clone(slot, to)))
    }

    /// Removes all elements from the list in a slot and gives its block back.
    ///
    /// ```
    /// # use maaliskur::Lists;
    /// # let (mut pool, mut handles) = ([0; 16], [0; 3]);
    /// # let mut lists = Lists::new(&mut pool, &mut handles)?;
    /// lists.extend(0, &[7, 8])?;
    /// lists.clear(0)?;
    /// assert_eq!(lists.as_slice(0), []);
    /// # Ok::<(), maaliskur::Refusal>(())
    /// ```
    pub fn clear(&mut self, slot: usize) -> Result<(), Refusal> {
        done(writing!(self.maaliskur_clear(slot)))
    }

    /// Moves the list in a slot to another, empty slot `to`, and leaves the slot empty.
    ///
    /// ```
    /// # use maaliskur::Lists;
    /// # let (mut pool, mut handles) = ([0; 16], [0; 3]);
    /// # let mut lists = Lists::new(&mut pool, &mut handles)?;
    /// lists.extend(0, &[7, 8])?;
    /// lists.take(0, 1)?;
    /// assert_eq!((lists.as_slice(0), lists.as_slice(1)), (&[][..], &[7, 8][..]));
    /// # Ok::<(), maaliskur::Refusal>(())
    /// ```
    pub fn take(&mut self, slot: usize, to: usize) -> Result<(), Refusal> {
        done(writing!(self.maaliskur_take(slot, to)))
    }

    /// Appends an element to the list in a slot and returns the old length, which is where the
    /// element stands.
    ///
    /// ```
    /// # use maaliskur::Lists;
    /// # let (mut pool, mut handles) = ([0; 16], [0; 3]);
    /// # let mut lists = Lists::new(&mut pool, &mut handles)?;
    /// assert_eq!(lists.push(0, 7), Ok(0));
    /// assert_eq!(lists.push(0, 8), Ok(1));
    /// # Ok::<(), maaliskur::Refusal>(())
    /// ```
    pub fn push(&mut self, slot: usize, element: u32) -> Result<usize, Refusal> {
        judged(writing!(self.maaliskur_push(slot, element))).map(|value| value as usize)
    }

    /// Appends the elements to the list in a slot.
    ///
    /// ```
    /// # use maaliskur::Lists;
    /// # let (mut pool, mut handles) = ([0; 16], [0; 3]);
    /// # let mut lists = Lists::new(&mut pool, &mut handles)?;
    /// lists.extend(0, &[7, 8])?;
    /// lists.extend(0, &[9])?;
    /// assert_eq!(lists.as_slice(0), [7, 8, 9]);
    /// # Ok::<(), maaliskur::Refusal>(())
    /// ```
    pub fn extend(&mut self, slot: usize, elements: &[u32]) -> Result<(), Refusal> {
        done(writing!(self.maaliskur_extend(slot, elements.as_ptr(), elements.len())))
    }

    /// Copies a range of the list in the slot `source` into the list in a slot, at a position.
    ///
    /// ```
    /// # use maaliskur::{Lists, Refusal};
    /// # let (mut pool, mut handles) = ([0; 16], [0; 3]);
    /// # let mut lists = Lists::new(&mut pool, &mut handles)?;
    /// lists.extend(0, &[1, 2, 3])?;
    /// lists.push(1, 9)?;
    /// lists.copy_from(1, 0, 1..3, 0)?;
    /// assert_eq!(lists.as_slice(1), [2, 3, 9]);
    /// assert_eq!(lists.copy_from(1, 0, 3..6, 0), Err(Refusal::Outside));
    /// # Ok::<(), Refusal>(())
    /// ```
    pub fn copy_from(
        &mut self,
        slot: usize,
        source: usize,
        range: Range<usize>,
        position: usize,
    ) -> Result<(), Refusal> {
        done(writing!(self.maaliskur_copy_from(slot, source, range.start, range.end, position)))
    }

    /// Puts an element at a position of the list in a slot; those from there on shift up.
    ///
    /// ```
    /// # use maaliskur::Lists;
    /// # let (mut pool, mut handles) = ([0; 16], [0; 3]);
    /// # let mut lists = Lists::new(&mut pool, &mut handles)?;
    /// lists.extend(0, &[7, 9])?;
    /// lists.insert(0, 1, 8)?;
    /// assert_eq!(lists.as_slice(0), [7, 8, 9]);
    /// # Ok::<(), maaliskur::Refusal>(())
    /// ```
    pub fn insert(&mut self, slot: usize, position: usize, element: u32) -> Result<(), Refusal> {
        done(writing!(self.maaliskur_insert(slot, position, element)))
    }

    /// Removes the element at a position of the list in a slot; those behind it shift down.
    ///
    /// A list that gets shorter may move to a smaller block, and needs it before it gives the
    /// larger one back: in a full pool this is [`Refusal::NoRoom`], and so with
    /// [`Lists::swap_remove`] and [`Lists::truncate`].
    ///
    /// ```
    /// # use maaliskur::{Lists, Refusal};
    /// # let (mut pool, mut handles) = ([0; 16], [0; 3]);
    /// # let mut lists = Lists::new(&mut pool, &mut handles)?;
    /// lists.extend(0, &[7, 8, 9])?;
    /// lists.remove(0, 0)?;
    /// assert_eq!(lists.as_slice(0), [8, 9]);
    ///
    /// let mut pool = [0; 8];
    /// let mut lists = Lists::new(&mut pool, &mut handles)?;
    /// lists.extend(0, &[1, 2, 3, 4])?;
    /// assert_eq!(lists.remove(0, 0), Err(Refusal::NoRoom));
    /// # Ok::<(), Refusal>(())
    /// ```
    pub fn remove(&mut self, slot: usize, position: usize) -> Result<(), Refusal> {
        done(writing!(self.maaliskur_remove(slot, position)))
    }

    /// Removes the element at a position of the list in a slot; the last one takes its place.
    ///
    /// ```
    /// # use maaliskur::Lists;
    /// # let (mut pool, mut handles) = ([0; 16], [0; 3]);
    /// # let mut lists = Lists::new(&mut pool, &mut handles)?;
    /// lists.extend(0, &[7, 8, 9])?;
    /// lists.swap_remove(0, 0)?;
    /// assert_eq!(lists.as_slice(0), [9, 8]);
    /// # Ok::<(), maaliskur::Refusal>(())
    /// ```
    pub fn swap_remove(&mut self, slot: usize, position: usize) -> Result<(), Refusal> {
        done(writing!(self.maaliskur_swap_remove(slot, position)))
    }

    /// Shortens the list in a slot to a length; does nothing where it is no longer than that.
    ///
    /// ```
    /// # use maaliskur::Lists;
    /// # let (mut pool, mut handles) = ([0; 16], [0; 3]);
    /// # let mut lists = Lists::new(&mut pool, &mut handles)?;
    /// lists.extend(0, &[7, 8, 9])?;
    /// lists.truncate(0, 5)?;
    /// lists.truncate(0, 1)?;
    /// assert_eq!(lists.as_slice(0), [7]);
    /// # Ok::<(), maaliskur::Refusal>(())
    /// ```
    pub fn truncate(&mut self, slot: usize, length: usize) -> Result<(), Refusal> {
        done(writing!(self.maaliskur_truncate(slot, length)))
    }

    /// Grows the list in a slot by a count of places at a position; those from there on shift up.
    /// The new places show what stood there.
    ///
    /// ```
    /// # use maaliskur::Lists;
    /// # let (mut pool, mut handles) = ([0; 16], [0; 3]);
    /// # let mut lists = Lists::new(&mut pool, &mut handles)?;
    /// lists.extend(0, &[7, 8])?;
    /// lists.grow_at(0, 0, 1)?;
    /// assert_eq!(lists.as_slice(0), [7, 7, 8]);
    /// # Ok::<(), maaliskur::Refusal>(())
    /// ```
    pub fn grow_at(&mut self, slot: usize, position: usize, count: usize) -> Result<(), Refusal> {
        done(writing!(self.maaliskur_grow_at(slot, position, count)))
    }

    /// Clears the pool: no word is used, and every list is empty. The pool's words stay as they
    /// are.
    ///
    /// ```
    /// # use maaliskur::Lists;
    /// # let (mut pool, mut handles) = ([0; 16], [0; 3]);
    /// # let mut lists = Lists::new(&mut pool, &mut handles)?;
    /// lists.push(0, 7)?;
    /// lists.clear_pool()?;
    /// assert_eq!((lists.state().used, lists.len(0)), (0, Ok(0)));
    /// # Ok::<(), maaliskur::Refusal>(())
    /// ```
    pub fn clear_pool(&mut self) -> Result<(), Refusal> {
        done(writing!(self.maaliskur_clear_pool()))
    }

    /// Judges the whole pool: every handle and every pointer on a chain of free blocks is sound,
    /// and the blocks cover the used words, each once.
    ///
    /// The map gets a word for each group of four used words: at a block's first group the slot + 1
    /// of its list, or [`FREE`] + its class where it is free, and 0 at its other groups. Where the
    /// pool is not sound these words become 0.
    ///
    /// ```
    /// # use maaliskur::{Lists, Refusal, FREE};
    /// # let (mut pool, mut handles) = ([0; 16], [0; 3]);
    /// # let mut lists = Lists::new(&mut pool, &mut handles)?;
    /// lists.extend(2, &[7, 8, 9])?;
    /// lists.push(2, 10)?;
    /// let mut map = [5; 4];
    /// lists.audit(&mut map)?;
    /// assert_eq!(map, [FREE, 3, 0, 5]);
    /// assert_eq!(lists.audit(&mut [0; 2]), Err(Refusal::ShortMap));
    /// # Ok::<(), Refusal>(())
    /// ```
    pub fn audit(&self, map: &mut [u32]) -> Result<(), Refusal> {
        done(reading!(self.maaliskur_audit(map.as_mut_ptr(), map.len())))
    }
}

/// Returns the class of a list of a length: its block has room for the length and the elements.
///
/// ```
/// assert_eq!([1, 3, 4, 7, 8, 65_535].map(maaliskur::class), [0, 0, 1, 1, 2, 14]);
/// ```
pub fn class(length: u32) -> u32 {
    // SAFETY: the function takes and gives a number, and touches nothing.
    unsafe { sys::maaliskur_class(length) }
}

/// Returns how many words a block of a class has; 0 from class 30 on, where 32 bits do not hold
/// them.
///
/// ```
/// assert_eq!([0, 1, 2, 14].map(maaliskur::size), [4, 8, 16, 65_536]);
/// ```
pub fn size(class: u32) -> u32 {
    // SAFETY: the function takes and gives a number, and touches nothing.
    unsafe { sys::maaliskur_size(class) }
}
