//! What is timed: the library in the two ways that it is reached, the original, and the copy of it
//! that build.rs makes.

use crate::inputs::POOL;
use crate::shifting;
use maaliskur::sys::{self, State};
use maaliskur::Lists;
use original::{list, Word};

/// A pool and a table of lists, and `push`. A call that is refused ends the program.
pub trait Pushes {
    /// What the tables call it.
    const NAME: &'static str;
    /// A pool that is cleared, and a table of so many empty lists.
    fn cleared(slots: usize) -> Self;
    /// Clears the pool and empties every list. What memory there is stays.
    fn clear_pool(&mut self);
    /// The elements of a list.
    fn as_slice(&self, slot: usize) -> &[u32];
    /// Appends an element, and gives the length before.
    fn push(&mut self, slot: usize, element: u32) -> usize;
}

/// The other calls that are timed.
pub trait Side: Pushes {
    /// The element at a position.
    fn get(&self, slot: usize, position: usize) -> u32;
    /// Puts a list of the elements into an empty slot.
    fn from_slice(&mut self, slot: usize, elements: &[u32]);
    /// Appends the elements.
    fn extend(&mut self, slot: usize, elements: &[u32]);
    /// Puts an element at a position.
    fn insert(&mut self, slot: usize, position: usize, element: u32);
    /// Removes the element at a position.
    fn remove(&mut self, slot: usize, position: usize);
    /// Removes the element at a position, where the last one goes.
    fn swap_remove(&mut self, slot: usize, position: usize);
    /// Empties a list.
    fn clear(&mut self, slot: usize);
}

/// The library through its C functions: the state goes in by value, and comes back in the answer.
pub struct C {
    state: State,
    pool: Vec<u32>,
    handles: Vec<u32>,
}

/// Calls a C function that reads: the state, the two arrays, then the call's own arguments.
macro_rules! reading {
    ($c:ident.$function:ident($($argument:expr),*)) => {{
        let C { state, pool, handles } = $c;
        // SAFETY: the pointers and lengths are those of the vectors.
        unsafe { sys::$function(*state, pool.as_ptr(), pool.len(), handles.as_ptr(), handles.len() $(, $argument)*) }
    }};
}

/// Calls a C function that writes, and keeps the next state.
macro_rules! writing {
    ($c:ident.$function:ident($($argument:expr),*)) => {{
        let C { state, pool, handles } = $c;
        // SAFETY: the pointers and lengths are those of the vectors, which are borrowed mutably.
        let answer = unsafe {
            sys::$function(*state, pool.as_mut_ptr(), pool.len(), handles.as_mut_ptr(), handles.len() $(, $argument)*)
        };
        // Through a pointer the state is copied whole; else the compiler copies its two fields, in
        // pieces that later loads span, and waits.
        let answer = &answer;
        *state = answer.state;
        value!(answer)
    }};
}

/// The value of an answer to a call that was done.
macro_rules! value {
    ($answer:expr) => {{
        let answer = $answer;
        if answer.number != 0 {
            refused(answer.number);
        }
        answer.value
    }};
}

/// Ends the program where a call was refused.
#[cold]
#[inline(never)]
pub fn refused(number: u32) -> ! {
    panic!("a call was refused with {number}")
}

impl C {
    /// A cleared pool of so many words, and a table of so many empty lists.
    pub fn sized(words: usize, slots: usize) -> C {
        C { state: State::default(), pool: vec![0; words], handles: vec![0; slots] }
    }

    /// The used words.
    pub fn used(&self) -> &[u32] {
        &self.pool[..self.state.used as usize]
    }

    /// Audits the pool with a map.
    #[inline]
    pub fn audit(&self, map: &mut [u32]) {
        value!(reading!(self.maaliskur_audit(map.as_mut_ptr(), map.len())));
    }
}

impl Pushes for C {
    const NAME: &'static str = "c";

    fn cleared(slots: usize) -> C {
        C::sized(POOL, slots)
    }

    fn clear_pool(&mut self) {
        writing!(self.maaliskur_clear_pool());
    }

    #[inline]
    fn as_slice(&self, slot: usize) -> &[u32] {
        let part = reading!(self.maaliskur_part(slot));
        &self.pool[part.start..part.end]
    }

    #[inline]
    fn push(&mut self, slot: usize, element: u32) -> usize {
        writing!(self.maaliskur_push(slot, element)) as usize
    }
}

impl Side for C {
    #[inline]
    fn get(&self, slot: usize, position: usize) -> u32 {
        value!(reading!(self.maaliskur_get(slot, position)))
    }

    #[inline]
    fn from_slice(&mut self, slot: usize, elements: &[u32]) {
        writing!(self.maaliskur_from_slice(slot, elements.as_ptr(), elements.len()));
    }

    #[inline]
    fn extend(&mut self, slot: usize, elements: &[u32]) {
        writing!(self.maaliskur_extend(slot, elements.as_ptr(), elements.len()));
    }

    #[inline]
    fn insert(&mut self, slot: usize, position: usize, element: u32) {
        writing!(self.maaliskur_insert(slot, position, element));
    }

    #[inline]
    fn remove(&mut self, slot: usize, position: usize) {
        writing!(self.maaliskur_remove(slot, position));
    }

    #[inline]
    fn swap_remove(&mut self, slot: usize, position: usize) {
        writing!(self.maaliskur_swap_remove(slot, position));
    }

    #[inline]
    fn clear(&mut self, slot: usize) {
        writing!(self.maaliskur_clear(slot));
    }
}

/// The library through the safe crate.
pub struct Crate(Lists<'static>);

impl Pushes for Crate {
    const NAME: &'static str = "crate";

    fn cleared(slots: usize) -> Crate {
        let (pool, handles) = (Box::leak(vec![0; POOL].into()), Box::leak(vec![0; slots].into()));
        Crate(Lists::new(pool, handles).unwrap())
    }

    fn clear_pool(&mut self) {
        self.0.clear_pool().unwrap()
    }

    #[inline]
    fn as_slice(&self, slot: usize) -> &[u32] {
        self.0.as_slice(slot)
    }

    #[inline]
    fn push(&mut self, slot: usize, element: u32) -> usize {
        self.0.push(slot, element).unwrap()
    }
}

impl Side for Crate {
    #[inline]
    fn get(&self, slot: usize, position: usize) -> u32 {
        self.0.get(slot, position).unwrap()
    }

    #[inline]
    fn from_slice(&mut self, slot: usize, elements: &[u32]) {
        self.0.from_slice(slot, elements).unwrap()
    }

    #[inline]
    fn extend(&mut self, slot: usize, elements: &[u32]) {
        self.0.extend(slot, elements).unwrap()
    }

    #[inline]
    fn insert(&mut self, slot: usize, position: usize, element: u32) {
        self.0.insert(slot, position, element).unwrap()
    }

    #[inline]
    fn remove(&mut self, slot: usize, position: usize) {
        self.0.remove(slot, position).unwrap()
    }

    #[inline]
    fn swap_remove(&mut self, slot: usize, position: usize) {
        self.0.swap_remove(slot, position).unwrap()
    }

    #[inline]
    fn clear(&mut self, slot: usize) {
        self.0.clear(slot).unwrap()
    }
}

/// A side over a list.rs: its pool, which keeps its memory when it is cleared, and its lists.
macro_rules! original {
    ($(#[$doc:meta])* $side:ident, $module:ident, $name:literal) => {
        $(#[$doc])*
        pub struct $side {
            pool: $module::ListPool<Word>,
            lists: Vec<$module::EntityList<Word>>,
        }

        impl Pushes for $side {
            const NAME: &'static str = $name;

            fn cleared(slots: usize) -> $side {
                let pool = $module::ListPool::with_capacity(POOL);
                $side { pool, lists: vec![$module::EntityList::new(); slots] }
            }

            fn clear_pool(&mut self) {
                self.pool.clear();
                self.lists.fill($module::EntityList::new());
            }

            #[inline]
            fn as_slice(&self, slot: usize) -> &[u32] {
                Word::to_words(self.lists[slot].as_slice(&self.pool))
            }

            #[inline]
            fn push(&mut self, slot: usize, element: u32) -> usize {
                self.lists[slot].push(Word(element), &mut self.pool)
            }
        }

        impl Side for $side {
            #[inline]
            fn get(&self, slot: usize, position: usize) -> u32 {
                self.lists[slot].get(position, &self.pool).unwrap().0
            }

            #[inline]
            fn from_slice(&mut self, slot: usize, elements: &[u32]) {
                self.lists[slot] =
                    $module::EntityList::from_slice(Word::from_words(elements), &mut self.pool);
            }

            #[inline]
            fn extend(&mut self, slot: usize, elements: &[u32]) {
                let elements = Word::from_words(elements).iter().copied();
                self.lists[slot].extend(elements, &mut self.pool)
            }

            #[inline]
            fn insert(&mut self, slot: usize, position: usize, element: u32) {
                self.lists[slot].insert(position, Word(element), &mut self.pool)
            }

            #[inline]
            fn remove(&mut self, slot: usize, position: usize) {
                self.lists[slot].remove(position, &mut self.pool)
            }

            #[inline]
            fn swap_remove(&mut self, slot: usize, position: usize) {
                self.lists[slot].swap_remove(position, &mut self.pool)
            }

            #[inline]
            fn clear(&mut self, slot: usize) {
                self.lists[slot].clear(&mut self.pool)
            }
        }
    };
}

original! {
    /// The original.
    Original, list, "original"
}
original! {
    /// The original with another `insert`.
    Shifting, shifting, "shifting"
}
