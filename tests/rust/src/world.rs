//! What is lent to a call, and the calls as data.

use std::fmt;
use std::ops::Range;

/// The pool's state and everything lent: what a call may read and write.
#[derive(Clone, PartialEq, Eq)]
pub struct World {
    /// How many words of the pool are used.
    pub used: u32,
    /// The head of each class's chain of free blocks.
    pub heads: [u32; 15],
    /// The lent pool.
    pub pool: Vec<u32>,
    /// The lent table of handles.
    pub handles: Vec<u32>,
    /// The words that the audit's map is a front part of.
    pub map: Vec<u32>,
}

impl World {
    /// A cleared pool of some words, all with one value, and a table of so many empty lists; the
    /// map is as long as it ever has to be.
    pub fn cleared(words: usize, value: u32, slots: usize) -> World {
        World {
            used: 0,
            heads: [0; 15],
            pool: vec![value; words],
            handles: vec![0; slots],
            map: vec![value; words / 4 + 2],
        }
    }

    /// The length of the list in a slot as far as it can be told, whatever the world is like; 0
    /// where it cannot.
    pub fn rough_length(&self, slot: usize) -> usize {
        let before = self.handles.get(slot).and_then(|&handle| (handle as usize).checked_sub(1));
        before.and_then(|at| self.pool.get(at)).map_or(0, |&length| length as usize)
    }
}

/// Words in a report: a run of five and more equal ones is written once, with how many they are.
struct Words<'a>(&'a [u32]);

impl fmt::Debug for Words<'_> {
    fn fmt(&self, f: &mut fmt::Formatter<'_>) -> fmt::Result {
        let mut list = f.debug_list();
        let mut rest = self.0;
        while let Some(&word) = rest.first() {
            let run = rest.iter().take_while(|&&other| other == word).count();
            if run < 5 {
                list.entries(&rest[..run]);
            } else {
                list.entry(&format_args!("{word} x {run}"));
            }
            rest = &rest[run..];
        }
        list.finish()
    }
}

impl fmt::Debug for World {
    fn fmt(&self, f: &mut fmt::Formatter<'_>) -> fmt::Result {
        f.debug_struct("World")
            .field("used", &self.used)
            .field("heads", &Words(&self.heads))
            .field("pool", &Words(&self.pool))
            .field("handles", &Words(&self.handles))
            .field("map", &Words(&self.map))
            .finish()
    }
}

/// A call with its arguments.
#[derive(Clone, Debug, PartialEq, Eq)]
#[allow(missing_docs)]
pub enum Call {
    FromSlice {
        slot: usize,
        elements: Vec<u32>,
    },
    IsEmpty {
        slot: usize,
    },
    Len {
        slot: usize,
    },
    IsValid {
        slot: usize,
    },
    AsSlice {
        slot: usize,
    },
    Get {
        slot: usize,
        position: usize,
    },
    First {
        slot: usize,
    },
    Set {
        slot: usize,
        position: usize,
        element: u32,
    },
    DeepClone {
        slot: usize,
        to: usize,
    },
    Clear {
        slot: usize,
    },
    Take {
        slot: usize,
        to: usize,
    },
    Push {
        slot: usize,
        element: u32,
    },
    Extend {
        slot: usize,
        elements: Vec<u32>,
    },
    CopyFrom {
        slot: usize,
        source: usize,
        start: usize,
        end: usize,
        position: usize,
    },
    Insert {
        slot: usize,
        position: usize,
        element: u32,
    },
    Remove {
        slot: usize,
        position: usize,
    },
    SwapRemove {
        slot: usize,
        position: usize,
    },
    Truncate {
        slot: usize,
        length: usize,
    },
    GrowAt {
        slot: usize,
        position: usize,
        count: usize,
    },
    ClearPool,
    /// Lends the first so many words of the world's map.
    Audit {
        map_words: usize,
    },
}

impl Call {
    /// The names of the calls, as the paper has them.
    #[rustfmt::skip]
    pub const NAMES: [&'static str; 21] = [
        "from_slice", "is_empty", "len", "is_valid", "as_slice", "get", "first", "set",
        "deep_clone", "clear", "take", "push", "extend", "copy_from", "insert", "remove",
        "swap_remove", "truncate", "grow_at", "clear_pool", "audit",
    ];

    /// The place of the call's name among the names.
    pub fn kind(&self) -> usize {
        match self {
            Call::FromSlice { .. } => 0,
            Call::IsEmpty { .. } => 1,
            Call::Len { .. } => 2,
            Call::IsValid { .. } => 3,
            Call::AsSlice { .. } => 4,
            Call::Get { .. } => 5,
            Call::First { .. } => 6,
            Call::Set { .. } => 7,
            Call::DeepClone { .. } => 8,
            Call::Clear { .. } => 9,
            Call::Take { .. } => 10,
            Call::Push { .. } => 11,
            Call::Extend { .. } => 12,
            Call::CopyFrom { .. } => 13,
            Call::Insert { .. } => 14,
            Call::Remove { .. } => 15,
            Call::SwapRemove { .. } => 16,
            Call::Truncate { .. } => 17,
            Call::GrowAt { .. } => 18,
            Call::ClearPool => 19,
            Call::Audit { .. } => 20,
        }
    }
}

/// What comes back from a call, beside what it wrote.
#[derive(Clone, Debug, PartialEq, Eq)]
pub enum Outcome {
    /// A number, 0 where the call is done, and a value.
    Answer {
        /// 0 where the call is done, else why it is refused.
        number: u32,
        /// What the call returns, 0 where it is refused or has nothing to return.
        value: u32,
    },
    /// Where a list's elements lie in the pool; `as_slice` carries no number.
    Part(Range<usize>),
}

impl Outcome {
    /// A call that is done and returns a value.
    pub fn done(value: u32) -> Outcome {
        Outcome::Answer { number: 0, value }
    }

    /// A call that is refused.
    pub fn refused(number: u32) -> Outcome {
        Outcome::Answer { number, value: 0 }
    }

    /// The number that came back, 0 for a part.
    pub fn number(&self) -> u32 {
        match self {
            Outcome::Answer { number, .. } => *number,
            Outcome::Part(_) => 0,
        }
    }
}
