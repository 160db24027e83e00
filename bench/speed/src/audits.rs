//! The audit of full pools, beside a plain pass over the same words.

use crate::sides::{Side, C};
use maaliskur::FREE;

/// The pools: all of these many words are used.
pub const SIZES: [usize; 4] = [8_192, 16_384, 32_768, 65_536];

/// What a full pool has.
#[derive(Clone, Copy, Debug, PartialEq, Eq)]
pub enum Kind {
    /// A list of 1 to 3 elements in each slot: each group of four words is a live block.
    Live,
    /// The same, and then each list cleared: each group is a free block, and one chain has all.
    Free,
    /// Lists of 1 to 31 elements as far as the pool goes, and then every second one cleared.
    Mixed,
}

/// The kinds, by the names that the tables have for them.
const KINDS: [(&str, Kind); 3] =
    [("live", Kind::Live), ("free", Kind::Free), ("mixed", Kind::Mixed)];

/// What the tables call a plain pass.
pub const PASS: &str = "pass";

/// The pools, in the order of the tables: the name, the kind and the words of each.
pub fn all() -> impl Iterator<Item = (String, Kind, usize)> {
    KINDS.iter().flat_map(|&(name, kind)| {
        SIZES.iter().map(move |&words| (format!("audit {name} {words}"), kind, words))
    })
}

/// The pool of a name.
pub fn named(name: &str) -> Option<Full> {
    let (_, kind, words) = all().find(|(its, ..)| its == name)?;
    Some(Full::new(kind, words))
}

/// A full pool with a table of as many slots as it has groups, and a map for its audits.
pub struct Full {
    c: C,
    map: Vec<u32>,
}

impl Full {
    /// A pool of a kind and size, made by the library's own calls. It is full, the audit accepts
    /// it, and by the marks in the audit's map its blocks are those of its kind.
    pub fn new(kind: Kind, words: usize) -> Full {
        let groups = words / 4;
        let mut c = C::sized(words, groups);
        let longest = if kind == Kind::Mixed { 31 } else { 3 };
        for slot in 0..groups {
            let length = 1 + slot % longest;
            if c.used().len() + (length + 1).next_power_of_two().max(4) <= words {
                c.from_slice(slot, &vec![1; length]);
            }
        }
        for slot in 0..groups {
            if kind == Kind::Free || kind == Kind::Mixed && slot % 2 == 1 {
                c.clear(slot);
            }
        }
        let mut full = Full { c, map: vec![0; groups] };
        full.c.audit(&mut full.map);
        let live = full.map.iter().filter(|&&mark| mark != 0 && mark < FREE).count();
        let free = full.map.iter().filter(|&&mark| mark >= FREE).count();
        assert!(full.c.used().len() == words, "{words} words, {kind:?}: not full");
        let as_meant = match kind {
            Kind::Live => live == groups && free == 0,
            Kind::Free => live == 0 && free == groups,
            Kind::Mixed => live > 0 && free > 0,
        };
        assert!(as_meant, "{words} words, {kind:?}: {live} blocks are live and {free} are free");
        full
    }

    /// One audit. Unless it accepts, the program ends.
    #[inline(never)]
    pub fn counted_audit(&mut self) {
        self.c.audit(&mut self.map)
    }

    /// One plain pass: reads each used word once, and adds it up.
    #[inline(never)]
    pub fn counted_pass(&self) -> u32 {
        self.c.used().iter().fold(0, |sum: u32, word| sum.wrapping_add(*word))
    }
}
