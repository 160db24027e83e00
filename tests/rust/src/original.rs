//! A call by the original, docs/src/src/list.rs as it stands, which tests/original has.

use crate::world::{Call, Outcome};
use original::list::{EntityList, ListPool};
use original::Word;

/// A pool of the original, and a table of its lists.
pub struct Original {
    pool: ListPool<Word>,
    lists: Vec<EntityList<Word>>,
}

impl Original {
    /// A new pool and a table of so many empty lists.
    pub fn cleared(slots: usize) -> Original {
        Original { pool: ListPool::new(), lists: vec![EntityList::new(); slots] }
    }

    /// The used words.
    pub fn words(&self) -> impl ExactSizeIterator<Item = u32> + '_ {
        self.pool.words().iter().map(|word| word.0)
    }

    /// The heads: "one the Rust has not made counts as 0".
    pub fn heads(&self) -> [u32; 15] {
        let mut heads = [0; 15];
        for (head, &made) in heads.iter_mut().zip(self.pool.heads()) {
            *head = made as u32;
        }
        heads
    }

    /// The handles.
    pub fn handles(&self) -> impl Iterator<Item = u32> + '_ {
        self.lists.iter().map(EntityList::handle)
    }

    /// Makes a call that the paper does not refuse, and gives what the library has to give.
    pub fn call(&mut self, call: &Call) -> Outcome {
        let Original { pool, lists } = self;
        let value = match *call {
            Call::IsEmpty { slot } => u32::from(lists[slot].is_empty()),
            Call::Len { slot } => lists[slot].len(pool) as u32,
            Call::IsValid { slot } => u32::from(lists[slot].is_valid(pool)),
            Call::AsSlice { slot } => {
                // `as_slice` carries no number, so it comes here for a slot that is not in the
                // table too: then the part is empty.
                let list = lists.get(slot).copied().unwrap_or_default();
                let first = list.handle() as usize;
                return Outcome::Part(first..first + list.as_slice(pool).len());
            }
            Call::Get { slot, position } => {
                lists[slot].get(position, pool).expect("the position is in the list").0
            }
            Call::First { slot } => lists[slot].first(pool).expect("the list is not empty").0,
            Call::Push { slot, element } => lists[slot].push(Word(element), pool) as u32,
            _ => {
                self.write(call);
                0
            }
        };
        Outcome::done(value)
    }

    /// Makes a call that has nothing to return.
    fn write(&mut self, call: &Call) {
        let Original { pool, lists } = self;
        match *call {
            Call::FromSlice { slot, ref elements } => {
                let elements: Vec<Word> = elements.iter().copied().map(Word).collect();
                lists[slot] = EntityList::from_slice(&elements, pool);
            }
            Call::Set { slot, position, element } => {
                *lists[slot].get_mut(position, pool).expect("the position is in the list") =
                    Word(element)
            }
            Call::DeepClone { slot, to } => lists[to] = lists[slot].deep_clone(pool),
            Call::Clear { slot } => lists[slot].clear(pool),
            Call::Take { slot, to } => lists[to] = lists[slot].take(),
            Call::Extend { slot, ref elements } => {
                lists[slot].extend(elements.iter().copied().map(Word), pool)
            }
            Call::CopyFrom { slot, source, start, end, position } => {
                let source = lists[source];
                lists[slot].copy_from(&source, start..end, position, pool);
            }
            Call::Insert { slot, position, element } => {
                lists[slot].insert(position, Word(element), pool)
            }
            Call::Remove { slot, position } => lists[slot].remove(position, pool),
            Call::SwapRemove { slot, position } => lists[slot].swap_remove(position, pool),
            Call::Truncate { slot, length } => lists[slot].truncate(length, pool),
            Call::GrowAt { slot, position, count } => lists[slot].grow_at(position, count, pool),
            Call::ClearPool => {
                pool.clear();
                lists.fill(EntityList::new());
            }
            _ => unreachable!(
                "a call that returns something, or one that the original has not: {call:?}"
            ),
        }
    }
}
