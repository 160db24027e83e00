//! The calls of each case, the same for each side.

use crate::inputs::{self, Call, Lengths, Numbers, Step, FEW, LONG, MANY, PIECE, SHORT};
use crate::sides::{Pushes, Side};
use std::ops::Range;

/// The calls of a mix.
const MIX: usize = 1_000_000;

/// The longest of the lists that are built at once and cleared.
const BUILT: usize = 31;

/// What a round comes to: what its calls returned, added up, and all lists after it.
pub type Outcome = (usize, Vec<Vec<u32>>);

/// Calls that are timed together: a round of them on a pool that is prepared for it.
pub struct Case<S> {
    /// The calls of a round.
    pub calls: usize,
    /// The slots of the table.
    pub slots: usize,
    prepare: Box<dyn Fn(&mut S)>,
    round: Box<dyn Fn(&mut S) -> usize>,
}

impl<S: Pushes> Case<S> {
    /// Clears the pool, and fills it with what the round needs.
    pub fn prepare(&self, side: &mut S) {
        side.clear_pool();
        (self.prepare)(side);
    }

    /// The calls. What they return is added up.
    #[inline(never)]
    pub fn counted_round(&self, side: &mut S) -> usize {
        (self.round)(side)
    }

    /// What a round comes to on a side of its own.
    pub fn outcome(&self) -> Outcome {
        let mut side = S::cleared(self.slots);
        self.prepare(&mut side);
        let sum = self.counted_round(&mut side);
        (sum, (0..self.slots).map(|slot| side.as_slice(slot).to_vec()).collect())
    }
}

/// The lists of a case: how many, and how long they become.
#[derive(Clone, Copy)]
struct Shape {
    lists: usize,
    longest: usize,
}

/// Few long lists.
const LONG_LISTS: Shape = Shape { lists: FEW, longest: LONG };

/// Many short lists.
const SHORT_LISTS: Shape = Shape { lists: MANY, longest: SHORT };

impl Shape {
    /// A slot and a length for each step that makes each list in turn longer, from nothing.
    fn up(self) -> impl Iterator<Item = (u32, usize)> {
        (0..self.lists as u32).flat_map(move |slot| (0..self.longest).map(move |len| (slot, len)))
    }

    /// A slot and a length for each step that makes each list in turn shorter, from its longest.
    fn down(self) -> impl Iterator<Item = (u32, usize)> {
        self.up().map(move |(slot, length)| (slot, self.longest - length))
    }

    /// The elements of all lists, one list after the other.
    fn elements(self) -> Vec<u32> {
        Numbers::new(1).words(self.lists * self.longest)
    }

    /// Puts all lists at their longest.
    fn fill<S: Side>(self) -> Box<dyn Fn(&mut S)> {
        let elements = self.elements();
        Box::new(move |side| {
            for (slot, list) in elements.chunks(self.longest).enumerate() {
                side.from_slice(slot, list);
            }
        })
    }

    /// A case of these lists: one call for each of the inputs.
    fn case<S, I: 'static>(
        self,
        prepare: Box<dyn Fn(&mut S)>,
        inputs: Vec<I>,
        call: impl Fn(&mut S, &I) -> usize + 'static,
    ) -> Case<S> {
        let calls = inputs.len();
        let round = move |side: &mut S| {
            inputs.iter().fold(0, |sum: usize, input| sum.wrapping_add(call(side, input)))
        };
        Case { calls, slots: self.lists, prepare, round: Box::new(round) }
    }
}

/// Nothing to prepare.
fn empty<S>() -> Box<dyn Fn(&mut S)> {
    Box::new(|_| ())
}

/// `push`: each list in turn from nothing to its longest.
fn push<S: Pushes>(shape: Shape) -> Case<S> {
    let inputs: Vec<(u32, u32)> =
        shape.up().zip(shape.elements()).map(|((slot, _), element)| (slot, element)).collect();
    shape.case(empty(), inputs, |side, &(slot, element)| side.push(slot as usize, element))
}

/// `insert`: each list in turn from nothing to its longest, at any position.
fn insert<S: Side>(shape: Shape) -> Case<S> {
    let mut numbers = Numbers::new(2);
    let inputs: Vec<(u32, u32, u32)> = (shape.up().zip(shape.elements()))
        .map(|((slot, length), element)| (slot, numbers.below(length + 1) as u32, element))
        .collect();
    shape.case(empty(), inputs, |side, &(slot, position, element)| {
        side.insert(slot as usize, position as usize, element);
        0
    })
}

/// `extend`: each list in turn from nothing to its longest, by 1 to 4 elements at a time.
fn extend<S: Side>(shape: Shape) -> Case<S> {
    let mut numbers = Numbers::new(3);
    let elements = shape.elements();
    let mut inputs: Vec<(u32, Range<u32>)> = Vec::new();
    for slot in 0..shape.lists {
        let (mut at, end) = (slot * shape.longest, (slot + 1) * shape.longest);
        while at < end {
            let next = end.min(at + 1 + numbers.below(PIECE));
            inputs.push((slot as u32, at as u32..next as u32));
            at = next;
        }
    }
    shape.case(empty(), inputs, move |side, (slot, part)| {
        side.extend(*slot as usize, &elements[part.start as usize..part.end as usize]);
        0
    })
}

/// `swap_remove`: each list in turn from its longest to nothing, at any position.
fn swap_remove<S: Side>(shape: Shape) -> Case<S> {
    let mut numbers = Numbers::new(4);
    let inputs: Vec<(u32, u32)> =
        shape.down().map(|(slot, length)| (slot, numbers.below(length) as u32)).collect();
    shape.case(shape.fill(), inputs, |side, &(slot, position)| {
        side.swap_remove(slot as usize, position as usize);
        0
    })
}

/// `remove` of the first element: each list in turn from its longest to nothing.
fn remove_first<S: Side>(shape: Shape) -> Case<S> {
    let inputs: Vec<u32> = shape.down().map(|(slot, _)| slot).collect();
    shape.case(shape.fill(), inputs, |side, &slot| {
        side.remove(slot as usize, 0);
        0
    })
}

/// `get` of each element of each list.
fn get<S: Side>(shape: Shape) -> Case<S> {
    let inputs: Vec<(u32, u32)> =
        shape.up().map(|(slot, position)| (slot, position as u32)).collect();
    shape.case(shape.fill(), inputs, |side, &(slot, position)| {
        side.get(slot as usize, position as usize) as usize
    })
}

/// `as_slice` of each list, over and over, and the sum of its elements.
fn as_slice<S: Side>(shape: Shape) -> Case<S> {
    let inputs: Vec<u32> = (0..8 * MANY).map(|call| (call % shape.lists) as u32).collect();
    shape.case(shape.fill(), inputs, |side, &slot| {
        side.as_slice(slot as usize).iter().fold(0, |sum: u32, word| sum.wrapping_add(*word))
            as usize
    })
}

/// A call that builds each list at once, of 1 to 31 elements, and then `clear` of each.
fn build<S: Side>(build: impl Fn(&mut S, usize, &[u32]) + 'static) -> Case<S> {
    let mut numbers = Numbers::new(5);
    let elements = numbers.words(BUILT);
    let lengths: Vec<u32> = (0..MANY).map(|_| 1 + numbers.below(BUILT) as u32).collect();
    let round = move |side: &mut S| {
        for (slot, &length) in lengths.iter().enumerate() {
            build(side, slot, &elements[..length as usize]);
        }
        for slot in 0..lengths.len() {
            side.clear(slot);
        }
        0
    };
    Case { calls: 2 * MANY, slots: MANY, prepare: empty(), round: Box::new(round) }
}

/// A mix of the four calls, a million.
fn mix<S: Side>(shape: Shape, lengths: Lengths) -> Case<S> {
    let words = Numbers::new(6).words(4_096);
    let inputs = inputs::mix(7, MIX, shape.lists, shape.longest, lengths, words.len());
    shape.case(empty(), inputs, move |side, step| {
        let &Step { call, slot, position, element } = step;
        let (slot, position) = (slot as usize, position as usize);
        match call {
            Call::Push => return side.push(slot, element),
            Call::Insert => side.insert(slot, position, element),
            Call::SwapRemove => side.swap_remove(slot, position),
            Call::Extend => {
                side.extend(slot, &words[element as usize..element as usize + position])
            }
        }
        0
    })
}

/// All cases, in the order of the tables.
pub const ALL: [&str; 20] = [
    "mix 1000",
    "mix 1000 full",
    "mix 8",
    "mix 8 full",
    "push 1000",
    "push 8",
    "insert 1000",
    "insert 8",
    "extend 1000",
    "extend 8",
    "swap_remove 1000",
    "swap_remove 8",
    "remove first 1000",
    "remove first 8",
    "get 1000",
    "get 8",
    "as_slice 1000",
    "as_slice 8",
    "from_slice clear",
    "extend clear",
];

/// The case of a name, if it is `push` alone.
pub fn pushes<S: Pushes>(name: &str) -> Option<Case<S>> {
    Some(match name {
        "push 1000" => push(LONG_LISTS),
        "push 8" => push(SHORT_LISTS),
        _ => return None,
    })
}

/// The case of a name.
pub fn named<S: Side>(name: &str) -> Option<Case<S>> {
    Some(match name {
        "mix 1000" => mix(LONG_LISTS, Lengths::All),
        "mix 1000 full" => mix(LONG_LISTS, Lengths::Full),
        "mix 8" => mix(SHORT_LISTS, Lengths::All),
        "mix 8 full" => mix(SHORT_LISTS, Lengths::Full),
        "insert 1000" => insert(LONG_LISTS),
        "insert 8" => insert(SHORT_LISTS),
        "extend 1000" => extend(LONG_LISTS),
        "extend 8" => extend(SHORT_LISTS),
        "swap_remove 1000" => swap_remove(LONG_LISTS),
        "swap_remove 8" => swap_remove(SHORT_LISTS),
        "remove first 1000" => remove_first(LONG_LISTS),
        "remove first 8" => remove_first(SHORT_LISTS),
        "get 1000" => get(LONG_LISTS),
        "get 8" => get(SHORT_LISTS),
        "as_slice 1000" => as_slice(LONG_LISTS),
        "as_slice 8" => as_slice(SHORT_LISTS),
        "from_slice clear" => build(|side: &mut S, slot, list| side.from_slice(slot, list)),
        "extend clear" => build(|side: &mut S, slot, list| side.extend(slot, list)),
        _ => return pushes(name),
    })
}
