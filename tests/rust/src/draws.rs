//! Random calls, worlds and damages.
//!
//! A call is drawn as a few numbers and read against the world at hand, so that most draws hit a
//! list, a boundary or an exact fit, and every number still shrinks towards 0: to the first slot,
//! the front of the list, the element 0.

use crate::world::{Call, World};
use proptest::collection::{vec, SizeRange};
use proptest::prelude::*;
use std::ops::RangeInclusive;

/// Sizes and positions that no list has, some of which look small when cut to 32 bits.
const HUGE: [usize; 8] = [
    65_535,
    65_536,
    1 << 31,
    u32::MAX as usize,
    1 << 32,
    (1 << 32) + 1,
    usize::MAX - 1,
    usize::MAX,
];

/// The numbers that a random call is made from.
#[derive(Clone, Copy, Debug)]
pub struct Draw {
    kind: u8,
    slot: u16,
    other: u16,
    place: u16,
    amount: u16,
    element: u32,
}

/// Draws of calls.
pub fn draws(count: impl Into<SizeRange>) -> impl Strategy<Value = Vec<Draw>> {
    let numbers = (
        0..KINDS.len() as u8,
        any::<u16>(),
        any::<u16>(),
        any::<u16>(),
        any::<u16>(),
        any::<u32>(),
    );
    let draw = numbers.prop_map(|(kind, slot, other, place, amount, element)| Draw {
        kind,
        slot,
        other,
        place,
        amount,
        element,
    });
    vec(draw, count)
}

/// Reads a draw as a call.
type Reading = fn(&Draw, &World) -> Call;

/// The kinds of calls, those that move blocks more than once.
#[rustfmt::skip]
const KINDS: [Reading; 36] = [
    push, push, push, push, push, clear, insert, insert, insert, remove, remove, remove,
    swap_remove, swap_remove, truncate, truncate, extend, extend, extend, from_slice, from_slice,
    deep_clone, grow_at, grow_at, copy_from, copy_from, copy_from, take,
    set, get, first, len, is_empty, is_valid, as_slice, rare,
];

impl Draw {
    /// The call that the draw means in a world.
    pub fn call(&self, world: &World) -> Call {
        KINDS[self.kind as usize](self, world)
    }
}

/// A slot, mostly one of the table.
fn slot(draw: u16, world: &World) -> usize {
    let slots = world.handles.len();
    match draw {
        0xfc00.. => {
            [slots, slots + 1, usize::MAX, (1 << 32) + (draw as usize & 3)][draw as usize / 4 % 4]
        }
        _ => draw as usize % slots.max(1),
    }
}

/// A slot: mostly the first from a slot on whose handle is one of those wanted.
fn wanted(draw: u16, world: &World, want: impl Fn(u32) -> bool) -> usize {
    let (slot, slots) = (slot(draw, world), world.handles.len());
    match draw {
        0x0000..=0xdfff => (slot..slot + slots)
            .map(|slot| slot % slots)
            .find(|&slot| want(world.handles[slot]))
            .unwrap_or(slot),
        _ => slot,
    }
}

/// A slot to be filled: mostly an empty one.
fn empty(draw: u16, world: &World) -> usize {
    wanted(draw, world, |handle| handle == 0)
}

/// A slot to take something from: mostly one that is not empty.
fn filled(draw: u16, world: &World) -> usize {
    wanted(draw, world, |handle| handle != 0)
}

/// A position for a list of a length: mostly inside, often at its end, sometimes just behind or far
/// beyond.
fn position(draw: u16, length: usize) -> usize {
    match draw {
        0x0000..=0xbfff => draw as usize % (length.min(65_536) + 1),
        0xc000..=0xdfff => length.saturating_sub(1),
        0xe000..=0xf7ff => length,
        0xf800..=0xfbff => length + 1,
        _ => HUGE[draw as usize % HUGE.len()],
    }
}

/// A length at the boundary of two classes: a power of two, one less or one more.
fn boundary(draw: u16) -> usize {
    (4 << (draw as usize / 3 % 15)) + draw as usize % 3 - 1
}

/// A count to grow a list by: mostly a few, else up to a boundary of classes, or so that a block
/// fits exactly behind the used words.
fn count(draw: u16, length: usize, world: &World) -> usize {
    match draw {
        0x0000..=0x9fff => draw as usize % 10,
        0xa000..=0xcfff => boundary(draw % 24).saturating_sub(length),
        0xd000..=0xdfff => boundary(draw).saturating_sub(length),
        0xe000..=0xfbff => {
            let room = world.pool.len().saturating_sub(world.used as usize);
            let largest = (room + 1).next_power_of_two() / 2;
            (largest + draw as usize % 2).saturating_sub(1).saturating_sub(length)
        }
        _ => HUGE[draw as usize % HUGE.len()],
    }
}

/// An element: often a small one, which looks like a length, a handle of the pool, or the reserved
/// value.
fn element(draw: u32, world: &World) -> u32 {
    match draw >> 28 {
        0..=5 => draw & 15,
        6..=8 => (draw % (world.used / 4).max(1)) * 4 + 1,
        9 => u32::MAX,
        _ => draw,
    }
}

/// Elements to be lent: a count of them, not many more than the pool has words.
fn elements(draw: &Draw, count: usize, world: &World) -> Vec<u32> {
    let first = element(draw.element, world);
    let count = count.min(world.pool.len() + 5);
    (0..count as u32).map(|i| first.wrapping_add(i.wrapping_mul(draw.element | 1))).collect()
}

fn push(draw: &Draw, world: &World) -> Call {
    Call::Push { slot: slot(draw.slot, world), element: element(draw.element, world) }
}

fn clear(draw: &Draw, world: &World) -> Call {
    Call::Clear { slot: slot(draw.slot, world) }
}

fn insert(draw: &Draw, world: &World) -> Call {
    let slot = slot(draw.slot, world);
    Call::Insert {
        slot,
        position: position(draw.place, world.rough_length(slot)),
        element: element(draw.element, world),
    }
}

fn remove(draw: &Draw, world: &World) -> Call {
    let slot = filled(draw.slot, world);
    Call::Remove { slot, position: position(draw.place, world.rough_length(slot)) }
}

fn swap_remove(draw: &Draw, world: &World) -> Call {
    let slot = filled(draw.slot, world);
    Call::SwapRemove { slot, position: position(draw.place, world.rough_length(slot)) }
}

fn truncate(draw: &Draw, world: &World) -> Call {
    let slot = filled(draw.slot, world);
    let length = match draw.amount {
        0xa000.. => boundary(draw.place),
        _ => position(draw.place, world.rough_length(slot)),
    };
    Call::Truncate { slot, length }
}

fn extend(draw: &Draw, world: &World) -> Call {
    let slot = slot(draw.slot, world);
    Call::Extend {
        slot,
        elements: elements(draw, count(draw.amount, world.rough_length(slot), world), world),
    }
}

fn from_slice(draw: &Draw, world: &World) -> Call {
    Call::FromSlice {
        slot: empty(draw.slot, world),
        elements: elements(draw, count(draw.amount, 0, world), world),
    }
}

fn deep_clone(draw: &Draw, world: &World) -> Call {
    Call::DeepClone { slot: filled(draw.slot, world), to: empty(draw.other, world) }
}

fn take(draw: &Draw, world: &World) -> Call {
    Call::Take { slot: filled(draw.slot, world), to: empty(draw.other, world) }
}

fn grow_at(draw: &Draw, world: &World) -> Call {
    let slot = slot(draw.slot, world);
    let length = world.rough_length(slot);
    Call::GrowAt {
        slot,
        position: position(draw.place, length),
        count: count(draw.amount, length, world),
    }
}

fn copy_from(draw: &Draw, world: &World) -> Call {
    let source = filled(draw.other, world);
    let slot = wanted(draw.slot, world, |handle| Some(&handle) != world.handles.get(source));
    let length = world.rough_length(source);
    let start = position(draw.element as u16, length);
    let end = match draw.amount {
        0x0000..=0xdfff => start
            .saturating_add(draw.amount as usize % (length.saturating_sub(start).min(65_536) + 1)),
        _ => position(draw.amount << 3, length),
    };
    Call::CopyFrom {
        slot,
        source,
        start,
        end,
        position: position(draw.place, world.rough_length(slot)),
    }
}

fn set(draw: &Draw, world: &World) -> Call {
    let slot = filled(draw.slot, world);
    Call::Set {
        slot,
        position: position(draw.place, world.rough_length(slot)),
        element: element(draw.element, world),
    }
}

fn get(draw: &Draw, world: &World) -> Call {
    let slot = filled(draw.slot, world);
    Call::Get { slot, position: position(draw.place, world.rough_length(slot)) }
}

fn first(draw: &Draw, world: &World) -> Call {
    Call::First { slot: filled(draw.slot, world) }
}

fn len(draw: &Draw, world: &World) -> Call {
    Call::Len { slot: slot(draw.slot, world) }
}

fn is_empty(draw: &Draw, world: &World) -> Call {
    Call::IsEmpty { slot: slot(draw.slot, world) }
}

fn is_valid(draw: &Draw, world: &World) -> Call {
    Call::IsValid { slot: slot(draw.slot, world) }
}

fn as_slice(draw: &Draw, world: &World) -> Call {
    Call::AsSlice { slot: slot(draw.slot, world) }
}

/// The audit, with a map that is long enough, exactly long enough or one short; and, rarely,
/// clearing the pool.
fn rare(draw: &Draw, world: &World) -> Call {
    let (long, groups) = (world.map.len(), world.used as usize / 4);
    match draw.amount {
        0xf000.. => Call::ClearPool,
        0x8000.. => Call::Audit { map_words: long },
        0x4000.. => Call::Audit { map_words: groups.min(long) },
        _ => Call::Audit { map_words: groups.saturating_sub(1).min(long) },
    }
}

/// Lengths of pools: small ones, whose every word counts; those in which blocks fit exactly; and a
/// few large ones.
pub fn pool_lengths() -> impl Strategy<Value = usize> {
    prop_oneof![
        150 => 0_usize..=40,
        300 => (8_usize..=64).prop_map(|groups| groups * 4),
        200 => (4_u32..=9).prop_map(|power| (1 << power) - 4),
        345 => 200_usize..=1100,
        5 => prop::sample::select(vec![4096_usize, 16_384, 65_532, 65_536]),
    ]
}

/// Cleared worlds: a pool with any words, and a small table.
pub fn cleared_worlds() -> impl Strategy<Value = World> {
    (pool_lengths(), any::<u32>(), 1_usize..=9)
        .prop_map(|(words, value, slots)| World::cleared(words, value, slots))
}

/// Cleared worlds, a few of them with a pool or a table over the limit.
pub fn limits_and_beyond() -> impl Strategy<Value = World> {
    prop_oneof![
        60 => cleared_worlds(),
        1 => (65_537_usize..65_545).prop_map(|words| World::cleared(words, 0, 3)),
        1 => (16_383_usize..16_390).prop_map(|slots| World::cleared(64, 0, slots)),
        1 => Just(World::cleared(16, 0, 0)),
    ]
}

/// What is done to a world to damage it.
#[derive(Clone, Copy, Debug)]
pub struct Damage {
    kind: u8,
    place: u16,
    value: u32,
}

/// Draws of damages.
pub fn damages(count: impl Into<SizeRange>) -> impl Strategy<Value = Vec<Damage>> {
    vec(
        (0_u8..16, any::<u16>(), any::<u32>()).prop_map(|(kind, place, value)| Damage {
            kind,
            place,
            value,
        }),
        count,
    )
}

impl Damage {
    /// Damages a world: a word, a head, a handle or the used count is changed, or a block is
    /// planted where there is none.
    pub fn strike(&self, world: &mut World) {
        let Damage { kind, place, value } = *self;
        let word = place as usize % (world.used as usize).min(world.pool.len()).max(1);
        let class = if place < 0xe000 { place as usize % 5 } else { place as usize % 15 };
        let slot = place as usize % world.handles.len().max(1);
        match kind {
            0..=2 => change(world.pool.get_mut(word), amiss(value, world.used)),
            3 => change(world.pool.get_mut(place as usize), amiss(value, world.used)),
            4 => flip(world.pool.get_mut(word), value),
            5 | 6 => world.heads[class] = amiss(value, world.used),
            7 => flip(Some(&mut world.heads[class]), value),
            8 | 9 => change(world.handles.get_mut(slot), amiss(value, world.used)),
            10 => flip(world.handles.get_mut(slot), value),
            11 => world.used = count_amiss(value, world),
            12 | 13 => {
                change(world.pool.get_mut(word / 4 * 4), value % 12);
                change(world.handles.get_mut(slot), word as u32 / 4 * 4 + 1);
            }
            _ => {
                change(world.pool.get_mut(word / 4 * 4), 0);
                world.heads[class] = word as u32 / 4 * 4 + 1;
            }
        }
    }
}

/// Changes a word, if there is one.
fn change(word: Option<&mut u32>, value: u32) {
    if let Some(word) = word {
        *word = value;
    }
}

/// Flips a bit of a word, if there is one.
fn flip(word: Option<&mut u32>, bit: u32) {
    if let Some(word) = word {
        *word ^= 1 << (bit % 32);
    }
}

/// A word that may well be taken for another: 0, a small length, a handle, the length of a block
/// without end.
fn amiss(draw: u32, used: u32) -> u32 {
    match draw >> 28 {
        0..=3 => draw % 40,
        4..=9 => (draw % (used / 4).saturating_add(2)).wrapping_mul(4).wrapping_add(1),
        10 => used.wrapping_sub(3),
        11 => 1 << (draw % 32),
        12 => u32::MAX,
        13 => u32::MAX - 2 - draw % 4,
        _ => draw,
    }
}

/// A used count that is not the right one.
fn count_amiss(draw: u32, world: &World) -> u32 {
    let words = world.pool.len() as u32;
    match draw >> 28 {
        0..=9 => draw % (words / 4 + 2) * 4,
        10 => world.used.wrapping_add(1),
        11 => world.used.wrapping_sub(4),
        12 => words & !3,
        13 => u32::MAX - 3,
        _ => draw,
    }
}

/// Worlds of any make: short, of words that look like lengths and pointers, so that blocks overlap,
/// chains run into each other and lists share blocks.
pub fn any_worlds() -> impl Strategy<Value = World> {
    let words = |count: RangeInclusive<usize>| vec(any::<u16>(), count);
    (words(0..=72), words(0..=6), words(4..=4), any::<u16>(), any::<u16>()).prop_map(
        |(pool, handles, heads, used, map)| {
            let groups = pool.len() as u32 / 4;
            let used = match used {
                0xf800.. => u32::from(used) % (groups * 4 + 9),
                0x8000.. => groups * 4,
                _ => u32::from(used) % (groups + 1) * 4,
            };
            let mut world = World {
                used,
                heads: [0; 15],
                pool: vec![],
                handles: vec![],
                map: vec![7; 20 - map.leading_zeros() as usize],
            };
            for (head, draw) in world.heads.iter_mut().zip(heads) {
                *head = pointer(draw, groups);
            }
            world.handles = handles.into_iter().map(|draw| pointer(draw, groups)).collect();
            world.pool = pool
                .into_iter()
                .enumerate()
                .map(|(at, draw)| likely_word(draw, at, groups))
                .collect();
            world
        },
    )
}

/// A pointer into a pool of so many groups of four words, mostly one that could be sound.
fn pointer(draw: u16, groups: u32) -> u32 {
    match draw {
        0x0000..=0x5fff => 0,
        0xf800.. => u32::from(draw) % 80,
        _ => u32::from(draw) % (groups + 1) * 4 + 1,
    }
}

/// A word of a pool of so many groups: a length or the 0 of a free block where one could start, a
/// next where one could be, or any of those.
fn likely_word(draw: u16, at: usize, groups: u32) -> u32 {
    let draw = u32::from(draw);
    match (draw, at % 4) {
        (0xfc00.., _) => u32::MAX - draw % 3,
        (0xf800.., _) => 1 << (draw % 32),
        (0xd000.., _) => draw % 40,
        (0x6000.., 0) => draw % 8,
        (0x6000.., 1) => draw % (groups + 1) * 4 + 1,
        (0x3000.., _) => draw % 9,
        _ => 0,
    }
}
