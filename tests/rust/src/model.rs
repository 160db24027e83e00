//! Paper 01 once more, in plain Rust: one function a rule, the paper's sentence above it.
//!
//! Written from the paper (docs/01-scope.md) and from how it is read (docs/DECISIONS.md), not from
//! the Rattle code, and with no eye to speed: sums are made in 128 bits, words that are read before
//! any is written are put aside in a vector, the audit counts each word's blocks.

use crate::world::{Call, Outcome, World};
use std::ops::Range;

/// "A lent pool of 0 to 65,536 words".
const POOL_LIMIT: usize = 65_536;

/// "a lent table of 0 to 16,384 handles".
const TABLE_LIMIT: usize = 16_384;

/// The longest length that has a class.
const LONGEST: u128 = 65_535;

/// "written MAX below".
const MAX: u32 = u32::MAX;

/// "2,147,483,648 + class (free)".
const FREE: u32 = 2_147_483_648;

// ---- the state

/// "Class of a length n: 30 minus the leading zeros of (n or 3) as 32 bits."
pub fn class(length: u32) -> usize {
    30 - (length | 3).leading_zeros() as usize
}

/// "Size of class c: 4 shifted left by c."
pub fn size(class: usize) -> u128 {
    4 << class
}

/// "A handle is locally sound if it is 0, or if it leaves 1 on division by 4, is below used, the
/// length before it is at least 1, and its whole block lies below used."
fn handle_is_sound(world: &World, handle: u32) -> bool {
    if handle == 0 {
        return true;
    }
    if handle % 4 != 1 || handle >= world.used {
        return false;
    }
    let block = handle as usize - 1;
    let length = world.pool[block];
    length >= 1 && block as u128 + size(class(length)) <= u128::from(world.used)
}

/// "A head is locally sound if it is 0, or leaves 1 on division by 4, has 0 in the word before it,
/// and its block of that class lies below used."
fn head_is_sound(world: &World, class: usize, head: u32) -> bool {
    if head == 0 {
        return true;
    }
    if head % 4 != 1 {
        return false;
    }
    let block = head as usize - 1;
    block as u128 + size(class) <= u128::from(world.used) && world.pool[block] == 0
}

/// "`len` gives the stored length (0 for handle 0)".
fn length(world: &World, slot: usize) -> u32 {
    match world.handles[slot] {
        0 => 0,
        handle => world.pool[handle as usize - 1],
    }
}

// ---- the numbers that come back

/// "The lowest number that applies is given, judged on the state at entry, before any word is
/// written."
fn number(world: &World, call: &Call) -> u32 {
    let rows =
        [over_limit, no_slot, bad_handle, outside, clash, bad_head, no_room, short_map, not_sound];
    let first = rows.iter().position(|applies| applies(world, call));
    first.map_or(0, |row| row as u32 + 1)
}

/// 1: "pool or table over its limit, used above the pool's length, or used not a multiple of 4".
/// "Pool `clear` [..] (used and heads within limits are not required for it, so it gives 1 only for
/// a length over its limit)."
fn over_limit(world: &World, call: &Call) -> bool {
    if world.pool.len() > POOL_LIMIT || world.handles.len() > TABLE_LIMIT {
        return true;
    }
    *call != Call::ClearPool && (world.used as usize > world.pool.len() || world.used % 4 != 0)
}

/// The slots that a call names, targets too.
fn slots(call: &Call) -> impl Iterator<Item = usize> {
    let (one, two) = match *call {
        Call::FromSlice { slot, .. }
        | Call::IsEmpty { slot }
        | Call::Len { slot }
        | Call::IsValid { slot }
        | Call::AsSlice { slot }
        | Call::Get { slot, .. }
        | Call::First { slot }
        | Call::Set { slot, .. }
        | Call::Clear { slot }
        | Call::Push { slot, .. }
        | Call::Extend { slot, .. }
        | Call::Insert { slot, .. }
        | Call::Remove { slot, .. }
        | Call::SwapRemove { slot, .. }
        | Call::Truncate { slot, .. }
        | Call::GrowAt { slot, .. } => (Some(slot), None),
        Call::DeepClone { slot, to } | Call::Take { slot, to } => (Some(slot), Some(to)),
        Call::CopyFrom { slot, source, .. } => (Some(slot), Some(source)),
        Call::ClearPool | Call::Audit { .. } => (None, None),
    };
    one.into_iter().chain(two)
}

/// 2: "a slot not in the table".
fn no_slot(world: &World, call: &Call) -> bool {
    slots(call).any(|slot| slot >= world.handles.len())
}

/// 3: "a named handle not locally sound".
fn bad_handle(world: &World, call: &Call) -> bool {
    slots(call).any(|slot| !handle_is_sound(world, world.handles[slot]))
}

/// 4: "a position or range outside the list". "`get`, set, `remove`, `swap_remove` need position <
/// length; `insert`, `grow_at` and the target of `copy_from` need position ≤ length; `first` needs
/// length ≥ 1; the source range needs start ≤ end ≤ source length."
fn outside(world: &World, call: &Call) -> bool {
    let long = |slot| length(world, slot) as usize;
    match *call {
        Call::Get { slot, position }
        | Call::Set { slot, position, .. }
        | Call::Remove { slot, position }
        | Call::SwapRemove { slot, position } => position >= long(slot),
        Call::Insert { slot, position, .. } | Call::GrowAt { slot, position, .. } => {
            position > long(slot)
        }
        Call::First { slot } => long(slot) < 1,
        Call::CopyFrom { slot, source, start, end, position } => {
            position > long(slot) || start > end || end > long(source)
        }
        _ => false,
    }
}

/// 5: "slots clash". "`from_slice` and `deep_clone` into a non-empty slot; `take` into the same or
/// a non-empty slot; `copy_from` between slots with equal handles, two empty lists included, as in
/// the Rust."
fn clash(world: &World, call: &Call) -> bool {
    match *call {
        Call::FromSlice { slot, .. } => world.handles[slot] != 0,
        Call::DeepClone { to, .. } => world.handles[to] != 0,
        Call::Take { slot, to } => slot == to || world.handles[to] != 0,
        Call::CopyFrom { slot, source, .. } => world.handles[slot] == world.handles[source],
        _ => false,
    }
}

/// The length before and the length after, for a call that makes a list of a new length.
fn lengths(world: &World, call: &Call) -> Option<(u128, u128)> {
    let long = |slot| u128::from(length(world, slot));
    match *call {
        Call::FromSlice { ref elements, .. } => Some((0, elements.len() as u128)),
        Call::DeepClone { slot, .. } => Some((0, long(slot))),
        Call::Push { slot, .. } | Call::Insert { slot, .. } => Some((long(slot), long(slot) + 1)),
        Call::Extend { slot, ref elements } => {
            Some((long(slot), long(slot) + elements.len() as u128))
        }
        Call::CopyFrom { slot, start, end, .. } => {
            Some((long(slot), long(slot) + (end - start) as u128))
        }
        Call::GrowAt { slot, count, .. } => Some((long(slot), long(slot) + count as u128)),
        Call::Remove { slot, .. } | Call::SwapRemove { slot, .. } => {
            Some((long(slot), long(slot) - 1))
        }
        // "`truncate` to the length or more makes no new length"
        Call::Truncate { slot, length } if (length as u128) < long(slot) => {
            Some((long(slot), length as u128))
        }
        _ => None,
    }
}

/// The length for which a block is needed: where the word rules allocate one, or the new length is
/// too long. "A length sum too large for its integer counts as over 65,535; a list's new length
/// over 65,535 has no class and always needs a block".
fn needed(world: &World, call: &Call) -> Option<u128> {
    let (before, after) = lengths(world, call)?;
    let moves = match (before, after) {
        (_, 0) => false,
        (0, _) => true,
        _ => after > LONGEST || class(before as u32) != class(after as u32),
    };
    moves.then_some(after)
}

/// 6: "a block is needed for a length up to 65,535 and its class's head is not locally sound".
fn bad_head(world: &World, call: &Call) -> bool {
    match needed(world, call) {
        Some(length) if length <= LONGEST => {
            let class = class(length as u32);
            !head_is_sound(world, class, world.heads[class])
        }
        _ => false,
    }
}

/// 7: "a block is needed, and its length is over 65,535, or its class's head is 0 and used + size
/// exceeds the pool".
fn no_room(world: &World, call: &Call) -> bool {
    match needed(world, call) {
        Some(length) if length <= LONGEST => {
            let class = class(length as u32);
            world.heads[class] == 0
                && u128::from(world.used) + size(class) > world.pool.len() as u128
        }
        Some(_) => true,
        None => false,
    }
}

/// 8: "audit only: map shorter than used / 4 words".
fn short_map(world: &World, call: &Call) -> bool {
    matches!(*call, Call::Audit { map_words } if map_words < world.used as usize / 4)
}

/// 9: "audit only: not sound".
fn not_sound(world: &World, call: &Call) -> bool {
    matches!(call, Call::Audit { .. }) && accepted(world).is_none()
}

// ---- the word rules

/// 2: "`alloc`: with a head h, the head becomes the word at h and the block is h - 1, its words
/// untouched. Else the block starts at used, all its words become MAX, used grows."
fn alloc(world: &mut World, class: usize) -> usize {
    let head = world.heads[class] as usize;
    if head != 0 {
        world.heads[class] = world.pool[head];
        return head - 1;
    }
    let block = world.used as usize;
    let end = block + size(class) as usize;
    world.pool[block..end].fill(MAX);
    world.used = end as u32;
    block
}

/// 3: "`free`: word 0 becomes 0, word 1 the old head, the head block + 1; other words stay."
fn free(world: &mut World, block: usize, class: usize) {
    world.pool[block] = 0;
    world.pool[block + 1] = world.heads[class];
    world.heads[class] = block as u32 + 1;
}

/// Copies words within the pool, "all read before any is written".
fn copy(world: &mut World, from: Range<usize>, to: usize) {
    let words = world.pool[from].to_vec();
    world.pool[to..to + words.len()].copy_from_slice(&words);
}

/// 4: "`realloc`: allocate, copy the first words (all read before any is written), then free the
/// old block."
fn realloc(world: &mut World, block: usize, from: usize, to: usize, words: usize) -> usize {
    let new = alloc(world, to);
    copy(world, block..block + words, new);
    free(world, block, from);
    new
}

/// Puts the block of a list into its slot: "The handle is block start + 1."
fn seat(world: &mut World, slot: usize, block: usize) {
    world.handles[slot] = block as u32 + 1;
}

/// Where the block of a list that is not empty starts.
fn block_of(world: &World, slot: usize) -> usize {
    world.handles[slot] as usize - 1
}

/// 5: "`push` allocates for an empty list and moves when the new length is 4, 8, 16 and so on,
/// copying length + 1 words; the length is written last." "`push` returns the old length."
fn push(world: &mut World, slot: usize, element: u32) -> u32 {
    let old = length(world, slot);
    let new = old + 1;
    let block = if old == 0 {
        alloc(world, class(new))
    } else if class(new) != class(old) {
        let block = block_of(world, slot);
        realloc(world, block, class(old), class(new), old as usize + 1)
    } else {
        block_of(world, slot)
    };
    seat(world, slot, block);
    world.pool[block + new as usize] = element;
    world.pool[block] = new;
    old
}

/// 6: "Growing by a count: to an empty list with count 0 does nothing, with more allocates;
/// otherwise moves when the class changes, copying length + 1 words. Then the new length is
/// written."
fn grow(world: &mut World, slot: usize, count: usize) {
    let old = length(world, slot);
    let new = old + count as u32;
    let block = if old == 0 {
        if count == 0 {
            return;
        }
        alloc(world, class(new))
    } else if class(new) != class(old) {
        let block = block_of(world, slot);
        realloc(world, block, class(old), class(new), old as usize + 1)
    } else {
        block_of(world, slot)
    };
    seat(world, slot, block);
    world.pool[block] = new;
}

/// 6: "`grow_at` then shifts the tail up from the top; the opened places keep what stood there."
fn grow_at(world: &mut World, slot: usize, position: usize, count: usize) {
    let old = length(world, slot) as usize;
    grow(world, slot, count);
    let first = world.handles[slot] as usize;
    for i in (position..old).rev() {
        world.pool[first + i + count] = world.pool[first + i];
    }
}

/// 6: "`extend` and `copy_from` fill them": here the places behind the old elements.
fn extend(world: &mut World, slot: usize, elements: &[u32]) {
    let old = length(world, slot) as usize;
    grow(world, slot, elements.len());
    let end = world.handles[slot] as usize + old;
    world.pool[end..end + elements.len()].copy_from_slice(elements);
}

/// 6: "`copy_from` takes its source words after the shift, all read before any is written." Its
/// source is the list that the source's handle named at entry.
fn copy_from(world: &mut World, slot: usize, source: usize, range: Range<usize>, position: usize) {
    let from = world.handles[source] as usize;
    grow_at(world, slot, position, range.len());
    let to = world.handles[slot] as usize + position;
    copy(world, from + range.start..from + range.end, to);
}

/// 7: "`insert` pushes the element, then shifts the tail up from the top and writes it at the
/// position."
fn insert(world: &mut World, slot: usize, position: usize, element: u32) {
    let old = push(world, slot, element) as usize;
    let first = world.handles[slot] as usize;
    for i in (position..old).rev() {
        world.pool[first + i + 1] = world.pool[first + i];
    }
    world.pool[first + position] = element;
}

/// 7: "`remove` shifts down".
fn remove(world: &mut World, slot: usize, position: usize) {
    let old = length(world, slot);
    let first = world.handles[slot] as usize;
    for i in position..old as usize - 1 {
        world.pool[first + i] = world.pool[first + i + 1];
    }
    remove_last(world, slot, old);
}

/// 7: "`swap_remove` exchanges with the last".
fn swap_remove(world: &mut World, slot: usize, position: usize) {
    let old = length(world, slot);
    let first = world.handles[slot] as usize;
    world.pool.swap(first + position, first + old as usize - 1);
    remove_last(world, slot, old);
}

/// 7: "then, at length 1, the list is cleared; at 4, 8, 16 and so on it moves one class down,
/// copying old-length words; the length is set."
fn remove_last(world: &mut World, slot: usize, old: u32) {
    let mut block = block_of(world, slot);
    if old == 1 {
        free(world, block, class(old));
        world.handles[slot] = 0;
        return;
    }
    if old >= 4 && old.is_power_of_two() {
        block = realloc(world, block, class(old), class(old) - 1, old as usize);
        seat(world, slot, block);
    }
    world.pool[block] = old - 1;
}

/// 8: "`truncate` to 0 clears; to the length or more does nothing; else moves if the class changes,
/// copying new length + 1 words, and then the new length is written."
fn truncate(world: &mut World, slot: usize, new: usize) {
    let old = length(world, slot);
    if new == 0 {
        return clear(world, slot);
    }
    if new >= old as usize {
        return;
    }
    let mut block = block_of(world, slot);
    let (from, to) = (class(old), class(new as u32));
    if from != to {
        block = realloc(world, block, from, to, new + 1);
        seat(world, slot, block);
    }
    world.pool[block] = new as u32;
}

/// 9: "`from_slice` and `deep_clone` allocate, write the length, then write the elements [..]; of
/// nothing or an empty list they leave the slot 0."
fn from_slice(world: &mut World, slot: usize, elements: &[u32]) {
    if elements.is_empty() {
        return;
    }
    let block = alloc(world, class(elements.len() as u32));
    world.pool[block] = elements.len() as u32;
    world.pool[block + 1..=block + elements.len()].copy_from_slice(elements);
    seat(world, slot, block);
}

/// 9: "(`deep_clone` reads all of them after the length is written and before the first is)".
fn deep_clone(world: &mut World, slot: usize, to: usize) {
    let length = length(world, slot);
    if length == 0 {
        return;
    }
    let first = world.handles[slot] as usize;
    let block = alloc(world, class(length));
    world.pool[block] = length;
    copy(world, first..first + length as usize, block + 1);
    seat(world, to, block);
}

/// 9: "`clear` frees the block, if any, and sets the handle to 0".
fn clear(world: &mut World, slot: usize) {
    if world.handles[slot] != 0 {
        let (block, class) = (block_of(world, slot), class(length(world, slot)));
        free(world, block, class);
    }
    world.handles[slot] = 0;
}

/// 9: "`take` moves the handle to the other slot and leaves 0."
fn take(world: &mut World, slot: usize, to: usize) {
    world.handles[to] = world.handles[slot];
    world.handles[slot] = 0;
}

/// 9: "`get` and `first` give the element's word".
fn get(world: &World, slot: usize, position: usize) -> u32 {
    world.pool[world.handles[slot] as usize + position]
}

/// 9: "setting writes that word alone."
fn set(world: &mut World, slot: usize, position: usize, element: u32) {
    world.pool[world.handles[slot] as usize + position] = element;
}

/// 9: "Pool `clear` sets used, heads and all handles to 0 and touches no pool word".
fn clear_pool(world: &mut World) {
    world.used = 0;
    world.heads = [0; 15];
    world.handles.fill(0);
}

/// "`as_slice` gives back a part of the caller's pool, not a copy; where the call would be refused,
/// and for handle 0, the part is empty." An empty part lies at 0: that is not the paper's word but
/// the library's.
fn as_slice(world: &World, slot: usize, refused: bool) -> Range<usize> {
    if refused || world.handles[slot] == 0 {
        return 0..0;
    }
    let first = world.handles[slot] as usize;
    first..first + length(world, slot) as usize
}

// ---- the audit

/// A block that a handle or a chain names, and what the map says of it.
struct Block {
    start: usize,
    words: usize,
    mark: u32,
}

/// The blocks that the handles name, or nothing where one is not locally sound. The mark is "slot +
/// 1 (live)".
fn live_blocks(world: &World) -> Option<Vec<Block>> {
    let mut blocks = Vec::new();
    for (slot, &handle) in world.handles.iter().enumerate() {
        if !handle_is_sound(world, handle) {
            return None;
        }
        if handle != 0 {
            let words = size(class(length(world, slot))) as usize;
            blocks.push(Block { start: handle as usize - 1, words, mark: slot as u32 + 1 });
        }
    }
    Some(blocks)
}

/// The blocks on the chain of a class, or nothing where a pointer is not locally sound or the chain
/// does not end: with more blocks than there are groups of four used words it has come back to one.
/// The mark is "2,147,483,648 + class (free)".
fn free_blocks(world: &World, class: usize) -> Option<Vec<Block>> {
    let mut blocks = Vec::new();
    let mut pointer = world.heads[class];
    while pointer != 0 {
        if !head_is_sound(world, class, pointer) || blocks.len() > world.used as usize / 4 {
            return None;
        }
        blocks.push(Block {
            start: pointer as usize - 1,
            words: size(class) as usize,
            mark: FREE + class as u32,
        });
        pointer = world.pool[pointer as usize];
    }
    Some(blocks)
}

/// "It accepts exactly the states of demand 3: every handle and every pointer on each chain locally
/// sound, chains ending, blocks disjoint and covering all used words." Gives the blocks of an
/// accepted state.
fn accepted(world: &World) -> Option<Vec<Block>> {
    let mut blocks = live_blocks(world)?;
    for class in 0..world.heads.len() {
        blocks.extend(free_blocks(world, class)?);
    }
    let mut covered = vec![false; world.used as usize];
    for block in &blocks {
        for word in &mut covered[block.start..block.start + block.words] {
            if *word {
                return None;
            }
            *word = true;
        }
    }
    covered.into_iter().all(|word| word).then_some(blocks)
}

/// "Accepted, the map says at a block's first group of four words slot + 1 (live) or
/// 2,147,483,648 + class (free), at its other groups 0. Map words past used / 4 stay." "with 9 the
/// first used / 4 map words become 0".
fn write_map(world: &mut World, blocks: &[Block]) {
    let groups = world.used as usize / 4;
    world.map[..groups].fill(0);
    for block in blocks {
        world.map[block.start / 4] = block.mark;
    }
}

// ---- the calls

/// Makes a call by the rules. "A refused call returns 0 as its value and changes nothing; with 9
/// the first used / 4 map words become 0." "A call that is done and has nothing to return gives
/// value 0."
pub fn call(world: &mut World, call: &Call) -> Outcome {
    let number = number(world, call);
    if let Call::AsSlice { slot } = *call {
        return Outcome::Part(as_slice(world, slot, number != 0));
    }
    if number == 9 {
        write_map(world, &[]);
    }
    if number != 0 {
        return Outcome::refused(number);
    }
    Outcome::done(deed(world, call))
}

/// Does what a call does that is not refused, and gives its value.
fn deed(world: &mut World, call: &Call) -> u32 {
    match *call {
        // "`is_empty` [..] gives 1 for handle 0, else 0."
        Call::IsEmpty { slot } => return u32::from(world.handles[slot] == 0),
        Call::Len { slot } => return length(world, slot),
        // "`is_valid` gives 1, or is refused where 1, 2 or 3 applies".
        Call::IsValid { .. } => return 1,
        Call::Get { slot, position } => return get(world, slot, position),
        Call::First { slot } => return get(world, slot, 0),
        Call::Push { slot, element } => return push(world, slot, element),
        Call::AsSlice { .. } => unreachable!("as_slice carries no number"),
        Call::FromSlice { slot, ref elements } => from_slice(world, slot, elements),
        Call::Set { slot, position, element } => set(world, slot, position, element),
        Call::DeepClone { slot, to } => deep_clone(world, slot, to),
        Call::Clear { slot } => clear(world, slot),
        Call::Take { slot, to } => take(world, slot, to),
        Call::Extend { slot, ref elements } => extend(world, slot, elements),
        Call::CopyFrom { slot, source, start, end, position } => {
            copy_from(world, slot, source, start..end, position)
        }
        Call::Insert { slot, position, element } => insert(world, slot, position, element),
        Call::Remove { slot, position } => remove(world, slot, position),
        Call::SwapRemove { slot, position } => swap_remove(world, slot, position),
        Call::Truncate { slot, length } => truncate(world, slot, length),
        Call::GrowAt { slot, position, count } => grow_at(world, slot, position, count),
        Call::ClearPool => clear_pool(world),
        Call::Audit { .. } => {
            let blocks = accepted(world).expect("the number is 0");
            write_map(world, &blocks);
        }
    }
    0
}
