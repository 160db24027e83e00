//! The rows of docs/DIFFERENCES.md: the row's input on the original, with what it does there, and on
//! the library and the model, with the number or the words.
//!
//! A test has the number of its row. They are run twice, as `tests/rust/run` builds them: in the
//! release profile and, since some rows tell of debug builds, in the dev profile with debug
//! assertions and overflow checks, which the original then has too.

use beside::fixed::{done, list, refused, world, M};
use beside::panics::caught;
use beside::world::{Call, World};
use original::list::{EntityList, ListPool};
use original::packed_option::ReservedValue;
use original::{EntityRef, Word};

/// Is the original built with debug assertions and overflow checks?
const DEBUG: bool = cfg!(debug_assertions);

type Pool = ListPool<Word>;
type List = EntityList<Word>;

/// A pool of the original with the used words and the heads of a world, and its lists.
fn original(world: &World) -> (Pool, Vec<List>) {
    let words = world.pool[..world.used as usize].iter().copied().map(Word).collect();
    let made = world.heads.iter().rposition(|&head| head != 0).map_or(0, |last| last + 1);
    let heads = world.heads[..made].iter().map(|&head| head as usize).collect();
    let lists = world.handles.iter().map(|&handle| List::of_handle(handle)).collect();
    (Pool::of_parts(words, heads), lists)
}

/// The words of a pool of the original.
fn words(pool: &Pool) -> Vec<u32> {
    pool.words().iter().map(|word| word.0).collect()
}

/// The elements of a list of the original.
fn elements(list: &List, pool: &Pool) -> Vec<u32> {
    list.as_slice(pool).iter().map(|word| word.0).collect()
}

/// Something panics, and says so with these words in it.
fn panics<R>(with: &str, what: impl FnOnce() -> R) {
    match caught(what) {
        Ok(_) => panic!("nothing panicked with '{with}'"),
        Err(said) => assert!(said.contains(with), "'{said}' and not '{with}'"),
    }
}

/// An empty list in a pool with no words.
fn nothing() -> World {
    world(&[], &[], &[0])
}

/// `[7]` in slot 0, and empty lists in the slots 1 and 2.
fn seven() -> World {
    world(&[1, 7, M, M], &[], &[1, 0, 0])
}

/// A handle of a list that is no longer there, 9, in a pool with 4 used words.
fn stale() -> World {
    world(&[1, 7, M, M], &[], &[9, 0])
}

/// A handle of a list whose block was given back by way of another handle.
fn given_back() -> World {
    world(&[0, 0, M, M], &[(0, 1)], &[1, 0])
}

#[test]
fn row_01_a_pool_that_is_full() {
    let (mut pool, mut lists) = original(&nothing());
    assert_eq!(lists[0].push(Word(7), &mut pool), 0);
    assert_eq!(words(&pool), [1, 7, M, M]);
    refused(&nothing(), Call::Push { slot: 0, element: 7 }, 7);
}

#[test]
fn row_02_a_slot_that_is_not_in_the_table() {
    let entry = world(&[1, 7, M, M], &[], &[1]);
    let calls = [
        Call::FromSlice { slot: 1, elements: vec![] },
        Call::IsEmpty { slot: 1 },
        Call::Len { slot: 1 },
        Call::IsValid { slot: 1 },
        Call::Get { slot: 1, position: 0 },
        Call::First { slot: 1 },
        Call::Set { slot: 1, position: 0, element: 1 },
        Call::DeepClone { slot: 0, to: 1 },
        Call::DeepClone { slot: 1, to: 0 },
        Call::Clear { slot: 1 },
        Call::Take { slot: 0, to: 1 },
        Call::Take { slot: 1, to: 0 },
        Call::Push { slot: 1, element: 1 },
        Call::Extend { slot: 1, elements: vec![] },
        Call::CopyFrom { slot: 0, source: 1, start: 0, end: 0, position: 0 },
        Call::CopyFrom { slot: 1, source: 0, start: 0, end: 0, position: 0 },
        Call::Insert { slot: 1, position: 0, element: 1 },
        Call::Remove { slot: 1, position: 0 },
        Call::SwapRemove { slot: 1, position: 0 },
        Call::Truncate { slot: 1, length: 0 },
        Call::GrowAt { slot: 1, position: 0, count: 0 },
    ];
    for call in calls {
        refused(&entry, call, 2);
    }
    assert_eq!(list(&entry, 1), []);
}

#[test]
fn row_03_a_stale_handle_behind_the_used_words_is_read() {
    let (pool, lists) = original(&stale());
    assert_eq!((elements(&lists[0], &pool), lists[0].len(&pool)), (vec![], 0));
    assert_eq!(lists[0].get(0, &pool), None);
    assert_eq!((lists[0].is_empty(), lists[0].is_valid(&pool)), (false, false));
    refused(&stale(), Call::Len { slot: 0 }, 3);
    refused(&stale(), Call::Get { slot: 0, position: 0 }, 3);
    refused(&stale(), Call::IsEmpty { slot: 0 }, 3);
    refused(&stale(), Call::IsValid { slot: 0 }, 3);
    assert_eq!(list(&stale(), 0), []);
}

#[test]
fn row_04_a_handle_that_does_not_leave_1() {
    let entry = world(&[1, 7, M, M], &[], &[2]);
    let (pool, lists) = original(&entry);
    assert_eq!(lists[0].len(&pool), 7);
    refused(&entry, Call::Len { slot: 0 }, 3);
}

#[test]
fn row_05_a_stale_handle_before_which_an_element_stands() {
    let entry = world(&[7, 1, 2, 3, 9, 5, 6, 7], &[], &[1, 5]);
    let (pool, lists) = original(&entry);
    panics("out of range", || lists[1].as_slice(&pool));
    refused(&entry, Call::Len { slot: 1 }, 3);
    assert_eq!(list(&entry, 1), []);
}

#[test]
fn row_06_get_and_set_outside() {
    let (mut pool, mut lists) = original(&seven());
    assert_eq!(lists[0].get(1, &pool), None);
    assert_eq!(lists[0].get_mut(1, &mut pool), None);
    refused(&seven(), Call::Get { slot: 0, position: 1 }, 4);
    refused(&seven(), Call::Set { slot: 0, position: 1, element: 8 }, 4);
}

#[test]
fn row_07_the_first_of_nothing() {
    let (pool, lists) = original(&nothing());
    assert_eq!(lists[0].first(&pool), None);
    refused(&nothing(), Call::First { slot: 0 }, 4);
}

#[test]
fn row_08_remove_outside() {
    let (mut pool, mut lists) = original(&seven());
    if DEBUG {
        panics("index < len", || lists[0].remove(1, &mut pool));
    } else {
        lists[0].remove(1, &mut pool);
        assert!(lists[0].is_empty());
    }
    refused(&seven(), Call::Remove { slot: 0, position: 1 }, 4);
}

#[test]
fn row_09_remove_from_nothing() {
    let (mut pool, mut lists) = original(&nothing());
    let said = if DEBUG { "index < len" } else { "index out of bounds" };
    panics(said, || lists[0].remove(0, &mut pool));
    refused(&nothing(), Call::Remove { slot: 0, position: 0 }, 4);
}

#[test]
fn row_10_swap_remove_outside() {
    let (mut pool, mut lists) = original(&seven());
    let said = if DEBUG { "index < len" } else { "index out of bounds" };
    panics(said, || lists[0].swap_remove(1, &mut pool));
    panics(said, || lists[1].swap_remove(0, &mut pool));
    refused(&seven(), Call::SwapRemove { slot: 0, position: 1 }, 4);
    refused(&seven(), Call::SwapRemove { slot: 1, position: 0 }, 4);
}

#[test]
fn row_11_insert_outside() {
    for position in [2, 3] {
        let (mut pool, mut lists) = original(&seven());
        if DEBUG && position == 3 {
            panics("assertion", || lists[0].insert(position, Word(8), &mut pool));
        } else {
            lists[0].insert(position, Word(8), &mut pool);
        }
        assert_eq!(elements(&lists[0], &pool), [7, 8]);
        refused(&seven(), Call::Insert { slot: 0, position, element: 8 }, 4);
    }
}

#[test]
fn row_12_grow_at_outside() {
    let (mut pool, mut lists) = original(&seven());
    lists[0].grow_at(2, 1, &mut pool);
    assert_eq!(elements(&lists[0], &pool), [7, M]);
    refused(&seven(), Call::GrowAt { slot: 0, position: 2, count: 1 }, 4);

    let (mut pool, mut lists) = original(&nothing());
    lists[0].grow_at(1, 0, &mut pool);
    assert!(lists[0].is_empty());
    refused(&nothing(), Call::GrowAt { slot: 0, position: 1, count: 0 }, 4);
}

#[test]
fn row_13_from_slice_over_a_list() {
    let (mut pool, mut lists) = original(&seven());
    lists[0] = List::from_slice(&[Word(8)], &mut pool);
    assert_eq!((words(&pool), lists[0].handle()), (vec![1, 7, M, M, 1, 8, M, M], 5));
    let room = World { used: 4, ..world(&[1, 7, M, M, 0, 0, 0, 0], &[], &[1]) };
    refused(&room, Call::FromSlice { slot: 0, elements: vec![8] }, 5);

    lists[0] = List::from_slice(&[], &mut pool);
    assert!(lists[0].is_empty());
    refused(&room, Call::FromSlice { slot: 0, elements: vec![] }, 5);
}

#[test]
fn row_14_deep_clone_and_take_over_a_list() {
    let entry = World { used: 8, ..world(&[1, 7, M, M, 1, 8, M, M, 0, 0, 0, 0], &[], &[1, 5]) };
    for to in [0, 1] {
        let (mut pool, mut lists) = original(&entry);
        lists[to] = lists[0].deep_clone(&mut pool);
        assert_eq!((lists[to].handle(), words(&pool).len()), (9, 12));
        refused(&entry, Call::DeepClone { slot: 0, to }, 5);

        let (_, mut lists) = original(&entry);
        lists[to] = lists[0].take();
        assert_eq!(lists[to].handle(), 1);
        refused(&entry, Call::Take { slot: 0, to }, 5);
    }
}

#[test]
fn row_15_copy_from_between_equal_handles() {
    let entry = world(&[1, 7, M, M], &[], &[1, 1, 0, 0]);
    for (slot, source, end) in [(0, 1, 1), (0, 0, 1), (2, 3, 0)] {
        let (mut pool, mut lists) = original(&entry);
        let from = lists[source];
        panics("cannot copy within one", || lists[slot].copy_from(&from, 0..end, 0, &mut pool));
        refused(&entry, Call::CopyFrom { slot, source, start: 0, end, position: 0 }, 5);
    }
}

#[test]
fn row_16_copy_from_a_range_behind_the_list() {
    let entry = World { used: 8, ..world(&[4, 1, 2, 3, 4, M, M, M, 0, 0, 0, 0], &[], &[1, 0]) };
    let (mut pool, mut lists) = original(&entry);
    let source = lists[0];
    lists[1].copy_from(&source, 3..6, 0, &mut pool);
    assert_eq!(elements(&lists[1], &pool), [4, M, M]);
    refused(&entry, Call::CopyFrom { slot: 1, source: 0, start: 3, end: 6, position: 0 }, 4);
}

#[test]
fn row_17_a_head_that_is_not_sound() {
    let push = || Call::Push { slot: 0, element: 8 };

    let off_by_one = world(&[0, 0, 0, 0], &[(0, 2)], &[0]);
    let (mut pool, mut lists) = original(&off_by_one);
    lists[0].push(Word(8), &mut pool);
    assert_eq!((lists[0].handle(), words(&pool)), (2, vec![0, 1, 8, 0]));
    refused(&off_by_one, push(), 6);

    let of_a_list = world(&[1, 7, M, M], &[(0, 1)], &[0, 1]);
    let (mut pool, mut lists) = original(&of_a_list);
    lists[0].push(Word(8), &mut pool);
    assert_eq!(elements(&lists[1], &pool), [8]);
    refused(&of_a_list, push(), 6);

    let behind = world(&[0, 0, M, M], &[(0, 5)], &[0]);
    let (mut pool, mut lists) = original(&behind);
    panics("index out of bounds", || lists[0].push(Word(8), &mut pool));
    refused(&behind, push(), 6);
}

#[test]
fn row_18_a_block_that_is_given_back_twice() {
    let entry = world(&[1, 7, M, M], &[], &[1, 1, 0, 0]);
    let (mut pool, mut lists) = original(&entry);
    lists[0].clear(&mut pool);
    lists[1].clear(&mut pool);
    lists[2].push(Word(8), &mut pool);
    lists[3].push(Word(9), &mut pool);
    assert_eq!((elements(&lists[2], &pool), elements(&lists[3], &pool)), (vec![9], vec![9]));
    assert_eq!(pool.heads(), [8]);

    let once = done(&entry, Call::Clear { slot: 0 }, 0);
    refused(&once, Call::Clear { slot: 1 }, 3);
}

#[test]
fn row_19_the_longest_list() {
    let mut full = vec![1; 65_536];
    full[0] = 65_535;
    let entry = world(&full, &[], &[1]);
    let (mut pool, mut lists) = original(&entry);
    assert_eq!(lists[0].push(Word(7), &mut pool), 65_535);
    assert_eq!((lists[0].len(&pool), words(&pool).len()), (65_536, 65_536 + 131_072));
    refused(&entry, Call::Push { slot: 0, element: 7 }, 7);
}

#[test]
fn row_20_is_valid() {
    let entry = world(&[1, 7, M, M], &[], &[2, 1, 0]);
    let (pool, lists) = original(&entry);
    assert!(lists.iter().all(|list| list.is_valid(&pool)));
    refused(&entry, Call::IsValid { slot: 0 }, 3);
    done(&entry, Call::IsValid { slot: 1 }, 1);
    done(&entry, Call::IsValid { slot: 2 }, 1);
}

/// P4: slot 1 gets the block that slot 0 left behind.
#[test]
fn row_21_the_words_of_a_recycled_block() {
    let entry = world(&[0, 0, 8, 9, 4, 7, 8, 9, 10, M, M, M], &[(0, 1)], &[5, 0]);
    let (mut pool, mut lists) = original(&entry);
    lists[1].push(Word(5), &mut pool);
    assert_eq!(words(&pool)[..4], [1, 5, 8, 9]);
    assert_eq!(done(&entry, Call::Push { slot: 1, element: 5 }, 0).pool, words(&pool));
}

#[test]
fn row_22_places_that_grow_at_opens() {
    for (entry, position, shown) in [
        (world(&[2, 7, 8, M], &[], &[1]), 0, [7, 7, 8]),
        (world(&[2, 7, 8, M], &[], &[1]), 2, [7, 8, M]),
        (world(&[2, 7, 8, 9], &[], &[1]), 2, [7, 8, 9]),
    ] {
        let (mut pool, mut lists) = original(&entry);
        lists[0].grow_at(position, 1, &mut pool);
        assert_eq!(elements(&lists[0], &pool), shown);
        assert_eq!(list(&done(&entry, Call::GrowAt { slot: 0, position, count: 1 }, 0), 0), shown);
    }
}

/// Equal handles and a range that is too long: the original finds the handles first.
#[test]
fn row_23_the_order_of_refusals() {
    let entry = world(&[1, 7, M, M], &[], &[1, 1]);
    let (mut pool, mut lists) = original(&entry);
    let source = lists[1];
    panics("cannot copy within one", || lists[0].copy_from(&source, 0..9, 0, &mut pool));
    refused(&entry, Call::CopyFrom { slot: 0, source: 1, start: 0, end: 9, position: 0 }, 4);
}

/// The source range has 1 place, which is not more than the list's 1 element, and lies far behind
/// the words: the target has grown before that is found.
#[test]
fn row_24_a_call_that_fails_half_way() {
    let entry = world(&[1, 7, M, M, 1, 8, M, M], &[], &[1, 5]);
    let (mut pool, mut lists) = original(&entry);
    let source = lists[1];
    panics("out of range", || lists[0].copy_from(&source, 100..101, 0, &mut pool));
    assert_eq!((lists[0].len(&pool), words(&pool) == entry.pool), (2, false));
    refused(&entry, Call::CopyFrom { slot: 0, source: 1, start: 100, end: 101, position: 0 }, 4);
}

#[test]
fn row_25_heads_that_were_not_needed_yet() {
    let (mut pool, mut lists) = original(&World { used: 0, ..seven() });
    assert_eq!(pool.heads(), []);
    lists[1].extend((0..4).map(Word), &mut pool);
    lists[1].clear(&mut pool);
    assert_eq!(pool.heads(), [0_usize, 1]);
    assert_eq!(seven().heads, [0_u32; 15]);
}

#[test]
fn row_26_lengths_and_positions() {
    let (pool, lists) = original(&seven());
    let far: usize = 1 << 32;
    assert_eq!(lists[0].get(far, &pool), None);
    refused(&seven(), Call::Get { slot: 0, position: far }, 4);
    let length: usize = lists[0].len(&pool);
    assert_eq!(length, 1);
    let handle: u32 = lists[0].handle();
    assert_eq!(handle, 1);
}

/// An element with the `new` that `entity_impl!` writes.
#[derive(Clone, Copy, Debug, PartialEq, Eq)]
struct Entity(u32);

impl EntityRef for Entity {
    fn new(index: usize) -> Entity {
        debug_assert!(index < (u32::MAX as usize));
        Entity(index as u32)
    }

    fn index(self) -> usize {
        self.0 as usize
    }
}

impl ReservedValue for Entity {
    fn reserved_value() -> Entity {
        Entity(u32::MAX)
    }

    fn is_reserved_value(&self) -> bool {
        self.0 == u32::MAX
    }
}

#[test]
fn row_27_the_largest_element() {
    let macro_of_the_original = include_str!("../../../docs/src/src/lib.rs");
    assert!(macro_of_the_original.contains("debug_assert!(index < (u32::MAX as usize));"));
    let element = caught(|| Entity::new(u32::MAX as usize));
    assert_eq!(element.is_err(), DEBUG);
    let after = done(&World::cleared(4, 0, 1), Call::Push { slot: 0, element: M }, 0);
    assert_eq!(list(&after, 0), [M]);
}

#[test]
fn row_28_the_first_of_a_stale_handle() {
    let (pool, lists) = original(&stale());
    panics("index out of bounds", || lists[0].first(&pool));
    refused(&stale(), Call::First { slot: 0 }, 3);
}

#[test]
fn row_29_a_stale_handle_is_written() {
    let (mut pool, mut lists) = original(&stale());
    if DEBUG {
        panics("Invalid pool", || lists[0].push(Word(8), &mut pool));
    } else {
        assert_eq!(lists[0].push(Word(8), &mut pool), 0);
        assert_eq!((lists[0].handle(), words(&pool)), (5, vec![1, 7, M, M, 1, 8, M, M]));
    }
    refused(&stale(), Call::Push { slot: 0, element: 8 }, 3);
    refused(&stale(), Call::Extend { slot: 0, elements: vec![] }, 3);
    refused(&stale(), Call::Insert { slot: 0, position: 0, element: 8 }, 3);
    refused(&stale(), Call::GrowAt { slot: 0, position: 0, count: 0 }, 3);
}

#[test]
fn row_30_a_stale_handle_is_cleared() {
    let (mut pool, mut lists) = original(&stale());
    if DEBUG {
        panics("Invalid pool", || lists[0].clear(&mut pool));
    } else {
        lists[0].clear(&mut pool);
        assert!(lists[0].is_empty());
    }
    refused(&stale(), Call::Clear { slot: 0 }, 3);

    let (mut pool, mut lists) = original(&stale());
    lists[0].truncate(1, &mut pool);
    assert_eq!(lists[0].handle(), 9);
    refused(&stale(), Call::Truncate { slot: 0, length: 1 }, 3);
}

#[test]
fn row_31_a_stale_handle_is_cloned() {
    let (mut pool, lists) = original(&stale());
    assert!(lists[0].deep_clone(&mut pool).is_empty());
    refused(&stale(), Call::DeepClone { slot: 0, to: 1 }, 3);
}

#[test]
fn row_32_the_first_of_a_block_that_was_given_back() {
    let (pool, lists) = original(&given_back());
    assert_eq!((lists[0].len(&pool), lists[0].is_empty()), (0, false));
    assert_eq!(lists[0].first(&pool), Some(Word(0)));
    refused(&given_back(), Call::Len { slot: 0 }, 3);
    refused(&given_back(), Call::First { slot: 0 }, 3);
}

#[test]
fn row_33_a_clone_of_a_block_that_was_given_back() {
    let (mut pool, lists) = original(&given_back());
    let clone = lists[0].deep_clone(&mut pool);
    assert_eq!((clone.is_empty(), clone.len(&pool), pool.heads()), (false, 0, &[0_usize][..]));
    refused(&given_back(), Call::DeepClone { slot: 0, to: 1 }, 3);
}

#[test]
fn row_34_a_stored_length_without_a_class() {
    let entry = world(&[M, 7, M, M], &[], &[1]);
    let (mut pool, mut lists) = original(&entry);
    panics("out of range", || lists[0].as_slice(&pool));
    lists[0].clear(&mut pool);
    assert_eq!((pool.heads().len(), pool.heads()[30]), (31, 1));
    refused(&entry, Call::Clear { slot: 0 }, 3);
}

#[test]
fn row_35_a_block_that_ends_behind_the_used_words() {
    let entry = world(&[8, 1, 2, 3, 4, 5, 6, 7, 8, M, M, M], &[], &[1]);
    let (pool, lists) = original(&entry);
    assert_eq!(elements(&lists[0], &pool), [1, 2, 3, 4, 5, 6, 7, 8]);
    refused(&entry, Call::Len { slot: 0 }, 3);
}

#[test]
fn row_36_growing_by_so_much_that_the_sum_wraps() {
    let (mut pool, mut lists) = original(&seven());
    if DEBUG {
        panics("overflow", || lists[0].grow_at(0, usize::MAX, &mut pool));
    } else {
        lists[0].grow_at(0, usize::MAX, &mut pool);
        assert_eq!((lists[0].handle(), words(&pool)), (1, vec![0, 7, M, M]));
    }
    refused(&seven(), Call::GrowAt { slot: 0, position: 0, count: usize::MAX }, 7);
}

#[test]
fn row_37_growing_by_more_than_32_bits_hold() {
    let (mut pool, mut lists) = original(&nothing());
    panics("out of range", || lists[0].grow_at(0, 1 << 32, &mut pool));
    assert_eq!((lists[0].handle(), words(&pool)), (1, vec![0, M, M, M]));
    let room = World { used: 0, ..world(&[0; 4], &[], &[0]) };
    refused(&room, Call::GrowAt { slot: 0, position: 0, count: 1 << 32 }, 7);
}

#[test]
fn row_38_copy_from_to_a_position_outside() {
    let entry = world(&[1, 7, M, M, 1, 8, M, M], &[], &[1, 5]);
    let (mut pool, mut lists) = original(&entry);
    let source = lists[1];
    panics("out of bounds of `self`", || lists[0].copy_from(&source, 0..1, 2, &mut pool));
    refused(&entry, Call::CopyFrom { slot: 0, source: 1, start: 0, end: 1, position: 2 }, 4);
}

#[test]
#[allow(clippy::reversed_empty_ranges)]
fn row_39_copy_from_a_range_that_ends_before_it_starts() {
    let (mut pool, mut lists) = original(&seven());
    let source = lists[0];
    let said = if DEBUG { "overflow" } else { "out of bounds of `other`" };
    panics(said, || lists[1].copy_from(&source, 1..0, 0, &mut pool));
    refused(&seven(), Call::CopyFrom { slot: 1, source: 0, start: 1, end: 0, position: 0 }, 4);
}

#[test]
fn row_40_a_shrink_that_needs_a_block() {
    let entry = world(&[4, 1, 2, 3, 4, M, M, M], &[], &[1]);
    let (mut pool, mut lists) = original(&entry);
    lists[0].truncate(3, &mut pool);
    assert_eq!(words(&pool).len(), 12);
    let (mut pool, mut lists) = original(&entry);
    lists[0].remove(0, &mut pool);
    assert_eq!(words(&pool).len(), 12);
    refused(&entry, Call::Truncate { slot: 0, length: 3 }, 7);
    refused(&entry, Call::Remove { slot: 0, position: 0 }, 7);
}

#[test]
fn row_41_clearing_the_pool() {
    let (mut pool, lists) = original(&seven());
    pool.clear();
    assert_eq!((lists[0].handle(), lists[0].is_valid(&pool)), (1, false));
    assert_eq!(words(&pool), []);
    let after = done(&seven(), Call::ClearPool, 0);
    assert_eq!((after.handles, after.pool), (vec![0, 0, 0], vec![1, 7, M, M]));
}

#[test]
fn row_42_limits_that_the_original_has_not() {
    for entry in [
        World::cleared(65_537, 0, 1),
        World::cleared(4, 0, 16_385),
        World { used: 5, ..World::cleared(8, 0, 1) },
        World { used: 8, ..World::cleared(4, 0, 1) },
    ] {
        refused(&entry, Call::Push { slot: 0, element: 7 }, 1);
    }
    let (mut pool, mut lists) = original(&World { used: 5, ..World::cleared(8, 0, 1) });
    lists[0].push(Word(7), &mut pool);
    assert_eq!((lists[0].handle(), words(&pool).len()), (6, 9));
}

/// A free block of 16 words at 0, and the list in the midst of it.
#[test]
fn row_43_a_free_block_that_overlaps_the_list_that_moves_to_it() {
    let entry = world(&[0, 0, M, M, 7, 1, 2, 3, 4, 5, 6, 7, M, M, M, M], &[(2, 1)], &[5]);
    let (mut pool, mut lists) = original(&entry);
    panics("out of range", || lists[0].push(Word(8), &mut pool));
    assert_eq!(pool.heads()[2], 0);
    refused(&entry, Call::Audit { map_words: 4 }, 9);
    let after = done(&entry, Call::Push { slot: 0, element: 8 }, 7);
    assert_eq!(after.pool, [8, 1, 2, 3, 0, 0, 6, 7, 8, 5, 6, 7, M, M, M, M]);
}

#[test]
fn row_44_extend_by_elements_whose_number_is_not_known() {
    let entry = World { used: 0, ..world(&[0; 12], &[], &[0]) };
    let (mut pool, mut lists) = original(&entry);
    lists[0].extend((1..5).map(Word).filter(|_| true), &mut pool);
    assert_eq!(words(&pool), [0, 0, 2, 3, 4, 1, 2, 3, 4, M, M, M]);

    let (mut pool, mut lists) = original(&entry);
    lists[0].extend((1..5).map(Word), &mut pool);
    assert_eq!(words(&pool), [4, 1, 2, 3, 4, M, M, M]);
    let after = done(&entry, Call::Extend { slot: 0, elements: vec![1, 2, 3, 4] }, 0);
    assert_eq!(after.pool[..after.used as usize], words(&pool));
}

/// Elements that say that there are three of them, and are one.
struct Promised(Option<Word>);

impl Iterator for Promised {
    type Item = Word;

    fn next(&mut self) -> Option<Word> {
        self.0.take()
    }

    fn size_hint(&self) -> (usize, Option<usize>) {
        (3, Some(3))
    }
}

#[test]
fn row_45_extend_by_fewer_elements_than_promised() {
    let (mut pool, mut lists) = original(&nothing());
    lists[0].extend(Promised(Some(Word(7))), &mut pool);
    assert_eq!(elements(&lists[0], &pool), [7, M, M]);
}

/// Only the count of the range is tested, and that is 0.
#[test]
fn row_46_copy_from_an_empty_range_behind_the_list() {
    let entry = world(&[1, 7, M, M, 1, 8, M, M], &[], &[1, 5]);
    let (mut pool, mut lists) = original(&entry);
    let source = lists[1];
    lists[0].copy_from(&source, 2..2, 0, &mut pool);
    assert_eq!(words(&pool), entry.pool);
    refused(&entry, Call::CopyFrom { slot: 0, source: 1, start: 2, end: 2, position: 0 }, 4);
}

/// Every row of the tables has its test here, and every test its row.
#[test]
fn every_row_has_its_test() {
    let rows: Vec<usize> = include_str!("../../../docs/DIFFERENCES.md")
        .lines()
        .filter_map(|line| line.strip_prefix("| ")?.split(' ').next()?.parse().ok())
        .collect();
    let tests: Vec<usize> = include_str!("differences.rs")
        .lines()
        .filter_map(|line| line.strip_prefix("fn row_")?.get(..2)?.parse().ok())
        .collect();
    let sorted = |mut numbers: Vec<usize>| {
        numbers.sort_unstable();
        numbers
    };
    assert_eq!(sorted(rows), sorted(tests.clone()));
    assert_eq!(tests, (1..=tests.len()).collect::<Vec<_>>());
}
