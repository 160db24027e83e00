//! What paper 01 leaves open, each point as a fixed case: the smallest input that shows how it is
//! read, by the library and by the model.
//!
//! A name begins with the number of the point in docs/DECISIONS.md, "How paper 01 is read". Those
//! without a number are cases of the paper itself, and of "Class and size beyond the limits" there.

use beside::fixed::{done, heads, list, refused, world, M};
use beside::model;
use beside::world::{Call, World};

/// `[7]` in slot 0, and an empty list in slot 1.
fn one_list() -> World {
    world(&[1, 7, M, M], &[], &[1, 0])
}

/// A world in which no head is sound.
fn no_sound_head(world: World) -> World {
    World { heads: [2; 15], ..world }
}

#[test]
fn reading_01_every_slot_argument_is_a_named_handle() {
    let unsound = world(&[], &[], &[0, 1]);
    refused(&unsound, Call::FromSlice { slot: 1, elements: vec![] }, 3);
    refused(&unsound, Call::DeepClone { slot: 0, to: 1 }, 3);
    refused(&unsound, Call::DeepClone { slot: 1, to: 0 }, 3);
    refused(&unsound, Call::Take { slot: 0, to: 1 }, 3);
    refused(&unsound, Call::Take { slot: 1, to: 1 }, 3);
    refused(&unsound, Call::CopyFrom { slot: 1, source: 0, start: 0, end: 0, position: 0 }, 3);
    refused(&unsound, Call::CopyFrom { slot: 0, source: 1, start: 0, end: 0, position: 0 }, 3);
}

#[test]
fn reading_01_non_empty_is_a_handle_that_is_not_0() {
    refused(&one_list(), Call::Take { slot: 1, to: 0 }, 5);
    let taken = done(&one_list(), Call::Take { slot: 0, to: 1 }, 0);
    assert_eq!(taken.handles, [0, 1]);
}

#[test]
fn reading_02_a_clash_is_judged_whatever_else_the_call_would_do() {
    refused(&one_list(), Call::FromSlice { slot: 0, elements: vec![] }, 5);
    refused(&one_list(), Call::FromSlice { slot: 0, elements: vec![1; 65_536] }, 5);
    refused(&one_list(), Call::DeepClone { slot: 1, to: 0 }, 5);
    refused(&one_list(), Call::DeepClone { slot: 0, to: 0 }, 5);
    refused(&no_sound_head(one_list()), Call::DeepClone { slot: 0, to: 0 }, 5);
    assert_eq!(done(&one_list(), Call::DeepClone { slot: 1, to: 1 }, 0), one_list());
}

#[test]
fn reading_02_take_into_the_same_slot_clashes_even_where_it_is_empty() {
    refused(&one_list(), Call::Take { slot: 1, to: 1 }, 5);
    refused(&one_list(), Call::Take { slot: 0, to: 0 }, 5);
}

#[test]
fn reading_03_copy_from_judges_4_before_5() {
    let copy =
        |slot, source, end, position| Call::CopyFrom { slot, source, start: 0, end, position };
    refused(&one_list(), copy(0, 0, 2, 0), 4);
    refused(&one_list(), copy(0, 0, 1, 2), 4);
    refused(&one_list(), copy(0, 0, 1, 0), 5);

    let alike = world(&[1, 7, M, M], &[], &[1, 1]);
    refused(&alike, copy(0, 1, 2, 0), 4);
    refused(&alike, copy(0, 1, 1, 0), 5);
}

#[test]
fn reading_03_copy_from_judges_4_before_5_for_two_empty_lists_too() {
    let copy = |end, position| Call::CopyFrom { slot: 0, source: 1, start: 0, end, position };
    let empty = world(&[], &[], &[0, 0]);
    refused(&empty, copy(1, 0), 4);
    refused(&empty, copy(0, 1), 4);
    refused(&empty, copy(0, 0), 5);
}

#[test]
fn reading_04_no_head_is_looked_at_where_nothing_is_allocated() {
    let entry = no_sound_head(one_list());
    let same = [
        Call::GrowAt { slot: 0, position: 0, count: 0 },
        Call::GrowAt { slot: 1, position: 0, count: 0 },
        Call::Extend { slot: 0, elements: vec![] },
        Call::Truncate { slot: 0, length: 1 },
        Call::Truncate { slot: 0, length: usize::MAX },
        Call::Truncate { slot: 1, length: 0 },
        Call::Clear { slot: 1 },
        Call::FromSlice { slot: 1, elements: vec![] },
        Call::DeepClone { slot: 1, to: 1 },
        Call::CopyFrom { slot: 1, source: 0, start: 1, end: 1, position: 0 },
    ];
    for call in same {
        assert_eq!(done(&entry, call, 0), entry);
    }
    let clearing = [
        Call::Truncate { slot: 0, length: 0 },
        Call::Remove { slot: 0, position: 0 },
        Call::SwapRemove { slot: 0, position: 0 },
        Call::Clear { slot: 0 },
    ];
    for call in clearing {
        let after = done(&entry, call, 0);
        assert_eq!((&after.pool[..], &after.handles[..]), (&[0, 2, M, M][..], &[0, 0][..]));
    }
    assert_eq!(done(&entry, Call::Push { slot: 0, element: 8 }, 1).pool, [2, 7, 8, M]);
}

#[test]
fn reading_04_a_head_is_looked_at_where_a_block_is_allocated() {
    let entry = no_sound_head(one_list());
    refused(&entry, Call::Push { slot: 1, element: 8 }, 6);
    refused(&entry, Call::Extend { slot: 0, elements: vec![1, 2, 3] }, 6);
    refused(&entry, Call::DeepClone { slot: 0, to: 1 }, 6);

    let four = no_sound_head(world(&[4, 1, 2, 3, 4, M, M, M], &[], &[1]));
    refused(&four, Call::Remove { slot: 0, position: 3 }, 6);
    refused(&four, Call::SwapRemove { slot: 0, position: 3 }, 6);
    refused(&four, Call::Truncate { slot: 0, length: 3 }, 6);
}

#[test]
fn reading_05_alloc_may_load_any_word_into_the_head() {
    let entry = world(&[0, 2, M, M], &[(0, 1)], &[0]);
    let after = done(&entry, Call::Push { slot: 0, element: 7 }, 0);
    assert_eq!((&after.pool[..], after.heads), (&[1, 7, M, M][..], heads(&[(0, 2)])));
}

#[test]
fn reading_05_free_may_store_an_unsound_old_head_as_next() {
    let entry = world(&[1, 7, M, M], &[(0, 2)], &[1]);
    let after = done(&entry, Call::Clear { slot: 0 }, 0);
    assert_eq!((&after.pool[..], after.heads), (&[0, 2, M, M][..], heads(&[(0, 1)])));
}

#[test]
fn reading_06_a_length_over_the_longest_is_7_and_never_6() {
    let entry = no_sound_head(world(&[], &[], &[0]));
    refused(&entry, Call::FromSlice { slot: 0, elements: vec![1; 65_535] }, 6);
    refused(&entry, Call::FromSlice { slot: 0, elements: vec![1; 65_536] }, 7);
    refused(&entry, Call::GrowAt { slot: 0, position: 0, count: 65_536 }, 7);
}

#[test]
fn reading_06_sums_do_not_wrap() {
    for count in [65_535, (1 << 32) - 1, 1 << 32, (1 << 32) + 1, usize::MAX - 1, usize::MAX] {
        refused(&one_list(), Call::GrowAt { slot: 0, position: 0, count }, 7);
    }
}

#[test]
fn reading_06_the_pool_need_not_be_a_multiple_of_4() {
    for (words, number) in [(3, 7), (4, 0), (5, 0), (7, 0)] {
        let cleared = World::cleared(words, 0, 2);
        let push = |slot| Call::Push { slot, element: 7 };
        if number == 0 {
            let after = done(&cleared, push(0), 0);
            refused(&after, push(1), 7);
        } else {
            refused(&cleared, push(0), number);
        }
    }
}

#[test]
fn reading_07_the_size_of_a_stored_length_does_not_wrap() {
    for length in [1 << 29, 1 << 30, 1 << 31, M] {
        let entry = world(&[length, 7, M, M], &[], &[1]);
        refused(&entry, Call::Len { slot: 0 }, 3);
        refused(&entry, Call::Clear { slot: 0 }, 3);
        refused(&entry, Call::Audit { map_words: 1 }, 9);
    }
}

#[test]
fn a_block_need_not_be_aligned_to_its_size() {
    let entry = world(&[1, 7, M, M, 4, 1, 2, 3, 4, M, M, M], &[], &[1, 5]);
    assert_eq!(done(&entry, Call::Len { slot: 1 }, 4), entry);
    assert_eq!(done(&entry, Call::Audit { map_words: 3 }, 0).map[..3], [1, 2, 0]);
}

#[test]
fn reading_08_calls_without_something_to_return_give_0() {
    let entry = world(&[2, 7, 8, M], &[], &[1, 0]);
    let calls = [
        Call::Insert { slot: 0, position: 0, element: 9 },
        Call::Set { slot: 0, position: 0, element: 9 },
        Call::Remove { slot: 0, position: 1 },
        Call::SwapRemove { slot: 0, position: 1 },
        Call::Truncate { slot: 0, length: 1 },
        Call::Extend { slot: 0, elements: vec![9] },
        Call::GrowAt { slot: 0, position: 0, count: 1 },
        Call::Take { slot: 0, to: 1 },
        Call::Clear { slot: 0 },
        Call::ClearPool,
        Call::Audit { map_words: 1 },
    ];
    for call in calls {
        done(&entry, call, 0);
    }
    assert_eq!(list(&done(&entry, Call::Push { slot: 0, element: 9 }, 2), 0), [7, 8, 9]);
}

#[test]
fn truncate_is_never_4() {
    for length in [0, 1, 1 << 32, usize::MAX] {
        assert_eq!(done(&one_list(), Call::Truncate { slot: 1, length }, 0), one_list());
    }
}

#[test]
fn positions_counts_and_slots_are_of_any_size() {
    let wide = 1 << 32;
    refused(&one_list(), Call::Len { slot: wide }, 2);
    refused(&one_list(), Call::Get { slot: 0, position: wide }, 4);
    refused(&one_list(), Call::Insert { slot: 0, position: wide, element: 1 }, 4);
    refused(&one_list(), Call::GrowAt { slot: 0, position: 1, count: wide }, 7);
    assert_eq!(done(&one_list(), Call::Truncate { slot: 0, length: wide }, 0), one_list());
}

#[test]
fn reading_09_a_refusal_hands_back_the_entry_state() {
    for used in [2, 5, 8, M] {
        let entry = World { used, heads: [M; 15], ..one_list() };
        refused(&entry, Call::Push { slot: 0, element: 8 }, 1);
        refused(&entry, Call::Len { slot: 9 }, 1);
        refused(&entry, Call::Audit { map_words: 0 }, 1);
    }
}

#[test]
fn reading_09_the_pools_clear_is_refused_for_the_two_lengths_alone() {
    let entry = World { used: M, heads: [M; 15], ..world(&[5, 6], &[], &[2, 3]) };
    let after = done(&entry, Call::ClearPool, 0);
    assert_eq!((after.used, after.heads, after.handles), (0, [0; 15], vec![0, 0]));
    assert_eq!(after.pool, [5, 6]);

    refused(&World::cleared(65_537, 0, 1), Call::ClearPool, 1);
    refused(&World::cleared(0, 0, 16_385), Call::ClearPool, 1);
    done(&World::cleared(65_536, 0, 16_384), Call::ClearPool, 0);
}

/// A free block of 16 words at 0, and in the midst of it `[1, 2, 3, 20, 5, 6, 7]`: moving to the
/// block overwrites the list's own length with 20.
#[test]
fn reading_10_lengths_are_those_read_at_entry() {
    let entry = world(&[0, 0, M, M, 7, 1, 2, 3, 20, 5, 6, 7, M, M, M, M], &[(2, 1)], &[5]);
    let after = done(&entry, Call::Push { slot: 0, element: 8 }, 7);
    assert_eq!(after.pool, [8, 1, 2, 3, 0, 0, 6, 7, 8, 5, 6, 7, M, M, M, M]);
    assert_eq!((after.heads, after.handles), (heads(&[(1, 5)]), vec![1]));
}

/// The same move: were the old block given back before the copy, words 4 and 5 would be 20 and 5.
#[test]
fn reading_10_the_old_block_is_freed_after_the_copy() {
    let entry = world(&[0, 0, M, M, 7, 1, 2, 3, 20, 5, 6, 7, M, M, M, M], &[(2, 1)], &[5]);
    let after = done(&entry, Call::Extend { slot: 0, elements: vec![8] }, 0);
    assert_eq!(after.pool[4..6], [0, 0]);
}

/// A free block of 8 words at 4, in the midst of `[1, 2, 3, 0, 5, 6, 7, 8]`: its next word is an
/// element, and the shift changes it from 5 to 6 before `alloc` reads it.
#[test]
fn reading_10_remove_changes_the_old_block_first() {
    let entry = world(&[8, 1, 2, 3, 0, 5, 6, 7, 8, M, M, M, M, M, M, M], &[(1, 5)], &[1]);
    let after = done(&entry, Call::Remove { slot: 0, position: 0 }, 0);
    assert_eq!(after.pool, [0, 0, 3, 0, 7, 2, 3, 0, 5, 6, 7, 8, M, M, M, M]);
    assert_eq!((after.heads, after.handles), (heads(&[(1, 6), (2, 1)]), vec![5]));
}

/// As with `remove`: the exchange makes the next word 8.
#[test]
fn reading_10_swap_remove_changes_the_old_block_first() {
    let entry = world(&[8, 1, 2, 3, 0, 5, 6, 7, 8, M, M, M, M, M, M, M], &[(1, 5)], &[1]);
    let after = done(&entry, Call::SwapRemove { slot: 0, position: 4 }, 0);
    assert_eq!(after.pool, [0, 0, 2, 3, 7, 1, 2, 3, 0, 8, 6, 7, M, M, M, M]);
    assert_eq!((after.heads, after.handles), (heads(&[(1, 8), (2, 1)]), vec![5]));
}

/// The list is the second half of the free block that it moves to, so its old block's first word is
/// the place of the new element.
#[test]
fn reading_10_push_frees_the_old_block_before_it_writes_the_element() {
    let entry = world(&[0, 0, M, M, 3, 7, 8, 9], &[(1, 1)], &[5]);
    let after = done(&entry, Call::Push { slot: 0, element: 10 }, 3);
    assert_eq!(after.pool, [4, 7, 8, 9, 10, 0, 8, 9]);
    assert_eq!((after.heads, after.handles), (heads(&[(0, 5)]), vec![1]));
}

/// The source is the second half of the free block that the target moves to: the shift has put the
/// target's last element, 33, where the source's first stood.
#[test]
fn reading_10_copy_from_reads_its_source_after_the_move_and_the_shift() {
    let entry = world(&[0, 0, M, M, 3, 7, 8, 9, 3, 31, 32, 33], &[(1, 1)], &[9, 5]);
    let copy = Call::CopyFrom { slot: 0, source: 1, start: 0, end: 2, position: 0 };
    let after = done(&entry, copy, 0);
    assert_eq!(after.pool, [5, 33, 8, 31, 32, 33, 8, 9, 0, 0, 32, 33]);
    assert_eq!((after.heads, after.handles), (heads(&[(0, 9)]), vec![1, 5]));
}

/// The free block begins at the source's last element, 0, which is 4 once the length is written.
#[test]
fn reading_10_deep_clone_reads_after_its_length_is_written() {
    let entry = world(&[4, 7, 8, 9, 0, 0, M, M, M, M, M, M], &[(1, 5)], &[1, 0]);
    let after = done(&entry, Call::DeepClone { slot: 0, to: 1 }, 0);
    assert_eq!(after.pool, [4, 7, 8, 9, 4, 7, 8, 9, 4, M, M, M]);
    assert_eq!((after.heads, after.handles), (heads(&[]), vec![1, 5]));
}

#[test]
fn classes_and_sizes_beyond_the_limits_are_the_formulas() {
    for length in [65_535, 65_536, (1 << 30) - 1, 1 << 30, 1 << 31, M] {
        assert_eq!(maaliskur::class(length) as usize, model::class(length), "{length}");
    }
    assert_eq!((maaliskur::class(65_536), maaliskur::class(M)), (15, 30));
    for class in 0..62 {
        let size = u32::try_from(model::size(class)).unwrap_or(0);
        assert_eq!(maaliskur::size(class as u32), size, "{class}");
    }
    assert_eq!([15, 29, 30, 61, 62, M].map(maaliskur::size), [131_072, 1 << 31, 0, 0, 0, 0]);
}

#[test]
fn reading_11_the_map_and_the_elements_have_no_limit_of_their_own() {
    let mut entry = one_list();
    entry.map = vec![7; 70_000];
    let after = done(&entry, Call::Audit { map_words: 70_000 }, 0);
    assert_eq!((after.map[0], after.map[1]), (1, 7));
    refused(&entry, Call::Extend { slot: 0, elements: vec![1; 70_000] }, 7);
}

#[test]
fn reading_11_no_word_of_the_map_changes_with_1_and_8() {
    refused(&World { used: 6, ..one_list() }, Call::Audit { map_words: 3 }, 1);
    refused(&one_list(), Call::Audit { map_words: 0 }, 8);
    assert_eq!(done(&one_list(), Call::Audit { map_words: 1 }, 0).map, [1, 7, 7]);
}

/// The block at 8 is free and of 4 words: on the chain of class 1 its block would end at 16.
#[test]
fn reading_12_a_pointer_on_a_chain_is_judged_as_a_head_of_its_class() {
    let words = [0, 9, M, M, M, M, M, M, 0, 0, M, M, M, M, M, M];
    refused(&world(&words[..12], &[(1, 1)], &[]), Call::Audit { map_words: 3 }, 9);
    let after = done(&world(&words, &[(1, 1)], &[]), Call::Audit { map_words: 4 }, 0);
    assert_eq!(after.map[..4], [(1 << 31) + 1, 0, (1 << 31) + 1, 0]);

    let mut live = words;
    live[8] = 1;
    refused(&world(&live, &[(1, 1)], &[]), Call::Audit { map_words: 4 }, 9);
}

#[test]
fn reading_12_a_block_met_twice_is_not_sound() {
    let audit = |map_words| Call::Audit { map_words };
    refused(&world(&[1, 7, M, M], &[], &[1, 1]), audit(1), 9);
    refused(&world(&[0, 1, M, M], &[(0, 1)], &[]), audit(1), 9);
    refused(&world(&[0, 0, M, M, 0, 0, M, M], &[(0, 5), (1, 1)], &[]), audit(2), 9);
    refused(&world(&[4, 1, 2, 3, 0, 0, M, M], &[(0, 5)], &[1]), audit(2), 9);
}

/// Two free blocks of 4 words: the first one's next word, 5, is among what it shows.
#[test]
fn reading_13_places_that_grow_at_opens_show_what_stood_there() {
    let entry = world(&[0, 5, 8, 9, 0, 0, M, M], &[(0, 1)], &[0]);
    let after = done(&entry, Call::GrowAt { slot: 0, position: 0, count: 3 }, 0);
    assert_eq!((list(&after, 0), after.heads), (vec![5, 8, 9], heads(&[(0, 5)])));

    let p12 = world(&[2, 7, 8, M], &[], &[1]);
    assert_eq!(list(&done(&p12, Call::GrowAt { slot: 0, position: 0, count: 1 }, 0), 0), [7, 7, 8]);
}

/// The block of the longest class is the whole pool, so there is no room for a smaller one.
#[test]
fn a_list_of_32_768_or_more_can_only_shrink_to_nothing() {
    let mut words = vec![1; 65_536];
    words[0] = 32_768;
    let entry = world(&words, &[], &[1]);
    refused(&entry, Call::Remove { slot: 0, position: 0 }, 7);
    refused(&entry, Call::SwapRemove { slot: 0, position: 0 }, 7);
    refused(&entry, Call::Truncate { slot: 0, length: 1 }, 7);
    assert_eq!(done(&entry, Call::Truncate { slot: 0, length: 0 }, 0).handles, [0]);
}
