//! The limits, one by one and beside the original: nothing, one short of each size, exact fits,
//! every boundary of classes up and down, full pools, the largest counts, overlapping ranges; and
//! the audit at its largest, beside the model.

use beside::pair::Pair;
use beside::world::{Call, Outcome, World};
use beside::{library, model};

/// The size of each class, in words.
fn sizes() -> impl Iterator<Item = usize> {
    (0..15).map(|class| 4 << class)
}

/// Elements to be lent, no two alike.
fn elements(count: usize) -> Vec<u32> {
    (0..count as u32).map(|i| u32::MAX - i).collect()
}

/// A pair over a cleared pool of some words, with three slots.
fn pair(words: usize) -> Pair {
    Pair::new(World::cleared(words, 0x5555_5555, 3))
}

/// Makes a call on both sides, which has to be done.
fn done(pair: &mut Pair, call: Call) -> Outcome {
    let outcome = pair.step(call).unwrap_or_else(|difference| panic!("{difference}"));
    assert_eq!(outcome.number(), 0, "a call that can be done");
    outcome
}

/// Makes a call that has to be refused with a number.
fn refused(pair: &mut Pair, call: Call, number: u32) {
    let outcome = pair.step(call.clone()).unwrap_or_else(|difference| panic!("{difference}"));
    assert_eq!(outcome, Outcome::refused(number), "{call:?}");
}

/// Makes a call on both sides, which has to be done, and compares the words and audits only where
/// the length is near a boundary of classes.
fn done_in_passing(pair: &mut Pair, call: Call) {
    let outcome = pair.made(call).unwrap_or_else(|difference| panic!("{difference}"));
    assert_eq!(outcome.number(), 0, "a call that can be done");
    let length = pair.world().rough_length(0);
    if [length.saturating_sub(1), length, length + 1].iter().any(|near| near.is_power_of_two()) {
        pair.same_words().unwrap_or_else(|difference| panic!("{difference}"));
        pair.audited().unwrap_or_else(|difference| panic!("{difference}"));
    }
}

#[test]
fn nothing_at_all() {
    let mut pair = pair(0);
    done(&mut pair, Call::FromSlice { slot: 0, elements: vec![] });
    done(&mut pair, Call::Extend { slot: 0, elements: vec![] });
    done(&mut pair, Call::GrowAt { slot: 0, position: 0, count: 0 });
    done(&mut pair, Call::Truncate { slot: 0, length: 0 });
    done(&mut pair, Call::Truncate { slot: 0, length: usize::MAX });
    done(&mut pair, Call::Clear { slot: 0 });
    done(&mut pair, Call::DeepClone { slot: 0, to: 1 });
    done(&mut pair, Call::Take { slot: 0, to: 1 });
    done(&mut pair, Call::ClearPool);
    refused(&mut pair, Call::CopyFrom { slot: 0, source: 1, start: 0, end: 0, position: 0 }, 5);
    refused(&mut pair, Call::Push { slot: 0, element: 1 }, 7);
    refused(&mut pair, Call::First { slot: 0 }, 4);
}

#[test]
fn copying_nothing_into_an_empty_list() {
    let mut pair = pair(4);
    done(&mut pair, Call::Push { slot: 0, element: 1 });
    done(&mut pair, Call::CopyFrom { slot: 1, source: 0, start: 1, end: 1, position: 0 });
    done(&mut pair, Call::CopyFrom { slot: 0, source: 1, start: 0, end: 0, position: 1 });
    assert_eq!(pair.world().handles, [1, 0, 0]);
}

#[test]
fn every_size_exactly_and_one_short() {
    for size in sizes() {
        let longest = elements(size - 1);
        for words in [size - 1, size, (size + 3).min(65_536)] {
            let mut pair = pair(words);
            let makings = [
                Call::FromSlice { slot: 0, elements: longest.clone() },
                Call::Extend { slot: 0, elements: longest.clone() },
                Call::GrowAt { slot: 0, position: 0, count: size - 1 },
            ];
            for making in makings {
                if words < size {
                    refused(&mut pair, making, 7);
                } else {
                    done(&mut pair, making);
                    refused(&mut pair, Call::Push { slot: 0, element: 1 }, 7);
                    refused(&mut pair, Call::DeepClone { slot: 0, to: 1 }, 7);
                    done(&mut pair, Call::Get { slot: 0, position: size - 2 });
                    refused(&mut pair, Call::Get { slot: 0, position: size - 1 }, 4);
                    done(&mut pair, Call::Clear { slot: 0 });
                }
            }
        }
    }
}

#[test]
fn pushed_through_every_class_and_removed_again() {
    let mut pair = pair(65_536);
    for i in 0..32_767 {
        done_in_passing(&mut pair, Call::Push { slot: 0, element: i });
    }
    refused(&mut pair, Call::Push { slot: 0, element: 1 }, 7);
    for length in (1..=32_767).rev() {
        let call = match length % 3 {
            0 => Call::SwapRemove { slot: 0, position: length / 2 },
            1 => Call::Truncate { slot: 0, length: length - 1 },
            _ => Call::Remove { slot: 0, position: length - 1 },
        };
        done_in_passing(&mut pair, call);
    }
    assert_eq!((pair.world().handles[0], pair.world().used), (0, 65_532));
}

#[test]
fn the_longest_list() {
    let mut pair = pair(65_536);
    done(&mut pair, Call::FromSlice { slot: 0, elements: elements(65_535) });
    refused(&mut pair, Call::Push { slot: 0, element: 1 }, 7);
    refused(&mut pair, Call::Insert { slot: 0, position: 65_535, element: 1 }, 7);
    refused(&mut pair, Call::GrowAt { slot: 0, position: 0, count: 1 }, 7);
    done(&mut pair, Call::GrowAt { slot: 0, position: 0, count: 0 });
    done(&mut pair, Call::Remove { slot: 0, position: 0 });
    done(&mut pair, Call::Insert { slot: 0, position: 100, element: 1 });
    done(&mut pair, Call::Truncate { slot: 0, length: 32_768 });
    refused(&mut pair, Call::SwapRemove { slot: 0, position: 0 }, 7);
    refused(&mut pair, Call::Truncate { slot: 0, length: 1 }, 7);
    done(&mut pair, Call::Extend { slot: 0, elements: elements(32_767) });
    done(&mut pair, Call::Truncate { slot: 0, length: 0 });
}

#[test]
fn longer_than_the_longest() {
    let mut pair = pair(65_536);
    for count in [65_536, 70_000] {
        refused(&mut pair, Call::FromSlice { slot: 0, elements: elements(count) }, 7);
        refused(&mut pair, Call::Extend { slot: 0, elements: elements(count) }, 7);
    }
    done(&mut pair, Call::Push { slot: 0, element: 1 });
    refused(&mut pair, Call::Extend { slot: 0, elements: elements(65_535) }, 7);
    for count in [65_535, 65_536, (1 << 32) - 1, 1 << 32, (1 << 32) + 1, usize::MAX - 1, usize::MAX]
    {
        refused(&mut pair, Call::GrowAt { slot: 0, position: 1, count }, 7);
    }
}

#[test]
fn from_any_length_to_any_other_near_a_boundary() {
    for size in sizes().take(11) {
        for from in [size / 2 - 1, size / 2, size - 2, size - 1, size] {
            for to in [1, size / 2 - 1, size / 2, size - 1, size, size + 1, 2 * size - 1, 2 * size]
            {
                let mut pair = pair(16 * size);
                done(&mut pair, Call::FromSlice { slot: 0, elements: elements(from) });
                done(&mut pair, Call::FromSlice { slot: 1, elements: elements(to) });
                if to < from {
                    done(&mut pair, Call::Truncate { slot: 0, length: to });
                } else {
                    done(&mut pair, Call::DeepClone { slot: 0, to: 2 });
                    done(&mut pair, Call::Extend { slot: 0, elements: elements(to - from) });
                    done(
                        &mut pair,
                        Call::CopyFrom {
                            slot: 2,
                            source: 1,
                            start: 0,
                            end: to - from,
                            position: from / 2,
                        },
                    );
                }
            }
        }
    }
}

#[test]
fn every_small_range_to_every_place() {
    for target in 0..9 {
        for source in 1..9 {
            let mut made = pair(256);
            done(&mut made, Call::FromSlice { slot: 0, elements: elements(target) });
            done(&mut made, Call::FromSlice { slot: 1, elements: elements(source) });
            for start in 0..=source {
                for end in start..=source {
                    for position in 0..=target {
                        done(
                            &mut made,
                            Call::CopyFrom { slot: 0, source: 1, start, end, position },
                        );
                        done(&mut made, Call::Truncate { slot: 0, length: target });
                    }
                }
            }
            refused(
                &mut made,
                Call::CopyFrom { slot: 0, source: 1, start: 0, end: source + 1, position: 0 },
                4,
            );
            refused(
                &mut made,
                Call::CopyFrom { slot: 0, source: 1, start: 1, end: 0, position: 0 },
                4,
            );
            refused(
                &mut made,
                Call::CopyFrom { slot: 0, source: 1, start: 0, end: 0, position: target + 1 },
                4,
            );
        }
    }
}

#[test]
fn a_shrink_in_a_full_pool() {
    let mut pair = pair(12);
    done(&mut pair, Call::FromSlice { slot: 0, elements: elements(4) });
    done(&mut pair, Call::Push { slot: 1, element: 1 });
    refused(&mut pair, Call::Remove { slot: 0, position: 0 }, 7);
    refused(&mut pair, Call::SwapRemove { slot: 0, position: 3 }, 7);
    refused(&mut pair, Call::Truncate { slot: 0, length: 3 }, 7);
    refused(&mut pair, Call::Push { slot: 2, element: 1 }, 7);
    done(&mut pair, Call::Clear { slot: 1 });
    done(&mut pair, Call::Remove { slot: 0, position: 0 });
}

/// Audits a world by the library and by the model, which have to agree, and gives the number.
fn audited(world: &World) -> u32 {
    let (mut by_library, mut by_model) = (world.clone(), world.clone());
    let audit = Call::Audit { map_words: world.map.len() };
    let outcome = library::through_c(&mut by_library, &audit);
    assert_eq!(outcome, model::call(&mut by_model, &audit));
    assert!(by_library == by_model, "the two maps differ");
    outcome.number()
}

#[test]
fn the_audit_of_the_most_lists() {
    let mut world = World::cleared(65_536, 9, 16_384);
    for slot in 0..16_384 {
        assert_eq!(
            library::through_c(&mut world, &Call::Push { slot, element: 1 }),
            Outcome::done(0)
        );
    }
    assert_eq!((world.used, audited(&world)), (65_536, 0));
    world.handles[5] = world.handles[6];
    assert_eq!(audited(&world), 9);
    world.handles[5] = 0;
    assert_eq!(audited(&world), 9);
}

#[test]
fn the_audit_of_the_longest_chain() {
    let mut world = World::cleared(65_536, 9, 16_384);
    for slot in 0..16_384 {
        library::through_c(&mut world, &Call::Push { slot, element: 1 });
    }
    for slot in 0..16_384 {
        assert_eq!(library::through_c(&mut world, &Call::Clear { slot }), Outcome::done(0));
    }
    assert_eq!((world.heads[0], audited(&world)), (65_533, 0));
    world.pool[1] = 65_533;
    assert_eq!(audited(&world), 9, "the chain comes back to its head");
    world.pool[1] = 1;
    assert_eq!(audited(&world), 9, "the last block is its own next");
}

#[test]
fn the_audit_of_the_largest_block() {
    let mut world = World::cleared(65_536, 9, 2);
    library::through_c(&mut world, &Call::FromSlice { slot: 1, elements: elements(65_535) });
    assert_eq!(audited(&world), 0);
    library::through_c(&mut world, &Call::Clear { slot: 1 });
    assert_eq!((world.heads[14], audited(&world)), (1, 0));
    world.heads[13] = 1;
    assert_eq!(audited(&world), 9, "a block on two chains");
}
