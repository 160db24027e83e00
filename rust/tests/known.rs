//! Calls against known answers: the bench sheet of paper 01, then every function with arguments
//! that tell one from another, so that a wrong declaration (two arguments exchanged, a type too
//! narrow, a struct passed another way) shows.

use maaliskur::sys::{self, Answer, Part};
use maaliskur::{Lists, Refusal, State, FREE};

const M: u32 = u32::MAX;

/// The state with a used count and some heads, `(class, head)`.
fn state(used: u32, heads: &[(usize, u32)]) -> State {
    let mut state = State { used, heads: [0; 15] };
    for &(class, head) in heads {
        state.heads[class] = head;
    }
    state
}

/// P1 to P4 of the sheet, on cleared lists.
fn first_four(lists: &mut Lists) {
    assert_eq!(lists.push(0, 7), Ok(0));
    assert_eq!(
        (&lists.pool()[..4], lists.handles(), lists.state()),
        (&[1, 7, M, M][..], &[1, 0, 0][..], state(4, &[])),
        "P1"
    );

    assert_eq!((lists.push(0, 8), lists.push(0, 9)), (Ok(1), Ok(2)));
    assert_eq!(lists.pool()[..4], [3, 7, 8, 9], "P2");

    assert_eq!(lists.push(0, 10), Ok(3));
    assert_eq!(lists.pool()[..12], [0, 0, 8, 9, 4, 7, 8, 9, 10, M, M, M], "P3");
    assert_eq!((lists.handles()[0], lists.state()), (5, state(12, &[(0, 1)])), "P3");

    assert_eq!(lists.push(1, 5), Ok(0));
    assert_eq!(
        (&lists.pool()[..4], lists.handles()[1], lists.state()),
        (&[1, 5, 8, 9][..], 1, state(12, &[])),
        "P4"
    );
}

#[test]
fn the_bench_sheet() {
    let (mut pool, mut handles) = ([0; 16], [0; 3]);
    let mut lists = Lists::new(&mut pool, &mut handles).unwrap();
    first_four(&mut lists);

    assert_eq!(lists.remove(0, 0), Ok(()));
    assert_eq!(lists.pool(), [1, 5, 8, 9, 0, 0, 9, 10, 10, M, M, M, 3, 8, 9, 10], "P5");
    assert_eq!((lists.handles()[0], lists.state()), (13, state(16, &[(1, 5)])), "P5");

    assert_eq!(lists.push(2, 1), Err(Refusal::NoRoom), "P7");

    assert_eq!(lists.extend(1, &[1, 2, 3]), Ok(()));
    assert_eq!(lists.pool(), [0, 0, 8, 9, 4, 5, 1, 2, 3, M, M, M, 3, 8, 9, 10], "P8");
    assert_eq!((lists.handles(), lists.state()), (&[13, 5, 0][..], state(16, &[(0, 1)])), "P8");
    let mut map = [9; 5];
    assert_eq!(lists.audit(&mut map), Ok(()), "P8");
    assert_eq!(map, [FREE, 2, 0, 1, 9], "P8");

    let (p8, mut pool_9, mut handles_9) = (lists.state(), lists.pool().to_vec(), [13, 5, 5]);
    assert_eq!(
        Lists::resume(p8, &mut pool_9, &mut handles_9).audit(&mut map),
        Err(Refusal::NotSound),
        "P9"
    );
    assert_eq!(map, [0, 0, 0, 0, 9], "P9");

    assert_eq!([1, 3, 4, 7, 8, 65_535].map(maaliskur::class), [0, 0, 1, 1, 2, 14], "P10");

    assert_eq!(lists.truncate(1, 3), Ok(()));
    assert_eq!(lists.pool(), [3, 5, 1, 2, 0, 0, 1, 2, 3, M, M, M, 3, 8, 9, 10], "P11");
    assert_eq!((lists.handles()[1], lists.state()), (1, state(16, &[(1, 5)])), "P11");
}

#[test]
fn the_bench_sheet_in_twelve_words() {
    let (mut pool, mut handles) = ([0; 12], [0; 3]);
    let mut lists = Lists::new(&mut pool, &mut handles).unwrap();
    first_four(&mut lists);
    let before = (lists.state(), lists.pool().to_vec(), lists.handles().to_vec());
    assert_eq!(lists.remove(0, 0), Err(Refusal::NoRoom), "P6");
    assert_eq!((lists.state(), lists.pool().to_vec(), lists.handles().to_vec()), before, "P6");
}

#[test]
fn the_bench_sheet_grown_at_the_front() {
    let (mut pool, mut handles) = ([0; 16], [0; 3]);
    let mut lists = Lists::new(&mut pool, &mut handles).unwrap();
    lists.from_slice(0, &[7, 8]).unwrap();
    assert_eq!(lists.grow_at(0, 0, 1), Ok(()));
    assert_eq!(lists.as_slice(0), [7, 7, 8], "P12");
}

/// A pool with `[10, 11, 12, 13, 14]` in slot 3 of five, `[20, 21]` in slot 1, and a free block of
/// 4 words behind them.
fn told_apart() -> (State, [u32; 24], [u32; 5]) {
    let mut pool = [99; 24];
    pool[..8].copy_from_slice(&[5, 10, 11, 12, 13, 14, M, M]);
    pool[8..12].copy_from_slice(&[2, 20, 21, M]);
    pool[12..16].copy_from_slice(&[0, 0, 77, 78]);
    (state(16, &[(0, 13)]), pool, [0, 9, 0, 1, 0])
}

/// Calls a function of the library on the told-apart pool: gives its answer, the words and the
/// handles after it.
macro_rules! called {
    ($function:ident $(, $argument:expr)*) => {{
        let (state, mut pool, mut handles) = told_apart();
        // SAFETY: the pointers and lengths are those of the arrays above.
        let answer = unsafe { sys::$function(state, pool.as_mut_ptr(), pool.len(), handles.as_mut_ptr(), handles.len() $(, $argument)*) };
        (answer, pool, handles)
    }};
}

/// An answer that is done, with a value, and leaves the told-apart state as it is.
fn read(value: u32) -> Answer {
    Answer { number: 0, value, state: told_apart().0 }
}

/// An answer that is done without a value and leaves a state.
fn wrote(state: State) -> Answer {
    Answer { number: 0, value: 0, state }
}

/// A refusal of the told-apart pool.
fn refused(number: u32) -> Answer {
    Answer { number, value: 0, state: told_apart().0 }
}

#[test]
fn calls_that_read() {
    let (_, pool, handles) = told_apart();
    assert_eq!(called!(maaliskur_is_empty, 3), (read(0), pool, handles));
    assert_eq!(called!(maaliskur_is_empty, 0).0, read(1));
    assert_eq!(called!(maaliskur_is_valid, 1), (read(1), pool, handles));
    assert_eq!(called!(maaliskur_len, 3), (read(5), pool, handles));
    assert_eq!(called!(maaliskur_len, 1).0, read(2));
    assert_eq!(called!(maaliskur_get, 3, 1), (read(11), pool, handles));
    assert_eq!(called!(maaliskur_get, 1, 1).0, read(21));
    assert_eq!(called!(maaliskur_get, 1, 3).0, refused(4));
    assert_eq!(called!(maaliskur_first, 1), (read(20), pool, handles));
    assert_eq!(called!(maaliskur_first, 0).0, refused(4));
    assert_eq!(called!(maaliskur_part, 3), (Part { start: 1, end: 6 }, pool, handles));
    assert_eq!(called!(maaliskur_part, 1).0, Part { start: 9, end: 11 });
    assert_eq!(called!(maaliskur_part, 7).0, Part { start: 0, end: 0 });
}

#[test]
fn calls_that_write_elements() {
    let (entry, pool, handles) = told_apart();
    let (answer, words, table) = called!(maaliskur_set, 3, 1, 500);
    assert_eq!((answer, words[2], table), (wrote(entry), 500, handles));
    assert_eq!(
        (words[..2].to_vec(), words[3..].to_vec()),
        (pool[..2].to_vec(), pool[3..].to_vec())
    );
}

#[test]
fn calls_that_make_and_unmake() {
    let (_, pool, handles) = told_apart();
    let (answer, words, table) = called!(maaliskur_from_slice, 2, [31, 32, 33].as_ptr(), 2);
    assert_eq!(
        (answer, &words[12..16], table),
        (wrote(state(16, &[])), &[2, 31, 32, 78][..], [0, 9, 13, 1, 0])
    );

    let (answer, words, table) = called!(maaliskur_deep_clone, 1, 4);
    assert_eq!(
        (answer, &words[12..16], table),
        (wrote(state(16, &[])), &[2, 20, 21, 78][..], [0, 9, 0, 1, 13])
    );

    let (answer, words, table) = called!(maaliskur_clear, 1);
    assert_eq!(
        (answer, &words[8..12], table),
        (wrote(state(16, &[(0, 9)])), &[0, 13, 21, M][..], [0, 0, 0, 1, 0])
    );

    assert_eq!(
        called!(maaliskur_take, 3, 2),
        (wrote(state(16, &[(0, 13)])), pool, [0, 9, 1, 0, 0])
    );
    assert_eq!(called!(maaliskur_take, 3, 1), (refused(5), pool, handles));
    assert_eq!(called!(maaliskur_clear_pool), (wrote(state(0, &[])), pool, [0; 5]));
}

#[test]
fn calls_that_grow() {
    let (answer, words, table) = called!(maaliskur_push, 3, 4);
    assert_eq!(
        (answer, &words[..8], table),
        (read(5), &[6, 10, 11, 12, 13, 14, 4, M][..], [0, 9, 0, 1, 0])
    );

    let (answer, words, table) = called!(maaliskur_extend, 1, [4, 5, 6].as_ptr(), 2);
    assert_eq!(
        (answer, &words[16..24], table),
        (wrote(state(24, &[(0, 9)])), &[4, 20, 21, 4, 5, M, M, M][..], [0, 17, 0, 1, 0])
    );

    let (answer, words, table) = called!(maaliskur_copy_from, 1, 3, 2, 3, 1);
    assert_eq!((answer, &words[8..12], table), (read(0), &[3, 20, 12, 21][..], [0, 9, 0, 1, 0]));
    let (answer, words, _) = called!(maaliskur_copy_from, 3, 1, 0, 2, 4);
    assert_eq!((answer, &words[..8]), (read(0), &[7, 10, 11, 12, 13, 20, 21, 14][..]));

    let (answer, words, _) = called!(maaliskur_insert, 3, 1, 4);
    assert_eq!((answer, &words[..8]), (read(0), &[6, 10, 4, 11, 12, 13, 14, M][..]));

    let (answer, words, _) = called!(maaliskur_grow_at, 3, 1, 2);
    assert_eq!((answer, &words[..8]), (read(0), &[7, 10, 11, 12, 11, 12, 13, 14][..]));
}

#[test]
fn calls_that_shrink() {
    let (answer, words, _) = called!(maaliskur_remove, 3, 1);
    assert_eq!((answer, &words[..8]), (read(0), &[4, 10, 12, 13, 14, 14, M, M][..]));

    let (answer, words, _) = called!(maaliskur_swap_remove, 3, 1);
    assert_eq!((answer, &words[..8]), (read(0), &[4, 10, 14, 12, 13, 11, M, M][..]));

    let (answer, words, table) = called!(maaliskur_truncate, 3, 2);
    assert_eq!(
        (answer, &words[12..16], table),
        (wrote(state(16, &[(1, 1)])), &[2, 10, 11, 78][..], [0, 9, 0, 13, 0])
    );
}

#[test]
fn the_audit() {
    let (_, pool, handles) = told_apart();
    let mut map = [6; 5];
    assert_eq!(called!(maaliskur_audit, map.as_mut_ptr(), 5), (read(0), pool, handles));
    assert_eq!(map, [4, 0, 2, FREE, 6]);
    assert_eq!(called!(maaliskur_audit, map.as_mut_ptr(), 3), (refused(8), pool, handles));
    assert_eq!(map, [4, 0, 2, FREE, 6]);
}

#[test]
fn a_state_goes_in_and_out_by_value() {
    let mut entry = State { used: 0x8765_4321, heads: [0; 15] };
    for (class, head) in entry.heads.iter_mut().enumerate() {
        *head = 0x1111_1111 * (class as u32 + 1);
    }
    let (mut pool, mut handles) = ([3; 8], [4; 2]);
    // SAFETY: the pointers and lengths are those of the arrays above.
    let answer =
        unsafe { sys::maaliskur_push(entry, pool.as_mut_ptr(), 8, handles.as_mut_ptr(), 2, 0, 5) };
    assert_eq!(
        (answer, pool, handles),
        (Answer { number: 1, value: 0, state: entry }, [3; 8], [4; 2])
    );
}

#[test]
fn sizes_and_positions_are_eight_bytes_wide() {
    let wide = 1 << 32;
    assert_eq!(called!(maaliskur_len, wide + 3).0, refused(2));
    assert_eq!(called!(maaliskur_get, 3, wide + 1).0, refused(4));
    assert_eq!(called!(maaliskur_set, 3, wide + 1, 4).0, refused(4));
    assert_eq!(called!(maaliskur_insert, 3, wide + 1, 4).0, refused(4));
    assert_eq!(called!(maaliskur_remove, 3, wide + 1).0, refused(4));
    assert_eq!(called!(maaliskur_swap_remove, 3, wide + 1).0, refused(4));
    assert_eq!(called!(maaliskur_copy_from, 1, 3, 2, wide + 3, 1).0, refused(4));
    assert_eq!(called!(maaliskur_copy_from, 1, 3, wide + 2, wide + 3, 1).0, refused(4));
    assert_eq!(called!(maaliskur_copy_from, 1, 3, 2, 3, wide + 1).0, refused(4));
    assert_eq!(called!(maaliskur_grow_at, 3, wide + 1, 1).0, refused(4));
    assert_eq!(called!(maaliskur_grow_at, 3, 1, wide + 1).0, refused(7));
    assert_eq!(called!(maaliskur_grow_at, 3, 1, usize::MAX).0, refused(7));
    let (_, pool, handles) = told_apart();
    assert_eq!(called!(maaliskur_truncate, 3, wide + 2), (read(0), pool, handles));
}

#[test]
fn elements_are_any_words() {
    let (mut pool, mut handles) = ([0; 16], [0; 1]);
    let mut lists = Lists::new(&mut pool, &mut handles).unwrap();
    lists.extend(0, &[M, 0, 1 << 31, M]).unwrap();
    assert_eq!(lists.as_slice(0), [M, 0, 1 << 31, M]);
    assert_eq!((lists.get(0, 0), lists.get(0, 2)), (Ok(M), Ok(1 << 31)));
}

#[test]
fn empty_slices_are_lent_too() {
    let (mut pool, mut handles) = ([], []);
    let mut lists = Lists::new(&mut pool, &mut handles).unwrap();
    assert_eq!(lists.push(0, 1), Err(Refusal::NoSlot));
    assert_eq!(lists.as_mut_slice(0), []);
    assert_eq!(lists.audit(&mut []), Ok(()));
}

#[test]
fn classes_and_sizes() {
    assert_eq!([0, 15, 16, 65_536, M].map(maaliskur::class), [0, 2, 3, 15, 30]);
    let sizes: Vec<u32> = (0..15).map(maaliskur::size).collect();
    assert_eq!(sizes, (0..15).map(|class| 4 << class).collect::<Vec<u32>>());
}

#[test]
fn refusals_have_numbers_and_words() {
    let numbers = Refusal::ALL.map(Refusal::number);
    assert_eq!(numbers, [1, 2, 3, 4, 5, 6, 7, 8, 9]);
    assert_eq!(numbers.map(Refusal::from_number), Refusal::ALL.map(Some));
    assert_eq!((Refusal::from_number(0), Refusal::from_number(10)), (None, None));
    assert_eq!(Refusal::NoRoom.to_string(), "there is no room for the block needed");
}
