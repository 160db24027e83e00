//! The layout of the three structs, which nothing proves: sizes, alignments and offsets as a C
//! compiler for x86-64 lays them out.

use maaliskur::sys::{Answer, Part, State};
use std::mem::{align_of, size_of, MaybeUninit};
use std::ptr::addr_of;

/// How many bytes a field lies behind the start of its struct.
macro_rules! offset {
    ($struct:ty, $field:ident) => {{
        let whole = MaybeUninit::<$struct>::uninit();
        let start = whole.as_ptr();
        // SAFETY: `addr_of` makes the field's address and reads nothing.
        let field = unsafe { addr_of!((*start).$field) };
        field as usize - start as usize
    }};
}

/// `struct maaliskur_state { uint32_t used; uint32_t heads[15]; }`
#[test]
fn a_state_is_sixteen_words() {
    assert_eq!((size_of::<State>(), align_of::<State>()), (64, 4));
    assert_eq!((offset!(State, used), offset!(State, heads)), (0, 4));
}

/// `struct maaliskur_answer { uint32_t number, value; struct maaliskur_state state; }`
#[test]
fn an_answer_is_two_words_and_a_state() {
    assert_eq!((size_of::<Answer>(), align_of::<Answer>()), (72, 4));
    assert_eq!(
        (offset!(Answer, number), offset!(Answer, value), offset!(Answer, state)),
        (0, 4, 8)
    );
}

/// `struct maaliskur_part { size_t start, end; }`
#[test]
fn a_part_is_two_sizes() {
    assert_eq!((size_of::<Part>(), align_of::<Part>()), (16, 8));
    assert_eq!((offset!(Part, start), offset!(Part, end)), (0, 8));
}

/// `uint32_t` and `size_t`, as the header has them.
#[test]
fn a_size_is_eight_bytes() {
    assert_eq!((size_of::<u32>(), size_of::<usize>(), align_of::<usize>()), (4, 8, 8));
}
