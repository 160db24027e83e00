//! A call by the library, in the two ways that it is reached: through its C functions, and through
//! the safe crate.

use crate::world::{Call, Outcome, World};
use maaliskur::sys::{self, Answer};
use maaliskur::{Lists, Refusal, State};

/// Makes a call through the C functions: whatever they hand back is what comes back, the state of a
/// refusal too.
pub fn through_c(world: &mut World, call: &Call) -> Outcome {
    let World { used, heads, pool, handles, map } = world;
    let state = State { used: *used, heads: *heads };
    let (pool, pool_len) = (pool.as_mut_ptr(), pool.len());
    let (handles, handles_len) = (handles.as_mut_ptr(), handles.len());
    /// A function of the library, given the first five arguments.
    macro_rules! c {
        ($function:ident($($argument:expr),*)) => {
            sys::$function(state, pool, pool_len, handles, handles_len $(, $argument)*)
        };
    }
    // SAFETY: the pointers and lengths are those of the world's vectors, which overlap with
    // nothing, and a map is a front part of the map.
    let answer: Answer = unsafe {
        match *call {
            Call::FromSlice { slot, ref elements } => {
                c!(maaliskur_from_slice(slot, elements.as_ptr(), elements.len()))
            }
            Call::IsEmpty { slot } => c!(maaliskur_is_empty(slot)),
            Call::Len { slot } => c!(maaliskur_len(slot)),
            Call::IsValid { slot } => c!(maaliskur_is_valid(slot)),
            Call::AsSlice { slot } => {
                let part = c!(maaliskur_part(slot));
                return Outcome::Part(part.start..part.end);
            }
            Call::Get { slot, position } => c!(maaliskur_get(slot, position)),
            Call::First { slot } => c!(maaliskur_first(slot)),
            Call::Set { slot, position, element } => c!(maaliskur_set(slot, position, element)),
            Call::DeepClone { slot, to } => c!(maaliskur_deep_clone(slot, to)),
            Call::Clear { slot } => c!(maaliskur_clear(slot)),
            Call::Take { slot, to } => c!(maaliskur_take(slot, to)),
            Call::Push { slot, element } => c!(maaliskur_push(slot, element)),
            Call::Extend { slot, ref elements } => {
                c!(maaliskur_extend(slot, elements.as_ptr(), elements.len()))
            }
            Call::CopyFrom { slot, source, start, end, position } => {
                c!(maaliskur_copy_from(slot, source, start, end, position))
            }
            Call::Insert { slot, position, element } => {
                c!(maaliskur_insert(slot, position, element))
            }
            Call::Remove { slot, position } => c!(maaliskur_remove(slot, position)),
            Call::SwapRemove { slot, position } => c!(maaliskur_swap_remove(slot, position)),
            Call::Truncate { slot, length } => c!(maaliskur_truncate(slot, length)),
            Call::GrowAt { slot, position, count } => c!(maaliskur_grow_at(slot, position, count)),
            Call::ClearPool => c!(maaliskur_clear_pool()),
            Call::Audit { map_words } => {
                let lent = &mut map[..map_words];
                c!(maaliskur_audit(lent.as_mut_ptr(), lent.len()))
            }
        }
    };
    *used = answer.state.used;
    *heads = answer.state.heads;
    Outcome::Answer { number: answer.number, value: answer.value }
}

/// Makes a call through the safe crate.
pub fn through_rust(world: &mut World, call: &Call) -> Outcome {
    let World { used, heads, pool, handles, map } = world;
    let state = State { used: *used, heads: *heads };
    let pool_start = pool.as_ptr() as usize;
    let mut lists = Lists::resume(state, pool, handles);
    let answer: Result<u32, Refusal> = match *call {
        Call::FromSlice { slot, ref elements } => lists.from_slice(slot, elements).map(nothing),
        Call::IsEmpty { slot } => lists.is_empty(slot).map(u32::from),
        Call::Len { slot } => lists.len(slot).map(word),
        Call::IsValid { slot } => lists.is_valid(slot).map(u32::from),
        Call::AsSlice { slot } => {
            let part = lists.as_mut_slice(slot).as_ptr_range();
            assert_eq!(
                part,
                lists.as_slice(slot).as_ptr_range(),
                "as_slice and as_mut_slice give one part"
            );
            return Outcome::Part(
                (part.start as usize - pool_start) / 4..(part.end as usize - pool_start) / 4,
            );
        }
        Call::Get { slot, position } => lists.get(slot, position),
        Call::First { slot } => lists.first(slot),
        Call::Set { slot, position, element } => lists.set(slot, position, element).map(nothing),
        Call::DeepClone { slot, to } => lists.deep_clone(slot, to).map(nothing),
        Call::Clear { slot } => lists.clear(slot).map(nothing),
        Call::Take { slot, to } => lists.take(slot, to).map(nothing),
        Call::Push { slot, element } => lists.push(slot, element).map(word),
        Call::Extend { slot, ref elements } => lists.extend(slot, elements).map(nothing),
        Call::CopyFrom { slot, source, start, end, position } => {
            lists.copy_from(slot, source, start..end, position).map(nothing)
        }
        Call::Insert { slot, position, element } => {
            lists.insert(slot, position, element).map(nothing)
        }
        Call::Remove { slot, position } => lists.remove(slot, position).map(nothing),
        Call::SwapRemove { slot, position } => lists.swap_remove(slot, position).map(nothing),
        Call::Truncate { slot, length } => lists.truncate(slot, length).map(nothing),
        Call::GrowAt { slot, position, count } => lists.grow_at(slot, position, count).map(nothing),
        Call::ClearPool => lists.clear_pool().map(nothing),
        Call::Audit { map_words } => lists.audit(&mut map[..map_words]).map(nothing),
    };
    State { used: *used, heads: *heads } = lists.state();
    match answer {
        Ok(value) => Outcome::done(value),
        Err(refusal) => Outcome::refused(refusal.number()),
    }
}

/// The value of a call that has nothing to return.
fn nothing(_: ()) -> u32 {
    0
}

/// A length as the word that the library gave.
fn word(length: usize) -> u32 {
    length as u32
}
