//! Fixed cases: a call on a world that is written out, made by the library in both ways and by the
//! model, which have to agree.

use crate::world::{Call, Outcome, World};
use crate::{library, model};

/// The reserved value, as the paper's sheet writes it.
pub const M: u32 = u32::MAX;

/// A world with these words, all of them used, some heads, `(class, head)`, and these handles.
pub fn world(pool: &[u32], heads: &[(usize, u32)], handles: &[u32]) -> World {
    let mut world = World::cleared(pool.len(), 0, 0);
    world.used = pool.len() as u32;
    world.pool = pool.to_vec();
    world.handles = handles.to_vec();
    world.map.fill(7);
    for &(class, head) in heads {
        world.heads[class] = head;
    }
    world
}

/// Some heads, `(class, head)`, and 0 for the other classes.
pub fn heads(some: &[(usize, u32)]) -> [u32; 15] {
    world(&[], some, &[]).heads
}

/// Makes a call on a world three times, and gives what comes back and the world after it.
fn made(world: &World, call: &Call) -> (Outcome, World) {
    let [mut by_c, mut by_rust, mut by_model] = [(); 3].map(|()| world.clone());
    let outcome = library::through_c(&mut by_c, call);
    assert_eq!(library::through_rust(&mut by_rust, call), outcome, "{call:?} through the crate");
    assert_eq!(model::call(&mut by_model, call), outcome, "{call:?} by the model");
    assert!(by_rust == by_c, "{call:?} through the crate leaves\n{by_rust:?}\nand not\n{by_c:?}");
    assert!(by_model == by_c, "{call:?} by the model leaves\n{by_model:?}\nand not\n{by_c:?}");
    (outcome, by_c)
}

/// Makes a call that is done with a value, and gives the world after it.
pub fn done(world: &World, call: Call, value: u32) -> World {
    let (outcome, after) = made(world, &call);
    assert_eq!(outcome, Outcome::done(value), "{call:?}");
    after
}

/// Makes a call that is refused with a number, and changes nothing but, with 9, the map.
pub fn refused(world: &World, call: Call, number: u32) {
    let (outcome, after) = made(world, &call);
    assert_eq!(outcome, Outcome::refused(number), "{call:?}");
    let mut expected = world.clone();
    if number == 9 {
        expected.map[..world.used as usize / 4].fill(0);
    }
    assert_eq!(after, expected, "{call:?}");
}

/// The elements of the list in a slot, as `as_slice` shows them.
pub fn list(world: &World, slot: usize) -> Vec<u32> {
    match made(world, &Call::AsSlice { slot }) {
        (Outcome::Part(part), after) => after.pool[part].to_vec(),
        (outcome, _) => panic!("as_slice gives a part, and not {outcome:?}"),
    }
}
