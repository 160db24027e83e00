//! Any input whatever: the library and the model of paper 01 on damaged and arbitrary worlds,
//! everything lent compared after each call.

use beside::draws::{any_worlds, damages, draws, limits_and_beyond};
use beside::runs::{run, Tally};
use beside::world::{Call, World};
use beside::{library, model};
use proptest::collection::vec;

/// Makes a call by both and compares what comes back and everything lent. Says what differs.
fn step(world: &mut World, twin: &mut World, call: &Call, tally: &mut Tally) -> Result<(), String> {
    let before = world.clone();
    let (library, model) = (library::through_c(world, call), model::call(twin, call));
    tally.count(call, &model);
    if library == model && world == twin {
        return Ok(());
    }
    Err(format!(
        "{call:?} in\n{before:?}\n\
         the library gives {library:?} and leaves\n{world:?}\n\
         the model gives {model:?} and leaves\n{twin:?}"
    ))
}

/// Every call was done, and refused with each number that it can be refused with: so many calls
/// meet all of that.
fn all_met(tally: &Tally) {
    if tally.calls() < 200_000 {
        return;
    }
    for name in Call::NAMES {
        assert!(tally.given_to(name, 0) > 0, "no {name} was done");
    }
    let allocating = [
        "push",
        "extend",
        "copy_from",
        "insert",
        "remove",
        "swap_remove",
        "truncate",
        "grow_at",
        "from_slice",
        "deep_clone",
    ];
    let naming = ["is_empty", "len", "is_valid", "get", "first", "set", "clear", "take"];
    for name in allocating.iter().chain(&naming) {
        assert!(
            (1..=3).all(|number| tally.given_to(name, number) > 0),
            "{name} was not refused with each of 1, 2, 3"
        );
    }
    for name in ["get", "first", "set", "copy_from", "insert", "remove", "swap_remove", "grow_at"] {
        assert!(tally.given_to(name, 4) > 0, "{name} was not refused with 4");
    }
    for name in ["from_slice", "deep_clone", "take", "copy_from"] {
        assert!(tally.given_to(name, 5) > 0, "{name} was not refused with 5");
    }
    for name in allocating {
        assert!(
            (6..=7).all(|number| tally.given_to(name, number) > 0),
            "{name} was not refused with each of 6, 7"
        );
    }
    for number in [1, 8, 9] {
        assert!(tally.given_to("audit", number) > 0, "audit was not refused with {number}");
    }
}

#[test]
fn damaged_pools() {
    let rounds = vec((damages(1..5), draws(1..20)), 1..12);
    let cases = (limits_and_beyond(), draws(0..60), rounds);
    let tally =
        run("damaged pools", 50, Tally::calls, cases, |(mut world, first, rounds), tally| {
            let mut twin = world.clone();
            for draw in first {
                let call = draw.call(&world);
                step(&mut world, &mut twin, &call, tally)?;
            }
            for (damages, draws) in rounds {
                let (mut world, mut twin) = (world.clone(), twin.clone());
                for damage in damages {
                    damage.strike(&mut world);
                    damage.strike(&mut twin);
                }
                let whole = Call::Audit { map_words: world.map.len() };
                step(&mut world, &mut twin, &whole, tally)?;
                for draw in draws {
                    let call = draw.call(&world);
                    step(&mut world, &mut twin, &call, tally)?;
                }
            }
            Ok(())
        });
    all_met(&tally);
}

#[test]
fn worlds_of_any_make() {
    let cases = (any_worlds(), draws(1..25));
    let tally = run("worlds of any make", 50, Tally::calls, cases, |(mut world, draws), tally| {
        let mut twin = world.clone();
        let whole = Call::Audit { map_words: world.map.len() };
        step(&mut world, &mut twin, &whole, tally)?;
        for draw in draws {
            let call = draw.call(&world);
            step(&mut world, &mut twin, &call, tally)?;
        }
        Ok(())
    });
    all_met(&tally);
}
