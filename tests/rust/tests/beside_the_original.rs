//! Random sequences of calls from cleared pools, by the library and by the original.

use beside::draws::{cleared_worlds, draws};
use beside::pair::Pair;
use beside::runs::{run, Tally};
use beside::world::Call;

#[test]
fn the_library_does_what_the_original_does() {
    let cases = (cleared_worlds(), draws(1..400));
    let tally = run("beside the original", 100, Tally::done, cases, |(world, draws), tally| {
        let mut pair = Pair::new(world);
        for draw in draws {
            let call = draw.call(pair.world());
            let outcome = pair.step(call.clone())?;
            tally.count(&call, &outcome);
        }
        Ok(())
    });
    for name in Call::NAMES {
        assert!(tally.given_to(name, 0) > 0, "no {name} was done");
    }
    for number in [2, 4, 5, 7, 8] {
        assert!(tally.given(number) > 0, "no call was refused with {number}");
    }
    for number in [1, 3, 6, 9] {
        assert_eq!(
            tally.given(number),
            0,
            "a sound pool within its limits was refused with {number}"
        );
    }
}
