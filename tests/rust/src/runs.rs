//! As many cases of a property as it takes to make a number of calls, and what they came to.
//!
//! The environment variables MAALISKUR_SEED and MAALISKUR_CALLS choose other cases and more of
//! them; `tests/rust/run` sets them.

use crate::panics::quietly;
use crate::world::{Call, Outcome};
use proptest::strategy::Strategy;
use proptest::test_runner::{Config, RngAlgorithm, TestCaseError, TestError, TestRng, TestRunner};
use std::cell::RefCell;
use std::env;
use std::fmt;

/// How many calls a property makes where nothing else is said.
const CALLS: u64 = 1_000_000;

/// The number that an environment variable has, or else another.
fn number(variable: &str, otherwise: u64) -> u64 {
    match env::var(variable) {
        Ok(text) => text.parse().unwrap_or_else(|_| panic!("{variable} is no number: {text}")),
        Err(_) => otherwise,
    }
}

/// What the calls of a run came to: how often each call was given each number.
#[derive(Default)]
pub struct Tally {
    counts: [[u64; 10]; Call::NAMES.len()],
}

impl Tally {
    /// Counts a call.
    pub fn count(&mut self, call: &Call, outcome: &Outcome) {
        self.counts[call.kind()][outcome.number() as usize] += 1;
    }

    /// How many calls were made.
    pub fn calls(&self) -> u64 {
        self.counts.iter().flatten().sum()
    }

    /// How many calls were done.
    pub fn done(&self) -> u64 {
        self.given(0)
    }

    /// How many calls were given a number.
    pub fn given(&self, number: usize) -> u64 {
        self.counts.iter().map(|counts| counts[number]).sum()
    }

    /// How often a call, by its name, was given a number.
    pub fn given_to(&self, name: &str, number: usize) -> u64 {
        let kind = Call::NAMES.iter().position(|&other| other == name).expect("the name of a call");
        self.counts[kind][number]
    }
}

impl fmt::Display for Tally {
    /// A line for each call, a column for each number.
    fn fmt(&self, f: &mut fmt::Formatter<'_>) -> fmt::Result {
        write!(f, "{:12}", "")?;
        for number in 0..10 {
            write!(f, "{number:>9}")?;
        }
        for (name, counts) in Call::NAMES.iter().zip(self.counts) {
            write!(f, "\n{name:12}")?;
            for count in counts {
                write!(f, "{count:>9}")?;
            }
        }
        Ok(())
    }
}

/// The random numbers of a seed.
fn seeded(seed: u64) -> TestRng {
    let mut bytes = [0; 32];
    bytes[..8].copy_from_slice(&seed.to_le_bytes());
    TestRng::from_seed(RngAlgorithm::ChaCha, &bytes)
}

/// Runs cases of a property until a share of the calls was made, `percent` of them, counting those
/// that count; prints the tally and gives it. A case that fails is made smaller as long as it still
/// fails, and then stops the run with what it said.
pub fn run<S: Strategy>(
    property: &str,
    percent: u64,
    counted: impl Fn(&Tally) -> u64,
    cases: S,
    case: impl Fn(S::Value, &mut Tally) -> Result<(), String>,
) -> Tally {
    let seed = number("MAALISKUR_SEED", 1);
    let calls = number("MAALISKUR_CALLS", CALLS) * percent / 100;
    let config = Config {
        cases: 64,
        max_shrink_iters: 20_000,
        failure_persistence: None,
        ..Config::default()
    };
    let tally = RefCell::new(Tally::default());
    let mut random = seeded(seed);
    while counted(&tally.borrow()) < calls {
        let mut runner = TestRunner::new_with_rng(config.clone(), random);
        // A panic of a case is put into what the case says, and need not be printed while the
        // case is made smaller.
        let result = quietly(|| {
            runner.run(&cases, |value| {
                case(value, &mut tally.borrow_mut()).map_err(TestCaseError::fail)
            })
        });
        match result {
            Ok(()) => random = runner.new_rng(),
            Err(TestError::Fail(reason, value)) => {
                panic!("{property}, seed {seed}: {reason}\ndrawn as {value:?}")
            }
            Err(TestError::Abort(reason)) => panic!("{property}, seed {seed}: {reason}"),
        }
    }
    let tally = tally.into_inner();
    println!(
        "{property}: {} calls, {} of them done, with seed {seed}; by the number given:\n{tally}",
        tally.calls(),
        tally.done()
    );
    tally
}
