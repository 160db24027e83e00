//! Runs one round of a case on a side, or one audit of a full pool or one plain pass over it, for a
//! tool that counts instructions, and prints the number of its calls: `count NAME SIDE`. What is to
//! be counted are the functions named `counted_`. Without arguments it prints the names.

use speed::sides::{Crate, Original, Pushes, Shifting, Side, C};
use speed::{audits, cases};
use std::env;
use std::process::exit;

/// Runs a round of the case and gives the number of its calls.
fn run<S: Side>(name: &str) -> Option<usize> {
    let case = cases::named::<S>(name)?;
    let mut side = S::cleared(case.slots);
    case.prepare(&mut side);
    case.counted_round(&mut side);
    Some(case.calls)
}

/// Audits the full pool once: one call.
fn audit(name: &str) -> Option<usize> {
    audits::named(name)?.counted_audit();
    Some(1)
}

/// Passes over the full pool once.
fn pass(name: &str) -> Option<usize> {
    audits::named(name)?.counted_pass();
    Some(1)
}

fn main() {
    let words: Vec<String> = env::args().skip(1).collect();
    let calls = match &words[..] {
        [] => {
            cases::ALL.iter().for_each(|name| println!("{name}"));
            return audits::all().for_each(|(name, ..)| println!("{name}"));
        }
        [name, side] if side == C::NAME => run::<C>(name).or_else(|| audit(name)),
        [name, side] if side == Crate::NAME => run::<Crate>(name),
        [name, side] if side == Original::NAME => run::<Original>(name),
        [name, side] if side == Shifting::NAME => run::<Shifting>(name),
        [name, side] if side == audits::PASS => pass(name),
        _ => None,
    };
    match calls {
        Some(calls) => println!("{calls}"),
        None => {
            eprintln!("usage: count [NAME SIDE]");
            exit(2)
        }
    }
}
