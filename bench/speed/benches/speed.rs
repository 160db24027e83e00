//! Times each case on each side, and the audit of full pools beside a plain pass.
//!
//! A sample is a number of rounds. Each round begins with the same pool, prepared outside the
//! timing, and what is read is the thread's own processor time, which stands still while others
//! have the processor.

use criterion::{black_box, criterion_group, criterion_main};
use criterion::{Criterion, SamplingMode, Throughput};
use speed::audits::{self, Full};
use speed::cases::{self, Case, Outcome};
use speed::forms::{OriginalCalled, PointerBare, PointerJudged};
use speed::forms::{ValueBare, ValueCut, ValueJudged, ValueSplit};
use speed::sides::{Crate, Original, Pushes, Shifting, C};
use std::env;
use std::time::Duration;

/// The C library's `struct timespec`, on 64-bit Linux.
#[repr(C)]
struct Timespec {
    seconds: i64,
    nanoseconds: i64,
}

/// Linux's number for the clock of the thread's processor time.
const THREAD: i32 = 3;

extern "C" {
    fn clock_gettime(clock: i32, time: *mut Timespec) -> i32;
}

/// The thread's processor time until now.
fn now() -> Duration {
    let mut time = Timespec { seconds: 0, nanoseconds: 0 };
    // SAFETY: the time is there to be written.
    let status = unsafe { clock_gettime(THREAD, &mut time) };
    assert_eq!(status, 0, "no clock of the thread's processor time");
    Duration::new(time.seconds as u64, time.nanoseconds as u32)
}

/// How long something takes, so many times, each time after a preparation.
fn timed<T>(times: u64, it: &mut T, prepare: impl Fn(&mut T), run: impl Fn(&mut T)) -> Duration {
    let mut total = Duration::ZERO;
    for _ in 0..times {
        prepare(it);
        let start = now();
        run(it);
        total += now() - start;
    }
    total
}

/// Something that is timed, by its name, for so many calls in one go.
fn bench<T>(
    criterion: &mut Criterion,
    (case, side): (&str, &str),
    calls: usize,
    it: &mut T,
    prepare: impl Fn(&mut T),
    run: impl Fn(&mut T),
) {
    let mut group = criterion.benchmark_group(case);
    group.sampling_mode(SamplingMode::Flat).throughput(Throughput::Elements(calls as u64));
    group.bench_function(side, |bencher| {
        bencher.iter_custom(|times| timed(times, it, &prepare, &run))
    });
    group.finish();
}

/// Times a case on a side, after a round of it has left the same lists, and returned the same, as
/// on the original.
fn time<S: Pushes>(criterion: &mut Criterion, name: &str, case: Case<S>, expected: &Outcome) {
    assert!(case.outcome() == *expected, "{name}: {} is not as the original", S::NAME);
    let mut side = S::cleared(case.slots);
    let prepare = |side: &mut S| case.prepare(side);
    let run = |side: &mut S| {
        black_box(case.counted_round(side));
    };
    bench(criterion, (name, S::NAME), case.calls, &mut side, prepare, run);
}

/// The cases, on the library, the original, and its copy with another `insert`.
fn sides(criterion: &mut Criterion) {
    for name in cases::ALL {
        let original = cases::named::<Original>(name).unwrap();
        let expected = original.outcome();
        time(criterion, name, cases::named::<C>(name).unwrap(), &expected);
        time(criterion, name, cases::named::<Crate>(name).unwrap(), &expected);
        time(criterion, name, original, &expected);
        time(criterion, name, cases::named::<Shifting>(name).unwrap(), &expected);
        form::<ValueSplit>(criterion, name, &expected);
        form::<ValueCut>(criterion, name, &expected);
        form::<ValueJudged>(criterion, name, &expected);
        form::<ValueBare>(criterion, name, &expected);
        form::<PointerJudged>(criterion, name, &expected);
        form::<PointerBare>(criterion, name, &expected);
        form::<OriginalCalled>(criterion, name, &expected);
    }
}

/// A case on a form that is written by hand, where it is `push` alone.
fn form<S: Pushes>(criterion: &mut Criterion, name: &str, expected: &Outcome) {
    if let Some(case) = cases::pushes::<S>(name) {
        time(criterion, name, case, expected);
    }
}

/// Audits, or plain passes, are timed in one go until they have come over so many words, so that
/// reading the clock weighs the same at each size.
const WORDS: usize = 1 << 20;

/// The audit of each full pool, and right after it a plain pass over the same words.
fn audits(criterion: &mut Criterion) {
    for (name, kind, words) in audits::all() {
        let times = (WORDS / words).max(1);
        let mut full = Full::new(kind, words);
        let audit = |full: &mut Full| (0..times).for_each(|_| full.counted_audit());
        bench(criterion, (&name, C::NAME), times, &mut full, |_| (), audit);
        let pass = |full: &mut Full| {
            for _ in 0..times {
                black_box(black_box(&*full).counted_pass());
            }
        };
        bench(criterion, (&name, audits::PASS), times, &mut full, |_| (), pass);
    }
}

/// How long each is timed: as the environment says, in thousandths of a second.
fn settings() -> Criterion {
    let milliseconds = env::var("SPEED_MILLISECONDS").map_or(Ok(500), |word| word.parse());
    let time = Duration::from_millis(milliseconds.expect("SPEED_MILLISECONDS is a number"));
    Criterion::default()
        .without_plots()
        .sample_size(10)
        .nresamples(100)
        .warm_up_time(time / 4)
        .measurement_time(time)
}

criterion_group! { name = all; config = settings(); targets = sides, audits }
criterion_main!(all);
