//! The archive beside the second program: random runs of all calls, compared after every call.
//!
//! Method: the archive is called through the raw functions, on memory between guards; the second program judges the
//! same call on its own world. After each call the answer, the state, and every byte of every buffer lent must be the
//! same, and every guard untouched. Pictures of every size class, format, pair of depths and switches are brought to
//! their end in random order, and must end as the second program filters the whole picture at once. Among those calls,
//! and on damaged copies of what is lent, is bad input of every kind: numbers at the borders of what is right, numbers
//! whose low bits are right, and any numbers at all. Each refusal of each call must be seen often enough, and so must
//! reads of more bins than 16 bits count, which the tables printed at the end show. Beside the random runs every value
//! of every byte that is judged is tried in its place, and a sample above the depth at every place.
//!
//! A seed names at least a thousand calls, whatever the number of threads. From the environment:
//!
//! - `BESIDE_CALLS=n`: at least so many calls, for a longer or a shorter run; a shorter one asks for no refusals;
//! - `BESIDE_SEED=n`: that seed alone, each call printed before it is made;
//! - `BESIDE_GUARDS=0`: no guards, so that each buffer is an allocation of its own, for a tool that watches those.
//!
//! Under valgrind, which sees what is read outside as well:
//!
//! ```text
//! BESIDE_CALLS=20000 BESIDE_GUARDS=0 cargo test --test beside \
//!     --config "target.'cfg(unix)'.runner='valgrind -q --undef-value-errors=no --error-exitcode=9'"
//! ```
//!
//! Its check for undefined values stays off: it takes the tag of an empty option, in the second program's optimised
//! iterators, for one.

#[path = "beside/archive.rs"]
mod archive;
#[path = "beside/bytes.rs"]
mod bytes;
#[path = "beside/call.rs"]
mod call;
#[path = "beside/damage.rs"]
mod damage;
#[path = "beside/draw.rs"]
mod draw;
#[path = "beside/geometry.rs"]
mod geometry;
#[path = "beside/judge.rs"]
mod judge;
#[path = "beside/lent.rs"]
mod lent;
#[path = "beside/places.rs"]
mod places;
#[path = "beside/run.rs"]
mod run;
#[path = "beside/spoil.rs"]
mod spoil;
#[path = "beside/tally.rs"]
mod tally;

use run::{CALLS_A_SEED, Watch};
use std::env;
use std::panic;
use std::sync::atomic::{AtomicU64, Ordering};
use std::thread;
use std::time::Instant;
use tally::Tally;

/// The calls of a run in the gate, and how often each answer of each call must be seen in it.
const CALLS: u64 = 2_000_000;
const OFTEN: u64 = 1000;

fn number(name: &str) -> Option<u64> {
    let text = env::var(name).ok()?;
    Some(text.parse().unwrap_or_else(|_| panic!("{name} is {text}, which is no number")))
}

/// Runs one seed; a panic on the way is told with the seed as well.
fn run_seed(seed: u64, watch: Watch) -> Result<Tally, String> {
    panic::catch_unwind(|| run::seed(seed, watch)).unwrap_or_else(|_| Err(format!("seed {seed}: a panic, told above")))
}

/// Runs seeds until none below the limit is left; after a failure none is.
fn run_some(next: &AtomicU64, limit: u64, watch: Watch) -> Result<Tally, String> {
    let mut sum = Tally::default();
    loop {
        let seed = next.fetch_add(1, Ordering::Relaxed);
        if seed >= limit {
            return Ok(sum);
        }
        let tally = run_seed(seed, watch).inspect_err(|_| next.store(limit, Ordering::Relaxed))?;
        sum.add(&tally);
    }
}

/// Runs every seed below the limit, each on whichever thread is free.
fn run_seeds(limit: u64, watch: Watch) -> Result<Tally, String> {
    let next = AtomicU64::new(0);
    let threads = thread::available_parallelism().map_or(1, usize::from);
    let mut sum = Tally::default();
    thread::scope(|scope| {
        let all: Vec<_> = (0..threads).map(|_| scope.spawn(|| run_some(&next, limit, watch))).collect();
        all.into_iter().try_for_each(|thread| {
            let tally = thread.join().map_err(|_| "a thread ended early, as told above")??;
            sum.add(&tally);
            Ok(())
        })
    })
    .map(|()| sum)
}

/// How this run is watched; a single seed aloud.
fn watch() -> Watch {
    Watch { guards: number("BESIDE_GUARDS") != Some(0), aloud: number("BESIDE_SEED").is_some() }
}

/// The calls asked for.
fn calls() -> u64 {
    number("BESIDE_CALLS").unwrap_or(CALLS)
}

/// Whether the run is long enough to see every answer often.
fn is_long() -> bool {
    calls() >= CALLS && !watch().aloud
}

/// What a run came to; a difference ends the test with its sentence.
fn told<T>(outcome: Result<T, String>) -> T {
    outcome.unwrap_or_else(|why| panic!("the archive and the second program differ: {why}"))
}

#[test]
fn every_call_is_as_the_second_program_says() {
    println!("at least {} calls; BESIDE_CALLS=n for another number, BESIDE_SEED=n for one seed again", calls());
    let start = Instant::now();
    let tally = told(match number("BESIDE_SEED") {
        Some(seed) => run::seed(seed, watch()),
        None => run_seeds(calls().div_ceil(CALLS_A_SEED), watch()),
    });
    let seconds = start.elapsed().as_secs_f64();
    println!("{tally}{seconds:.1} seconds, {:.0} calls a second", tally.calls as f64 / seconds);
    if is_long() {
        let rarest = tally.rarest();
        assert!(rarest.is_some_and(|(_, _, times)| times >= OFTEN), "too rare: {rarest:?}");
        assert!(tally.every_picture(), "some class or kind of picture is missing");
        let rarest = tally.rarest_wrong_depths();
        assert!(rarest.is_some_and(|times| times >= OFTEN), "wrong depths are too rare: {rarest:?}");
        let rarest = tally.rarest_depths();
        assert!(rarest.is_some_and(|(_, pictures)| pictures > 0), "a pair of depths is missing: {rarest:?}");
        assert!(tally.equal_shares(), "some format has more pictures than another");
        assert!(tally.long >= OFTEN, "reads of many bins are too rare: {}", tally.long);
    }
}

#[test]
fn a_sample_above_the_depth_is_seen_at_every_place() {
    let tally = told(places::every_place(Watch { aloud: false, ..watch() }));
    assert_eq!([tally.for_last_reason(call::DELIVER), tally.for_last_reason(call::FILTER)], places::expected());
}

#[test]
fn every_value_of_every_byte_is_judged() {
    let tally = told(bytes::every_byte(Watch { aloud: false, ..watch() }));
    println!("every value of every byte: {} calls", tally.calls);
    assert_eq!([1, 2, 3, 4, 5].map(|call| tally.accepted(call)), bytes::expected());
    assert_eq!(tally.for_last_reason(call::OPEN), bytes::sound_descriptions());
}

#[test]
fn sizes_and_blocks_are_as_the_second_program_says() {
    let numbers = told(geometry::seed(number("BESIDE_SEED").unwrap_or(0), calls() / 20, watch().guards));
    println!("sizes and blocks, answers by number: {numbers:?}");
    let asked: Vec<_> = numbers.keys().copied().collect();
    assert_eq!(asked, [("block", 0), ("block", 1), ("block", 3), ("sizes", 0), ("sizes", 1)]);
    assert!(!is_long() || numbers.values().all(|&times| times >= OFTEN), "too rare: {numbers:?}");
}
