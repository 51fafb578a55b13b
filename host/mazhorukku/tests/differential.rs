//! The proved calls against a second simulator, on random and damaged inputs: every answer, every number and every area, whole,
//! after every call, refusals included.
//!
//!     cargo test --release
//!     MAZHORUKKU_CASES=100000 MAZHORUKKU_SEED=2 cargo test --release --test differential
//!
//! A case is one input, which is handed to all calls. A difference ends the test with the case's number and all that was handed
//! in.

mod comparison;
mod inputs;
mod reference;

use std::env;
use std::io::{stdout, Write};
use std::panic::{catch_unwind, resume_unwind, AssertUnwindSafe};
use std::time::Instant;

use comparison::tally::Tally;
use comparison::Comparison;
use inputs::random::Random;
use reference::judge::Judge;

/// With so many cases every answer comes up.
const CASES: u64 = 20_000;
const SEED: u64 = 1;

#[test]
fn the_calls_do_what_the_reference_does() {
    let (cases, seed) = (setting("MAZHORUKKU_CASES", CASES), setting("MAZHORUKKU_SEED", SEED));
    say(&format!("\nMAZHORUKKU_CASES={cases} MAZHORUKKU_SEED={seed}\n"));
    let start = Instant::now();
    let mut tally = Tally::default();
    for number in 0..cases {
        compare(seed, number, &mut tally);
    }
    let (calls, seconds) = (tally.calls(), start.elapsed().as_secs_f32());
    say(&format!("{tally}{cases} cases, {calls} calls, 0 differences, {seconds:.1} s\n"));
    let missing = tally.missing();
    assert!(cases < CASES || missing.is_empty(), "never came up: {}", missing.join(", "));
}

fn compare(seed: u64, number: u64, tally: &mut Tally) {
    let mut random = Random::of_case(seed, number);
    let case = inputs::case(&mut random);
    let judge = Judge::new(&case.task);
    let mut comparison = Comparison { case: &case, judge, random, tally };
    if let Err(cause) = catch_unwind(AssertUnwindSafe(|| comparison.all())) {
        say(&format!("case {number} of seed {seed}: {case:?}\n"));
        resume_unwind(cause);
    }
}

fn setting(name: &str, default: u64) -> u64 {
    match env::var(name) {
        Ok(text) => text.parse().unwrap_or_else(|_| panic!("{name} is no number: {text}")),
        Err(_) => default,
    }
}

/// Printed also where the test passes, so not by `print!`, which is caught.
fn say(text: &str) {
    stdout().write_all(text.as_bytes()).expect("standard output can be written");
}
