//! Plays the cases of a seed, or one case again.

use crate::case::Case;
use crate::coverage::Coverage;
use crate::make::make;
use crate::shrink::smaller;
use reference::kit::number_from;
use reference::plain::calls::{Calls, PROVED};
use std::num::NonZero;
use std::sync::atomic::{AtomicU64, Ordering};
use std::{env, fs, thread};

/// How many cases are played if ADL_CASES does not say.
const CASES: u64 = 130_000;

#[test]
fn proved_library_agrees_with_the_reference() {
    if let Ok(replay) = env::var("ADL_REPLAY") {
        return play_again(&fs::read_to_string(&replay).unwrap_or(replay));
    }
    let (seed, cases) = (number_from("ADL_SEED", 1), number_from("ADL_CASES", CASES));
    let (failing, coverage) = play(seed, cases, &PROVED);
    if let Some(number) = failing {
        panic!("seed {seed}, case {number}: {}", report(&make(seed, number).case, &PROVED));
    }
    println!("{cases} cases of seed {seed}\n{coverage}");
    let unmet = coverage.counts.unmet();
    assert!(cases < CASES || unmet.is_empty(), "never came up: {unmet:?}");
}

fn play_again(line: &str) {
    let case: Case = line.parse().expect("ADL_REPLAY holds a case, or the path of a file with one");
    match case.difference(&PROVED) {
        Some(_) => panic!("{}", report(&case, &PROVED)),
        None => println!("no difference"),
    }
}

/// What differs, the case, and a smaller one.
pub fn report(case: &Case, library: &Calls) -> String {
    let small = smaller(case, &|case| case.difference(library).is_some());
    let difference = |case: &Case| case.difference(library).unwrap_or_default();
    format!("{}\n{case}\nmade smaller: {}\n{small}\n", difference(case), difference(&small))
}

/// Plays the cases of a seed on all cores; tells the first that fails, however
/// many cores there are.
pub fn play(seed: u64, cases: u64, library: &Calls) -> (Option<u64>, Coverage) {
    let threads = thread::available_parallelism().map_or(1, NonZero::get) as u64;
    let end = AtomicU64::new(cases);
    let mut coverage = Coverage::new();
    thread::scope(|scope| {
        let end = &end;
        let start = |first| scope.spawn(move || play_some(seed, (first..).step_by(threads as usize), end, library));
        let started: Vec<_> = (0..threads).map(start).collect();
        for thread in started {
            coverage.join(&thread.join().expect("the reference does not fail"));
        }
    });
    let end = end.into_inner();
    ((end < cases).then_some(end), coverage)
}

/// Plays these cases up to the end, which is then the first that failed.
fn play_some(seed: u64, numbers: impl Iterator<Item = u64>, end: &AtomicU64, library: &Calls) -> Coverage {
    let mut coverage = Coverage::new();
    let trace = env::var_os("ADL_TRACE").is_some();
    for number in numbers {
        if number >= end.load(Ordering::Relaxed) {
            break;
        }
        let made = make(seed, number);
        if trace {
            eprintln!("{}", made.case);
        }
        if made.case.difference(library).is_some() {
            end.fetch_min(number, Ordering::Relaxed);
        }
        coverage.add(&made);
    }
    coverage
}

/// A case is the same after it was written and read.
#[test]
fn cases_are_read_as_they_were_written() {
    for number in 0..3_000 {
        let case = make(7, number).case;
        let line = case.to_string();
        assert!(!line.contains('\n'));
        assert_eq!(line.parse(), Ok(case), "case {number}");
    }
}

/// The same numbers give the same case, others another.
#[test]
fn cases_are_made_from_seed_and_number() {
    for number in 0..300 {
        let case = make(3, number).case;
        assert_eq!(make(3, number).case, case);
        assert_ne!(make(4, number).case, case);
        assert_ne!(make(3, number + 1).case, case);
    }
}
