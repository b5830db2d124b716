//! What needs no program: the reference on the runs that docs/COURSE.md shows, and
//! what the page says around them.

use reference::drawings::{accepted_text, Size};
use reference::generate::Random;
use reference::kit::number_from;
use reference::meaning::Diagram;
use reference::player::{label, played};
use std::collections::BTreeSet;
use std::fs;

pub const ROOT: &str = concat!(env!("CARGO_MANIFEST_DIR"), "/..");
/// How many random drawings are asked.
const CASES: usize = 600;

pub fn course() -> String {
    fs::read_to_string(format!("{ROOT}/docs/COURSE.md")).unwrap()
}

/// The page with the machines.
pub fn modellers() -> String {
    fs::read_to_string(format!("{ROOT}/docs/MODELLERS.md")).unwrap()
}

/// A `target/bin/PROGRAM < FILE` of a page, with the block after it.
pub struct Run<'c> {
    pub file: &'c str,
    pub shown: &'c str,
}

pub fn runs_in<'c>(part: &'c str, program: &str) -> Vec<Run<'c>> {
    let run = |part| {
        let (file, after) = str::split_once(part, '\n').expect("a line");
        Run { file, shown: block(after) }
    };
    part.split(&format!("    target/bin/{program} < ")).skip(1).map(run).collect()
}

/// The first block of a document's part, without its fences.
fn block(part: &str) -> &str {
    let after_fence = part.split_once("```\n").expect("a block").1;
    after_fence.split_once("```").expect("the block's end").0
}

/// The part of the course between two headings.
fn part<'c>(course: &'c str, heading: &str) -> &'c str {
    let after = course.split_once(&format!("\n{heading}\n")).unwrap_or_else(|| panic!("no {heading}")).1;
    let level = heading.split(' ').next().unwrap_or_default();
    after.split(&format!("\n{level} ")).next().unwrap_or_default()
}

#[test]
fn the_reference_prints_what_the_course_shows() {
    let course = course();
    let runs = runs_in(&course, "play");
    for Run { file, shown } in &runs {
        let input = fs::read(format!("{ROOT}/{file}")).unwrap();
        assert_eq!(String::from_utf8(played(&input)).unwrap(), *shown, "the course at {file}");
    }
    assert!(runs.len() >= 14, "only {} runs in the course", runs.len());
}

/// Where the course shows a run, the file it names is a drawing and events.
#[test]
fn every_run_of_the_course_is_shown() {
    let course = course();
    for entry in fs::read_dir(format!("{ROOT}/course")).unwrap() {
        let name = entry.unwrap().file_name().into_string().unwrap();
        assert!(course.contains(&format!("target/bin/play < course/{name}\n")), "{name} is not shown");
    }
}

/// Each exercise has an answer, which is played.
#[test]
fn every_exercise_is_answered_by_a_run() {
    let course = course();
    let exercises = part(&course, "## To try");
    let answers = part(&course, "## Answers");
    let count = (1..).take_while(|number| exercises.contains(&format!("\n{number}. "))).count();
    assert!(count >= 6, "only {count} exercises");
    for number in 1..=count {
        let answer = part(answers, &format!("### To {number}"));
        assert!(!runs_in(answer, "play").is_empty(), "no run answers exercise {number}");
    }
    assert_eq!(answers.matches("\n### To ").count(), count);
}

/// What the exercises and their answers say of the runs.
#[test]
fn the_exercises_come_out_as_told() {
    let course = course();
    let answers = part(&course, "## Answers");
    let told: [(usize, usize, &[&str]); 11] = [
        // `free` right after `take`; `fill` as often as one likes, its bit set
        (1, 0, &["take: done\nbits [0 take]\nnext [1 fill] [2 send] [3 drop]\nfree: refused 15 0\n"]),
        (1, 0, &[FILL, FILL]),
        // `log` last before `free`
        (2, 0, &["next [3 log] [4 free]\nlog: done\n", "\nfree: done\n", "\nfinished\n"]),
        // the bits after `take`, and after each of two rounds
        (3, 0, &["\nbits [0 take]\nnext [1 fill] [4 free] [5 discard]\n", RESET_ROUND, RESET_ROUND, "\nfree: done\n"]),
        // a solid `or`, and a dashed one
        (4, 0, &["refused 9 0\n"]),
        (4, 1, &["\nfree: done\n", "\ndiscard: done\n", "\nfinished\n"]),
        // a buffer freed twice while the other waits
        (5, 0, &["\nfree 0: done\n", "\nfree 0: refused 15 0\n", "\nsleep: refused 15 0\n", "\nfree 1: done\n"]),
        (5, 0, &["\nfree 1: done\n", "\nsleep: done\n", "\nfinished\n"]),
        // a loop at the end: one reset after a round, none after that; over after a run without it, and not halfway
        (6, 0, &["\nsend: done\n", "\nreset burst: done\n", "\nreset burst: refused 15 0\n"]),
        (6, 0, &["\nreset burst: refused 15 0\n", "\nsend: done\n", "\nfinished\n"]),
        (6, 1, &["\nreset burst: done\n", "\nload: done\n", "\nnot finished\n"]),
    ];
    for (exercise, run, lines) in told {
        let answer = part(answers, &format!("### To {exercise}"));
        let mut left = runs_in(answer, "play")[run].shown;
        for line in lines {
            // The next begins with the line end of this one, at the latest.
            let at = left.find(line).unwrap_or_else(|| panic!("exercise {exercise}: no {line:?} in {left}"));
            left = &left[at + line.len() - 1..];
        }
    }
}

const FILL: &str = "\nfill: done\nbits [0 take] [1 fill]\nnext [1 fill] [2 send] [3 drop]\n";
const RESET_ROUND: &str = "\nreset round: done\nbits [0 take] [3 reset round]\nnext [1 fill] [4 free]\n";

/// The program and the reference both take the first event that is called so:
/// neither would tell if two were. This asks the drawings themselves.
#[test]
fn no_two_events_are_called_the_same() {
    for seed in (number_from("ADL_SEED", 1)..).take(CASES) {
        let random = &mut Random::new(seed);
        let size = *random.pick(&[Size::Small(10), Size::Middle, Size::Deep, Size::Full]);
        let text = accepted_text(size, random);
        let diagram = Diagram::of(&text).expect("the drawing is accepted");
        let mut called: BTreeSet<String> = diagram.events.iter().map(label).collect();
        called.extend((0..diagram.events.len()).map(|number| number.to_string()));
        assert_eq!(called.len(), 2 * diagram.events.len(), "b\"{}\"", text.escape_ascii());
    }
}
