//! The reference's listing, names and values: on the texts worked through, and
//! held against the events that the meaning of drawings has.

use crate::drawings::{accepted_text, Size};
use crate::generate::{damaged, edge_texts, random_text, Random};
use crate::listing::{events, listing, name, values, Event, LISTING_LIMIT};
use crate::meaning::{self, Diagram};
use crate::{plain_listing, read, worked};

/// A listing has at most so many bytes, document 01: two numbers of three
/// digits in the first line, and in each of 512 lines one of three digits, the
/// word reset, a name of 24 bytes and three values of two digits.
const LONGEST: usize = 22 + 512 * (3 + 6 + 25 + 9 + 1);

fn texts() -> impl Iterator<Item = Vec<u8>> {
    edge_texts().into_iter().chain((0..400).flat_map(|seed| {
        let random = &mut Random::new(seed);
        let size = *random.pick(&[Size::Small(8), Size::Middle, Size::Deep, Size::Full]);
        let text = accepted_text(size, random);
        [damaged(text.clone(), random), text, random_text(seed)]
    }))
}

#[test]
fn listings_worked_through() {
    for (text, wanted) in worked::listings() {
        let given = listing(&text);
        assert_eq!(String::from_utf8_lossy(&given), wanted, "b\"{}\"", text.escape_ascii());
    }
}

#[test]
fn names_and_values_worked_through() {
    for answer in worked::answers() {
        let shown = || format!("event {} of b\"{}\"", answer.event, answer.text.escape_ascii());
        assert_eq!(name(&answer.text, answer.event), answer.name, "{}", shown());
        assert_eq!(values(&answer.text, answer.event), answer.values, "{}", shown());
    }
}

/// What both tell of an event: its name, values and mark.
type Told<'t> = (&'t [u8], &'t [usize], bool);

fn listed<'t>(event: &'t Event, text: &'t [u8]) -> Told<'t> {
    (&text[event.name.clone()], &event.values.list, event.values.reset)
}

fn meant(event: &meaning::Event) -> Told<'_> {
    (event.name.as_bytes(), &event.values, event.reset)
}

#[test]
fn events_are_those_of_the_meaning() {
    let mut accepted = 0;
    for text in texts() {
        match (events(&text), Diagram::of(&text)) {
            (Ok(events), Ok(diagram)) => {
                let listed: Vec<Told> = events.iter().map(|event| listed(event, &text)).collect();
                let meant: Vec<Told> = diagram.events.iter().map(meant).collect();
                assert_eq!(listed, meant, "b\"{}\"", text.escape_ascii());
                accepted += 1;
            }
            (events, diagram) => assert_eq!(events.err(), diagram.err()),
        }
    }
    assert!(accepted > 800, "only {accepted} texts were accepted");
}

/// Each name is where a leaf or flow has it, and no event comes twice.
#[test]
fn events_are_counted_and_differ() {
    for text in texts() {
        let (Ok(summary), Ok(events)) = (read(&text), events(&text)) else {
            continue;
        };
        assert_eq!(events.len(), summary.events);
        let names: Vec<&str> = summary.nodes.iter().map(|node| node.name.as_str()).collect();
        let mut listed: Vec<Told> = events.iter().map(|event| listed(event, &text)).collect();
        assert!(listed.iter().all(|(name, ..)| names.iter().any(|node| node.as_bytes() == *name)));
        listed.sort_unstable();
        assert!(listed.windows(2).all(|pair| pair[0] != pair[1]), "b\"{}\"", text.escape_ascii());
    }
}

#[test]
fn no_listing_is_too_long_for_the_buffer() {
    assert!(LONGEST <= LISTING_LIMIT);
    for text in texts() {
        assert!(listing(&text).len() <= LONGEST, "b\"{}\"", text.escape_ascii());
    }
}

/// The baseline of the benchmark does the job that it is timed for.
#[test]
fn plain_listing_does_the_job() {
    for text in texts() {
        let mut out = vec![0x80; LISTING_LIMIT];
        let length = plain_listing::list(&text, &mut out);
        assert_eq!(out[..length], listing(&text), "b\"{}\"", text.escape_ascii());
        let last = events(&text).map_or(0, |events| events.len() as u64 - 1);
        for event in [0, last / 2, last, last + 1, u64::MAX] {
            assert_eq!(plain_listing::name(&text, event), &text[name(&text, event)]);
            assert_eq!(plain_listing::values(&text, event), values(&text, event));
        }
    }
}
