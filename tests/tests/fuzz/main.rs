//! Holds the proved library against the reference, on texts, runs, tables and
//! Event-B machines, when ADL_ARCHIVE=1 is set, see build.rs. Without it there is nothing to hold, and
//! the one test that is left fails.
//!
//! Every case is a value of `Case`; case k of a seed is made from the two
//! numbers alone. ADL_CASES says how many are played, ADL_SEED from which seed.
//! A failing case is made smaller and printed as one line. ADL_REPLAY with that
//! line, or with the path of a file that holds it, plays just that case. With
//! ADL_TRACE each case is printed before it is played: should the library ever
//! end the process, the case is among the last lines.

macro_rules! with_the_archives {
    ($(mod $name:ident;)*) => { $(#[cfg(adl_archive)] mod $name;)* };
}

with_the_archives! {
    mod calls;
    mod case;
    mod coverage;
    mod eventb;
    mod fixed;
    mod machines;
    mod make;
    mod model;
    mod playing;
    mod runs;
    mod shrink;
    mod tables;
    mod texts;
    mod thin;
    mod translation;
    mod watch;
}

#[cfg(not(adl_archive))]
#[test]
fn the_archives_are_linked() {
    panic!("ADL_ARCHIVE=1 is not set: there is no library to hold against the reference");
}
