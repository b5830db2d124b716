//! docs/LANGUAGE.md: every block of the page is an example, and each is held
//! against the reference and against the product; the page's grammar is read and
//! asked which texts it derives. A block that cannot be read, and a number from 1
//! to 15 that has no example under its heading, fail too: the page cannot say
//! what is not so.
//!
//! The tests of `alone` need neither programs nor archives.

mod alone;
mod answers;
mod example;
mod grammar;
mod held;
mod page;
#[cfg(adl_archive)]
mod product;

/// As in the other tests: what has no product has failed.
#[cfg(not(adl_archive))]
#[test]
fn the_archives_are_linked() {
    panic!("ADL_ARCHIVE=1 is not set: there is no library to hold the page against");
}
