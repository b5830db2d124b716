//! Holds the programs against the reference. Their paths are in the environment
//! variables ADL_LISTING, ADL_TRANSLATE, ADL_PLAY and ADL_EVENTB; without one the
//! tests of its program fail. ADL_SEED: the seed of the first random drawing.
//!
//! A relative path is looked up from the directory of this package. The tests of
//! `alone` need no program; those of `language`, which hold docs/LANGUAGE.md
//! against the product, need the archives too, see build.rs.

mod alone;
mod eventb;
mod language;
mod listing;
mod playing;
mod running;
mod translating;
