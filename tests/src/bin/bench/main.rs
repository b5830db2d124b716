//! Times the proved library, Rust and plain C in one process: on the same input
//! they take turns, round after round, and the best round of each counts. First
//! one table of ratios, then how each call's time grows. Built with ADL_ARCHIVE=1
//! only; ./bench in the directory above runs it.

#[cfg(adl_archive)]
mod growth;
#[cfg(adl_archive)]
mod input;
#[cfg(adl_archive)]
mod race;
#[cfg(adl_archive)]
mod ratios;

#[cfg(not(adl_archive))]
fn main() {
    eprintln!("built without the archive: build again with ADL_ARCHIVE=1 set");
    std::process::exit(2);
}

#[cfg(adl_archive)]
fn main() {
    let arguments: Vec<String> = std::env::args().skip(1).collect();
    let quick = match arguments.iter().map(String::as_str).collect::<Vec<_>>()[..] {
        [] => false,
        ["--quick"] => true,
        _ => {
            eprintln!("usage: bench [--quick]");
            std::process::exit(2);
        }
    };
    if cfg!(debug_assertions) {
        eprintln!("note: built without --release, Rust is slower than it need be");
    }
    ratios::show(if quick { race::QUICK } else { race::RATIOS });
    growth::show(if quick { race::QUICK } else { race::GROWTH });
}
