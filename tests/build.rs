//! Links the archives of the proved library, and plain C, but only when
//! ADL_ARCHIVE=1 is set. Without it the reference and its own tests build alone.

use std::env;
use std::path::{Path, PathBuf};
use std::process::{exit, Command};

fn main() {
    println!("cargo:rustc-check-cfg=cfg(adl_archive)");
    println!("cargo:rerun-if-changed=build.rs");
    println!("cargo:rerun-if-env-changed=ADL_ARCHIVE");
    println!("cargo:rerun-if-env-changed=ADL_ARCHIVE_DIR");
    if env::var("ADL_ARCHIVE").as_deref() == Ok("1") {
        link_archives();
        link_plain_c();
    }
}

/// The harness has reading, printing and translation, the firmware the C calls.
fn link_archives() {
    let directory = archive_directory();
    println!("cargo:rustc-cfg=adl_archive");
    println!("cargo:rustc-link-search=native={}", directory.display());
    for name in ["harness", "firmware"] {
        let archive = directory.join(format!("lib{name}.a"));
        rerun_if_changed(&archive);
        if !archive.is_file() {
            eprintln!(
                "ADL_ARCHIVE=1 is set, but there is no archive at {}.\n\
                 Make it with `bash .ci/made {name}` in the directory above this package.",
                archive.display()
            );
            exit(1);
        }
        println!("cargo:rustc-link-lib=static={name}");
    }
}

/// ../target/staticlib, unless ADL_ARCHIVE_DIR names another directory.
fn archive_directory() -> PathBuf {
    match env::var_os("ADL_ARCHIVE_DIR") {
        Some(directory) => PathBuf::from(directory),
        None => path_from("CARGO_MANIFEST_DIR").join("../target/staticlib"),
    }
}

/// A path that cargo tells.
fn path_from(variable: &str) -> PathBuf {
    PathBuf::from(env::var_os(variable).unwrap_or_else(|| panic!("cargo sets {variable}")))
}

/// Plain C as the benchmark times it: gcc at -O3, for any machine of this kind,
/// as the archives and this package are.
fn link_plain_c() {
    let sources = path_from("CARGO_MANIFEST_DIR").join("c");
    let out = path_from("OUT_DIR");
    let archive = out.join("libplain.a");
    // Members of an earlier build stay in an archive that is there.
    let _ = std::fs::remove_file(&archive);
    let objects = ["plain", "plain_read", "plain_listing", "plain_translate"].map(|name| {
        let object = out.join(name).with_extension("o");
        run(Command::new("gcc")
            .args(["-std=c11", "-Wall", "-Wextra", "-Werror", "-pedantic", "-O3", "-fPIE", "-c", "-o"])
            .args([&object, &sources.join(name).with_extension("c")]));
        object
    });
    run(Command::new("ar").arg("crs").arg(&archive).args(objects));
    rerun_if_changed(&sources);
    println!("cargo:rustc-link-search=native={}", out.display());
    println!("cargo:rustc-link-lib=static=plain");
}

fn rerun_if_changed(path: &Path) {
    println!("cargo:rerun-if-changed={}", path.display());
}

fn run(command: &mut Command) {
    let ended_well = command.status().is_ok_and(|status| status.success());
    if !ended_well {
        eprintln!("this failed: {command:?}");
        exit(1);
    }
}
