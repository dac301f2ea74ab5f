//! Links the archive liblap.a from the folder that LAP_ARCHIVE_DIR names, if the feature `archive` is on, and an older
//! one, liblap_before.a from LAP_ARCHIVE_BEFORE_DIR, if `before` is on (host/bench.sh makes it).
//! Without the variables nothing is linked, so that `cargo check --features archive` works before the archive exists.
#![forbid(unsafe_code)]

use std::env;

fn main() {
    link("CARGO_FEATURE_ARCHIVE", "LAP_ARCHIVE_DIR", "lap");
    link("CARGO_FEATURE_BEFORE", "LAP_ARCHIVE_BEFORE_DIR", "lap_before");
}

/// The library of this name from the folder that the variable names, if the feature is on.
fn link(feature: &str, variable: &str, library: &str) {
    println!("cargo:rerun-if-env-changed={variable}");
    if env::var_os(feature).is_none() {
        return;
    }
    if let Ok(folder) = env::var(variable) {
        println!("cargo:rerun-if-changed={folder}/lib{library}.a");
        println!("cargo:rustc-link-search=native={folder}");
        println!("cargo:rustc-link-lib=static={library}");
    }
}
