//! Links the static libraries, for the comparison and, through it, the benchmark. CHAFFMOOR_LIB names the folder that
//! they are in; without it, that is where `tests/libraries` leaves them. With the feature `stand_in` nothing is linked.

use std::env;
use std::path::{Path, PathBuf};

fn main() {
    if env::var_os("CARGO_FEATURE_STAND_IN").is_some() {
        return;
    }
    println!("cargo:rerun-if-env-changed=CHAFFMOOR_LIB");
    for library in ["chaffmoor", "bench_parts"] {
        link(library);
    }
}

fn link(library: &str) {
    let archive = folder().join(format!("lib{library}.a"));
    println!("cargo:rerun-if-changed={}", archive.display());
    let archive = archive
        .canonicalize()
        .unwrap_or_else(|error| panic!("{}: {error}; tests/libraries builds it", archive.display()));
    let folder = archive.parent().expect("an archive is in a folder");
    println!("cargo:rustc-link-search=native={}", folder.display());
    println!("cargo:rustc-link-lib=static={library}");
}

/// Every package is a folder of the repository.
fn folder() -> PathBuf {
    env::var_os("CHAFFMOOR_LIB").map_or_else(|| Path::new("../target/staticlib").to_path_buf(), PathBuf::from)
}
