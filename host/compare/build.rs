//! Links the library, and for the feature `pace` the book's loops: for each the archive that its variable names, else the
//! one that make leaves. What is proved is x86-64 code, and elsewhere it is not linked (src/far.rs). What is timed is always
//! linked.

use std::path::PathBuf;

fn main() {
    let timed = std::env::var_os("CARGO_FEATURE_PACE").is_some();
    if timed || std::env::var("CARGO_CFG_TARGET_ARCH").as_deref() == Ok("x86_64") {
        link("HALIMPUNG_LIB", "../../target/staticlib/libgateway.a");
    }
    if timed {
        link("HALIMPUNG_PACE_LIB", "../../target/staticlib/libbench_book.a");
    }
}

fn link(variable: &str, usual: &str) {
    let path = archive(variable, usual);
    let stem = path.file_stem().and_then(|stem| stem.to_str()).expect("a file name");
    let name = stem.strip_prefix("lib").expect("an archive is named lib*.a");
    println!("cargo:rerun-if-env-changed={variable}");
    println!("cargo:rerun-if-changed={}", path.display());
    println!("cargo:rustc-link-search=native={}", path.parent().expect("a folder").display());
    println!("cargo:rustc-link-lib=static={name}");
}

fn archive(variable: &str, usual: &str) -> PathBuf {
    let path = PathBuf::from(std::env::var_os(variable).unwrap_or_else(|| usual.into()));
    path.canonicalize().unwrap_or_else(|error| panic!("{}: {error} (make lib, make bench)", path.display()))
}
