//! Links the proved library's archive and the benchmark's C engine, from the
//! folders that the scripts name.

use std::path::Path;

fn main() {
    link("LOTEND_ARCHIVE_DIR", "lotend_c");
    link("PLAIN_ARCHIVE_DIR", "plain");
}

fn link(variable: &str, name: &str) {
    println!("cargo:rerun-if-env-changed={variable}");
    let Ok(folder) = std::env::var(variable) else {
        panic!("{variable} is not set: start this by tests/differential/run or bench/run");
    };
    let archive = Path::new(&folder).join(format!("lib{name}.a"));
    println!("cargo:rerun-if-changed={}", archive.display());
    println!("cargo:rustc-link-search=native={folder}");
    // Not bundled: the archive goes to the linker as it is, whatever made its objects.
    println!("cargo:rustc-link-lib=static:-bundle={name}");
}
