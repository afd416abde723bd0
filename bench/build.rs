//! Links the portable C engine, which only the benchmark has, from the folder that
//! the scripts name.

use std::path::Path;

const VARIABLE: &str = "PORTABLE_ARCHIVE_DIR";

fn main() {
    println!("cargo:rerun-if-env-changed={VARIABLE}");
    let Ok(folder) = std::env::var(VARIABLE) else {
        panic!("{VARIABLE} is not set: start this by bench/run or bench/cachegrind");
    };
    let archive = Path::new(&folder).join("libportable.a");
    println!("cargo:rerun-if-changed={}", archive.display());
    println!("cargo:rustc-link-search=native={folder}");
    // Not bundled, as the other engines: the archive goes to the linker as it is.
    println!("cargo:rustc-link-lib=static:-bundle=portable");
}
