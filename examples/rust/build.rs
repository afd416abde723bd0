//! Links the library's archive from the folder that `examples/run` names.

fn main() {
    println!("cargo:rerun-if-env-changed=LOTEND_ARCHIVE_DIR");
    let folder = std::env::var("LOTEND_ARCHIVE_DIR")
        .expect("LOTEND_ARCHIVE_DIR is not set: start this by examples/run");
    println!("cargo:rerun-if-changed={folder}/liblotend_c.a");
    println!("cargo:rustc-link-search=native={folder}");
    println!("cargo:rustc-link-lib=static=lotend_c");
}
