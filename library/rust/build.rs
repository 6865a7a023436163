//! Finds the archive `libbatchplan_lib.a`: in the folder that the environment variable BATCHPLAN_LIB_DIR names, and
//! else in `target/staticlib` of the repository, where `./build library` puts it.
use std::env;
use std::path::PathBuf;

fn main() {
    println!("cargo:rerun-if-env-changed=BATCHPLAN_LIB_DIR");
    let folder = env::var_os("BATCHPLAN_LIB_DIR")
        .map_or_else(|| PathBuf::from("../../target/staticlib"), PathBuf::from);
    let archive = folder.join("libbatchplan_lib.a");
    let Ok(archive) = archive.canonicalize() else {
        panic!(
            "{} is not there: make it by `./build library`, or set BATCHPLAN_LIB_DIR to its folder, \
             which counts from library/rust where it is relative",
            archive.display()
        );
    };
    println!("cargo:rerun-if-changed={}", archive.display());
    println!(
        "cargo:rustc-link-search=native={}",
        archive.parent().expect("a file has a folder").display()
    );
    println!("cargo:rustc-link-lib=static=batchplan_lib");
}
