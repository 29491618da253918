//! Links the archive of the proved library: from the folder PRIVETCOMB_LIB, or else from crates/privetcomb/out at the repository's root.

use std::env;
use std::path::PathBuf;

/// The variable that names the archive's folder.
const FOLDER: &str = "PRIVETCOMB_LIB";

fn main() {
    println!("cargo::rerun-if-env-changed={FOLDER}");
    let folder = env::var_os(FOLDER).map_or_else(
        || PathBuf::from(env!("CARGO_MANIFEST_DIR")).join("../../crates/privetcomb/out"),
        PathBuf::from,
    );
    let archive = folder.join("libprivetcomb.a");
    println!("cargo::rerun-if-changed={}", archive.display());
    // Made whole, since cargo links from a folder of its own choice.
    match archive.canonicalize() {
        Ok(archive) => {
            let folder = archive.parent().expect("a file stands in a folder");
            println!("cargo::rustc-link-search=native={}", folder.display());
            println!("cargo::rustc-link-lib=static=privetcomb");
            // For the build scripts of the crates that depend on this one.
            println!("cargo::metadata=archive={}", archive.display());
        }
        Err(error) => println!(
            "cargo::error=the proved library is missing: {}: {error}; make it with `rt lib --cpu=x86-64` in crates/privetcomb, or name its folder in {FOLDER}",
            archive.display()
        ),
    }
}
