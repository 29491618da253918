//! Names the archive that the wrapper links, so that the C example is linked with the same one.

use std::env;

fn main() {
    let archive = env::var("DEP_PRIVETCOMB_ARCHIVE").expect("the wrapper's build names it");
    println!("cargo::rustc-env=PRIVETCOMB_ARCHIVE={archive}");
    println!("cargo::rerun-if-changed=build.rs");
}
