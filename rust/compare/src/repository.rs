//! Where the repository is that the comparison was built in.

use std::path::{Path, PathBuf};

/// A path from the repository's root.
pub fn in_repository(path: &str) -> PathBuf {
    Path::new(env!("CARGO_MANIFEST_DIR"))
        .join("../..")
        .join(path)
}
