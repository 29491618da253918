//! A temporary folder, open to every user of the system, and removed in the end.

use std::fs::{self, Permissions};
use std::io::Result;
use std::os::unix::fs::PermissionsExt;
use std::path::{Path, PathBuf};
use std::{env, process};

pub struct Folder(PathBuf);

impl Folder {
    pub fn new(name: &str) -> Result<Folder> {
        let path = env::temp_dir().join(format!("privetcomb-{name}-{}", process::id()));
        fs::create_dir(&path)?;
        // Only now, since it removes the folder in the end and must not remove another's.
        let folder = Folder(path);
        set_mode(folder.path(), 0o755)?;
        Ok(folder)
    }

    pub fn path(&self) -> &Path {
        &self.0
    }
}

impl Drop for Folder {
    fn drop(&mut self) {
        // What can't be removed is left over; the tests have said what they found.
        let _ = fs::remove_dir_all(&self.0);
    }
}

pub fn set_mode(path: &Path, mode: u32) -> Result<()> {
    fs::set_permissions(path, Permissions::from_mode(mode))
}
