//! The printing program on files: the listed runs, files that can't be read, and random tables.
//!
//! The program is the file PRIVETCOMB_PRINT names, or else crates/print/out/print at the repository's root.

use std::fs;
use std::io::Result;
use std::os::unix::fs::MetadataExt;
use std::os::unix::process::CommandExt;
use std::path::PathBuf;
use std::process::Command;
use std::{array, env};

use independent::tables::{tables, Random};
use independent::{listed, print};

use crate::folder::{set_mode, Folder};
use crate::repository::in_repository;
use crate::tally::Tally;

/// The files read, in their order.
const NAMES: [&str; 3] = ["a.rec", "b.rec", "steps.rec"];

/// A user without rights.
const NOBODY: u32 = 65_534;

/// How many random tables are printed.
const PRINTED: usize = 300;

/// What stands under a file's name.
#[derive(Clone, Copy)]
enum File<'a> {
    Bytes(&'a [u8]),
    Missing,
    Folder,
    /// A file no one may read.
    Closed(&'a [u8]),
}

/// Whoever runs the program.
#[derive(Clone, Copy, PartialEq)]
enum User {
    Same,
    /// A file's mode doesn't bind root, so where the tests run as root the program doesn't.
    Unprivileged,
}

/// The program's copy, in a folder that every user can reach.
struct Program {
    folder: Folder,
    copy: PathBuf,
}

impl Program {
    fn new() -> Result<Program> {
        let path = env::var_os("PRIVETCOMB_PRINT")
            .map_or_else(|| in_repository("crates/print/out/print"), PathBuf::from);
        let folder = Folder::new("printing")?;
        let copy = folder.path().join("print");
        fs::copy(&path, &copy).map_err(|error| {
            let why = format!("{} is needed: {error}", path.display());
            std::io::Error::new(error.kind(), why)
        })?;
        set_mode(&copy, 0o755)?;
        Ok(Program { folder, copy })
    }

    /// What the program prints in a folder with these three files.
    fn prints(&self, files: [File; 3], user: User) -> Result<Vec<u8>> {
        let here = self.folder.path().join("here");
        fs::create_dir(&here)?;
        set_mode(&here, 0o755)?;
        for (name, file) in NAMES.into_iter().zip(files) {
            let path = here.join(name);
            match file {
                File::Missing => {}
                File::Folder => fs::create_dir(path)?,
                File::Bytes(bytes) => {
                    fs::write(&path, bytes)?;
                    set_mode(&path, 0o644)?;
                }
                File::Closed(bytes) => {
                    fs::write(&path, bytes)?;
                    set_mode(&path, 0)?;
                }
            }
        }
        let mut command = Command::new(&self.copy);
        command.current_dir(&here);
        if user == User::Unprivileged && fs::metadata("/proc/self")?.uid() == 0 {
            command.uid(NOBODY).gid(NOBODY);
        }
        let output = command.output()?;
        fs::remove_dir_all(here)?;
        if !output.status.success() {
            // Lines of a program that fails or is stopped are not its answer.
            return Err(std::io::Error::other(format!(
                "it ended with {}",
                output.status
            )));
        }
        Ok(output.stdout)
    }

    /// Whether it prints these lines; what else happens is printed here.
    fn agrees(&self, files: [File; 3], user: User, lines: &str) -> bool {
        match self.prints(files, user) {
            Ok(printed) if printed == lines.as_bytes() => true,
            Ok(printed) => {
                let printed = String::from_utf8_lossy(&printed);
                println!("expected {lines:?}, printed {printed:?}");
                false
            }
            Err(error) => {
                println!("expected {lines:?}, but: {error}");
                false
            }
        }
    }
}

pub fn run(tally: &mut Tally, random: &mut Random) {
    let program = match Program::new() {
        Ok(program) => program,
        Err(error) => {
            tally.expect(format!("the printing program is there: {error}"), false);
            return;
        }
    };

    let cases = listed::prints();
    for case in &cases {
        let files = case
            .files()
            .map(|file| file.map_or(File::Missing, File::Bytes));
        let met = program.agrees(files, User::Same, &case.lines);
        tally.expect(format!("print: {}", case.name), met);
    }

    let p1 = &cases[0];
    let bytes = p1.files().map(Option::unwrap_or_default);
    // Shows that it is the mode of a file that the closed files below are about.
    let met = program.agrees(bytes.map(File::Bytes), User::Unprivileged, &p1.lines);
    tally.expect("print: P1 as an unprivileged user", met);
    for (i, name) in NAMES.into_iter().enumerate() {
        let with = |file| array::from_fn(|j| if j == i { file } else { File::Bytes(bytes[j]) });
        let lines = format!("30 {} 0 0\n", i + 1);
        let met = program.agrees(with(File::Folder), User::Same, &lines);
        tally.expect(format!("print: a folder as {name}"), met);
        let closed = with(File::Closed(bytes[i]));
        let met = program.agrees(closed, User::Unprivileged, &lines);
        tally.expect(format!("print: no permission to read {name}"), met);
    }

    let mut differ = 0;
    for _ in 0..PRINTED {
        let tables = tables(random);
        let files = [&tables.a[..], &tables.b, &tables.steps];
        let lines = print(files.map(Some));
        differ += usize::from(!program.agrees(files.map(File::Bytes), User::Same, &lines));
    }
    let name = format!("print: {PRINTED} random tables compared: {differ} differ");
    tally.expect(name, differ == 0);
}
