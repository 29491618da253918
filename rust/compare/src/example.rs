//! The C side: the example compiled and run, and the header's names and numbers beside the wrapper's.

use std::fs;
use std::process::Command;

use independent::listed;
use privetcomb::Refusal;

use crate::folder::Folder;
use crate::repository::in_repository;
use crate::tally::Tally;

/// The archive that the wrapper links.
const ARCHIVE: &str = env!("PRIVETCOMB_ARCHIVE");

pub fn run(tally: &mut Tally) {
    match printed_by_example() {
        Ok(printed) => {
            let p1 = &listed::prints()[0].lines;
            let met = printed == format!("{p1}x1 = 0: value 0\nx1 = 1: value 1\n");
            tally.expect("the C example prints P1's circuit and its two values", met);
        }
        Err(why) => tally.expect(format!("the C example: {why}"), false),
    }

    let header = fs::read_to_string(in_repository("include/privetcomb.h")).unwrap_or_default();
    let refusals = Refusal::ALL.map(|refusal| (format!("{refusal:?}"), refusal.number()));
    let wrappers: Vec<(String, usize)> = [("Accepted".to_string(), 0)]
        .into_iter()
        .chain(refusals)
        .map(|(name, number)| (name.to_lowercase(), number))
        .collect();
    tally.expect(
        "the header has the wrapper's names and numbers",
        named(&header) == wrappers,
    );
}

/// The header's names and numbers; the names without underscores and in lower case, since C and Rust
/// write them differently.
fn named(header: &str) -> Vec<(String, usize)> {
    let read = |line: &str| {
        let (name, rest) = line.trim().strip_prefix("PRIVETCOMB_")?.split_once(" = ")?;
        let number = rest.split([',', ' ']).next()?.parse().ok()?;
        Some((name.replace('_', "").to_lowercase(), number))
    };
    header.lines().filter_map(read).collect()
}

/// Compiles the example against the archive and runs it; what it prints where both succeed.
fn printed_by_example() -> Result<String, String> {
    let folder = Folder::new("example").map_err(|error| format!("no folder: {error}"))?;
    let program = folder.path().join("check");
    let mut compile = Command::new("cc");
    compile
        .args(["-std=c11", "-Wall", "-Wextra", "-Werror", "-I"])
        .arg(in_repository("include"))
        .arg(in_repository("examples/c/check.c"))
        .arg(ARCHIVE)
        .arg("-o")
        .arg(&program);
    succeed(&mut compile)?;
    succeed(&mut Command::new(program))
}

/// What a command prints, or why it failed.
fn succeed(command: &mut Command) -> Result<String, String> {
    let output = command
        .output()
        .map_err(|error| format!("{command:?}: {error}"))?;
    if output.status.success() {
        return Ok(String::from_utf8_lossy(&output.stdout).into_owned());
    }
    let complaint = String::from_utf8_lossy(&output.stderr);
    Err(format!("{command:?}: {}: {complaint}", output.status))
}
