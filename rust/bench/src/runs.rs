//! The runs: each in a process of its own, since where code and tables lie differs from process to process.

use std::env;
use std::ffi::OsString;
use std::path::Path;
use std::process::{Command, Stdio};

use crate::figures::Figures;
use crate::{Outcome, BUILD, FIGURES};

/// How many runs there are; odd, so that one of them is the median.
pub const RUNS: usize = 5;

/// The flag of the yardstick that is built for this very processor.
const NATIVE: &str = "-C target-cpu=native";

/// The figures of all runs.
pub struct Runs {
    pub default: Vec<Figures>,
    /// Those of the build for this very processor, in which the library is the same.
    pub native: Vec<Figures>,
}

impl Runs {
    /// Makes them, those of both builds by turns.
    pub fn make() -> Outcome<Runs> {
        let mut runs = Runs {
            default: vec![],
            native: vec![],
        };
        for run in 1..=RUNS {
            eprintln!("run {run} of {RUNS}");
            let default = printed("a run", &mut this(FIGURES)?)?;
            runs.default.push(read(&default)?);
            let native = printed("a run of the native build", &mut native(FIGURES)?)?;
            runs.native.push(read(&native)?);
        }
        Ok(runs)
    }
}

fn read(text: &str) -> Outcome<Figures> {
    Figures::read(text).map_err(|why| format!("what a run printed can't be read: {why}"))
}

/// How the native build was made, as it says itself. The first that asks for it has it built.
pub fn native_build() -> Outcome<String> {
    eprintln!("building for this very processor");
    printed("the native build", &mut native(BUILD)?)
}

/// This program again.
fn this(argument: &str) -> Outcome<Command> {
    let program = env::current_exe().map_err(|error| format!("where am I? {error}"))?;
    let mut command = Command::new(program);
    command.arg(argument);
    Ok(command)
}

/// This program built for this very processor, with the same archive, in a target folder of its own.
fn native(argument: &str) -> Outcome<Command> {
    let archive = Path::new(env!("PRIVETCOMB_ARCHIVE"));
    let folder = archive.parent().ok_or("the archive stands in no folder")?;
    let workspace = Path::new(env!("CARGO_MANIFEST_DIR")).join("..");
    let cargo = env::var_os("CARGO").unwrap_or(OsString::from("cargo"));
    let mut command = Command::new(cargo);
    command
        .args(["run", "--release", "--quiet", "--package", "bench"])
        .arg("--manifest-path")
        .arg(workspace.join("Cargo.toml"))
        .arg("--target-dir")
        .arg(workspace.join("target/native"))
        .args(["--", argument])
        .env("PRIVETCOMB_LIB", folder)
        .env("RUSTFLAGS", NATIVE)
        // It would go before the other.
        .env_remove("CARGO_ENCODED_RUSTFLAGS");
    Ok(command)
}

/// What the command prints; what it says of its faults goes where ours goes.
fn printed(what: &str, command: &mut Command) -> Outcome<String> {
    let output = command
        .stderr(Stdio::inherit())
        .output()
        .map_err(|error| format!("{what} can't be started: {error}"))?;
    if !output.status.success() {
        return Err(format!("{what} failed: {}", output.status));
    }
    String::from_utf8(output.stdout).map_err(|_| format!("{what} printed no text"))
}
