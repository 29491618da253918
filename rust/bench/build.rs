//! Records how the yardstick is built, and which archive is linked, for the benchmark to say.

use std::env;
use std::process::Command;

/// What cargo tells its build scripts.
fn told(name: &str) -> String {
    env::var(name).unwrap_or_default()
}

/// What the compiler that builds this crate prints.
fn compiler_says(arguments: &[&str]) -> String {
    let output = Command::new(told("RUSTC"))
        .args(arguments)
        .output()
        .expect("the compiler runs");
    String::from_utf8(output.stdout).expect("the compiler prints text")
}

/// The name that the compiler has for this machine's processor, as it says it in its list of them.
fn native_name() -> Option<String> {
    let list = compiler_says(&["--print", "target-cpus"]);
    let (_, name) = list.split_once("currently ")?;
    let (name, _) = name.split_once(')')?;
    Some(name.to_string())
}

/// The processor that the flags name, if they name one; the last flag counts.
fn processor() -> Option<String> {
    // The separator stands in no flag.
    told("CARGO_ENCODED_RUSTFLAGS")
        .rsplit('\u{1f}')
        .find_map(|flag| Some(flag.split_once("target-cpu=")?.1.to_string()))
}

fn main() {
    println!("cargo::rerun-if-changed=build.rs");
    let record = |name: &str, value: &str| println!("cargo::rustc-env={name}={value}");
    record("YARDSTICK_COMPILER", compiler_says(&["-V"]).trim());
    record("YARDSTICK_LEVEL", &told("OPT_LEVEL"));
    record("YARDSTICK_TARGET", &told("TARGET"));
    record("YARDSTICK_FEATURES", &told("CARGO_CFG_TARGET_FEATURE"));
    record("YARDSTICK_PROCESSOR", &processor().unwrap_or_default());
    record("NATIVE_NAME", &native_name().unwrap_or_default());
    let archive = env::var("DEP_PRIVETCOMB_ARCHIVE").expect("the wrapper's build names it");
    record("PRIVETCOMB_ARCHIVE", &archive);
}
