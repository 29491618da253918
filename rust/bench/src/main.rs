//! What the proved library costs beside the tuned version, the yardstick, on the same tables: instructions, times, pages and stack.
//!
//! Prints markdown, and draws docs/cost.svg where it is asked to. Not part of the gate.

#![forbid(unsafe_code)]

mod calls;
mod cases;
mod chain;
mod copy;
mod costs;
mod figures;
mod instructions;
mod machine;
mod plot;
mod report;
mod runs;
mod shapes;
mod stack;
mod timing;

use std::path::Path;
use std::process::ExitCode;
use std::{env, fs};

use costs::Measured;
use instructions::Request;
use machine::Processor;
use runs::Runs;

/// A result, or what went wrong in words.
type Outcome<T> = Result<T, String>;

/// The arguments: of the whole benchmark, and of the processes it starts.
const PLOT: &str = "--plot";
const FIGURES: &str = "--figures";
const BUILD: &str = "--build";
const ONCE: &str = "--once";

fn main() -> ExitCode {
    let arguments: Vec<String> = env::args().skip(1).collect();
    let words: Vec<&str> = arguments.iter().map(String::as_str).collect();
    let outcome = match words[..] {
        [] => measure(false),
        [PLOT] => measure(true),
        // The figures of one run, for the process that has started it.
        [FIGURES] => {
            print!("{}", timing::figures());
            Ok(())
        }
        [BUILD] => {
            print!("{}", machine::yardstick());
            Ok(())
        }
        [ONCE, case, side] => match Request::read(case, side) {
            // One round of calls and nothing else: the process whose instructions are counted.
            Some(request) => {
                request.run();
                Ok(())
            }
            None => return usage(),
        },
        _ => return usage(),
    };
    match outcome {
        Ok(()) => ExitCode::SUCCESS,
        Err(why) => {
            eprintln!("bench: {why}");
            ExitCode::FAILURE
        }
    }
}

fn usage() -> ExitCode {
    eprintln!("usage: bench [{PLOT} | {FIGURES} | {BUILD} | {ONCE} CASE library|yardstick]");
    ExitCode::from(2)
}

/// The whole benchmark. Nothing is printed before all of it is there.
fn measure(plot: bool) -> Outcome<()> {
    // The native build is cargo's release too: at another level the two would not be comparable.
    if machine::LEVEL != "3" {
        let level = machine::LEVEL;
        return Err(format!(
            "built at opt-level {level}, not 3: run it with --release"
        ));
    }
    let (date, processor) = (machine::today()?, Processor::here()?);
    // First, since the load in it is that at the start.
    let preface = report::preface(&date, &processor)?;
    let measured = Measured {
        instructions: instructions::counts()?,
        runs: Runs::make()?,
    };
    print!("{preface}{}", report::sections(&measured)?);
    if plot {
        let path = Path::new(env!("CARGO_MANIFEST_DIR")).join("../../docs/cost.svg");
        let drawn = plot::svg(&measured.runs.default, &processor.name, &date);
        fs::write(path, drawn).map_err(|error| format!("docs/cost.svg: {error}"))?;
        println!("\nThe plot of time against size is docs/cost.svg.");
    }
    Ok(())
}
