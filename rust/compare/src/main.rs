//! Compares the proved library with the independent version: the listed cases, random tables, the laws, the tests themselves, and the names of
//! the claims.
//!
//! `compare [--seed N] [--count N]`; the count is that of the random tables, of the random evaluations and of the random records.

#![forbid(unsafe_code)]

mod claims;
mod example;
mod faults;
mod folder;
mod framed;
mod library;
mod listed_cases;
mod printing;
mod random_tables;
mod repository;
mod tally;

use std::env;
use std::process::ExitCode;

use independent::tables::Random;
use tally::Tally;

/// What is asked for.
struct Options {
    seed: u64,
    count: usize,
}

impl Options {
    fn read(mut arguments: impl Iterator<Item = String>) -> Result<Options, String> {
        let mut options = Options {
            seed: 1,
            count: 100_000,
        };
        while let Some(argument) = arguments.next() {
            let mut number = || {
                let value = arguments.next().and_then(|value| value.parse().ok());
                value.ok_or(format!("{argument} takes a number"))
            };
            match argument.as_str() {
                "--seed" => options.seed = number()?,
                "--count" => options.count = number()? as usize,
                _ => return Err(format!("{argument} is no argument")),
            }
        }
        Ok(options)
    }
}

fn main() -> ExitCode {
    let options = match Options::read(env::args().skip(1)) {
        Ok(options) => options,
        Err(why) => {
            eprintln!("{why}; usage: compare [--seed N] [--count N]");
            return ExitCode::from(2);
        }
    };
    println!("seed {}, count {}", options.seed, options.count);
    let mut tally = Tally::default();
    let mut random = Random::new(options.seed);

    listed_cases::run(&mut tally);
    random_tables::run(&mut tally, &mut random, options.count);
    faults::run(&mut tally, &mut random);
    example::run(&mut tally);
    claims::run(&mut tally);
    printing::run(&mut tally, &mut random);
    tally.close()
}
