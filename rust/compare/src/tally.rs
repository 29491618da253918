//! Counts the tests: a line for each, and the two numbers at the end.

use std::fmt::Display;
use std::process::ExitCode;

#[derive(Default)]
pub struct Tally {
    passed: usize,
    failed: usize,
}

impl Tally {
    /// One test, by its name or by what it found.
    pub fn expect(&mut self, name: impl Display, met: bool) {
        if met {
            println!("ok      {name}");
            self.passed += 1;
        } else {
            println!("FAILED  {name}");
            self.failed += 1;
        }
    }

    /// The last line, and the exit status that says the same.
    pub fn close(self) -> ExitCode {
        println!("{} passed, {} failed", self.passed, self.failed);
        ExitCode::from(u8::from(self.failed > 0))
    }
}
