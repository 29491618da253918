//! Instructions of one call, counted by callgrind in a process of its own.

use std::process::Command;
use std::{env, thread};

use crate::calls::Side;
use crate::cases::Case;
use crate::figures::Figures;
use crate::{Outcome, ONCE};

/// One round of calls of one side.
pub struct Request {
    case: Case,
    side: Side,
}

impl Request {
    /// The request by the names of a case and of a side.
    pub fn read(case: &str, side: &str) -> Option<Request> {
        let mut sides = Side::COMPARED.into_iter();
        Some(Request {
            case: Case::named(case)?,
            side: sides.find(|of| of.to_string() == side)?,
        })
    }

    /// Makes the calls in a thread: its stack starts at a page, wherever the arguments and the
    /// environment leave that of the process, so that clearing an array there takes the same always.
    pub fn run(self) {
        let mut round = self.case.round();
        let calls = thread::spawn(move || round.make(self.side));
        calls.join().expect("the calls return");
    }
}

/// The instructions of a call for each case and each of the two sides.
pub fn counts() -> Outcome<Figures> {
    eprintln!("counting instructions");
    let mut counts = Figures::default();
    for case in Case::sections().concat() {
        for side in Side::COMPARED {
            let count = count(case, side)
                .map_err(|why| format!("the instructions of {case} of {side}: {why}"))?;
            counts.put(case, side, count);
        }
    }
    Ok(counts)
}

fn count(case: Case, side: Side) -> Outcome<f64> {
    let function = case.function();
    // In that process the round alone calls it: its tables are made by the plain version.
    let function = match side {
        Side::Library => format!("privetcomb_{function}"),
        Side::Yardstick => format!("independent::tuned::{function}*"),
        Side::Copy => return Err("the plain copy is not counted".to_string()),
    };
    let program = env::current_exe().map_err(|error| error.to_string())?;
    let output = Command::new("valgrind")
        .args(["--tool=callgrind", "--callgrind-out-file=/dev/null"])
        .arg(format!("--toggle-collect={function}"))
        .arg(program)
        .args([ONCE, &case.to_string(), &side.to_string()])
        .output()
        .map_err(|error| format!("valgrind can't be started: {error}"))?;
    let report = String::from_utf8_lossy(&output.stderr);
    if !output.status.success() {
        return Err(format!("callgrind failed: {}\n{report}", output.status));
    }
    Ok(collected(&report)? / case.round().calls() as f64)
}

/// The count in a report of callgrind, which must be there and above zero.
fn collected(report: &str) -> Outcome<f64> {
    let count: u64 = report
        .split_once("Collected : ")
        .and_then(|(_, count)| count.split_whitespace().next()?.parse().ok())
        .ok_or(format!("callgrind gave no count:\n{report}"))?;
    if count == 0 {
        return Err("callgrind counted none: the function has not been met".to_string());
    }
    Ok(count as f64)
}

#[cfg(test)]
mod tests {
    use super::collected;

    #[test]
    fn a_count_is_there_and_above_zero() {
        let report = "==7== Events    : Ir\n==7== Collected : 6366\n==7== \n";
        assert_eq!(collected(report), Ok(6366.0));
        assert!(collected("==7== Events    : Ir\n").is_err());
        assert!(collected("==7== Collected : \n").is_err());
        assert!(collected("==7== Collected : 0\n").is_err());
    }
}
