//! Document 01's refusals, each with its number, a name and a sentence.

use std::error::Error;
use std::fmt::{Display, Formatter, Result as Formatted};

/// Why a call was refused.
#[derive(Clone, Copy, Debug, PartialEq, Eq)]
pub enum Refusal {
    LengthOfA = 1,
    LengthOfB = 2,
    LengthOfSteps = 3,
    TooManyClauses = 4,
    WorkTooShort = 5,
    GatesTooShort = 6,
    SpareByteOfStep = 7,
    AntecedentNotEarlier = 8,
    LeftLacksPivot = 9,
    RightLacksPivot = 10,
    NoEmptyClause = 11,
    LengthOfAssignment = 20,
    LengthOfGates = 21,
    FormOfGate = 22,
    InputNotEarlier = 23,
    RootNotThere = 24,
}

impl Refusal {
    /// Every refusal, in the order of the numbers.
    pub const ALL: [Refusal; 16] = [
        Refusal::LengthOfA,
        Refusal::LengthOfB,
        Refusal::LengthOfSteps,
        Refusal::TooManyClauses,
        Refusal::WorkTooShort,
        Refusal::GatesTooShort,
        Refusal::SpareByteOfStep,
        Refusal::AntecedentNotEarlier,
        Refusal::LeftLacksPivot,
        Refusal::RightLacksPivot,
        Refusal::NoEmptyClause,
        Refusal::LengthOfAssignment,
        Refusal::LengthOfGates,
        Refusal::FormOfGate,
        Refusal::InputNotEarlier,
        Refusal::RootNotThere,
    ];

    /// Document 01's number.
    pub fn number(self) -> usize {
        self as usize
    }
}

impl Display for Refusal {
    fn fmt(&self, f: &mut Formatter<'_>) -> Formatted {
        f.write_str(match self {
            Refusal::LengthOfA => "table A's length is not a multiple of 64",
            Refusal::LengthOfB => "table B's length is not a multiple of 64",
            Refusal::LengthOfSteps => "the step table's length is not a multiple of 8",
            Refusal::TooManyClauses => {
                "A's clauses, B's clauses and the steps are more than 1,024 together"
            }
            Refusal::WorkTooShort => "the work table is shorter than 64 bytes a step",
            Refusal::GatesTooShort => "the gate table is shorter than 24 bytes a step",
            Refusal::SpareByteOfStep => "byte 5, 6 or 7 of the step is not zero",
            Refusal::AntecedentNotEarlier => {
                "an antecedent is not below the step's own clause number"
            }
            Refusal::LeftLacksPivot => "the left antecedent lacks the positive pivot",
            Refusal::RightLacksPivot => "the right antecedent lacks the negative pivot",
            Refusal::NoEmptyClause => "no clause is empty",
            Refusal::LengthOfAssignment => "the assignment is not of 32 bytes",
            Refusal::LengthOfGates => {
                "the gate table's length is not a multiple of 8, or is above 24,576"
            }
            Refusal::FormOfGate => {
                "byte 0 of the gate is not 1 or 2, or its byte 1, 6 or 7 is not zero"
            }
            Refusal::InputNotEarlier => {
                "an input of the gate is not below the gate's own reference"
            }
            Refusal::RootNotThere => "the root reference is not below 514 + the number of gates",
        })
    }
}

/// A refusal, and the step or the gate it names.
#[derive(Clone, Copy, Debug, PartialEq, Eq)]
pub struct Refused {
    pub reason: Refusal,
    /// The step (7 to 10) or the gate (22, 23), else 0.
    pub place: usize,
}

impl Refused {
    /// The refusal of this number, where it is one; 0 is acceptance.
    pub(crate) fn unless_accepted(number: usize, place: usize) -> Result<(), Refused> {
        if number == 0 {
            return Ok(());
        }
        let reason = Refusal::ALL
            .into_iter()
            .find(|reason| reason.number() == number)
            .expect("the library answers with document 01's numbers only");
        Err(Refused { reason, place })
    }
}

impl Display for Refused {
    fn fmt(&self, f: &mut Formatter<'_>) -> Formatted {
        write!(f, "refused ({}): {}", self.reason.number(), self.reason)?;
        match self.reason {
            Refusal::SpareByteOfStep
            | Refusal::AntecedentNotEarlier
            | Refusal::LeftLacksPivot
            | Refusal::RightLacksPivot => write!(f, " (step {})", self.place),
            Refusal::FormOfGate | Refusal::InputNotEarlier => write!(f, " (gate {})", self.place),
            _ => Ok(()),
        }
    }
}

impl Error for Refused {}

#[cfg(test)]
mod tests {
    use super::{Refusal, Refused};

    #[test]
    fn texts() {
        for (reason, place, text) in [
            (
                Refusal::LengthOfA,
                0,
                "refused (1): table A's length is not a multiple of 64",
            ),
            (
                Refusal::LeftLacksPivot,
                4,
                "refused (9): the left antecedent lacks the positive pivot (step 4)",
            ),
            (
                Refusal::InputNotEarlier,
                7,
                "refused (23): an input of the gate is not below the gate's own reference (gate 7)",
            ),
        ] {
            assert_eq!(Refused { reason, place }.to_string(), text);
        }
    }
}
