//! The records of document 01 (clauses, steps, gates), read from their bytes and written to them.

/// Whether variable v is set: bit v mod 8 of byte v div 8.
pub fn bit(half: &[u8], v: usize) -> bool {
    half[v / 8] >> (v % 8) & 1 == 1
}

/// A set of literals; both signs of one variable may be in it.
#[derive(Clone, Debug, PartialEq, Eq)]
pub struct Clause {
    pub positive: [bool; 256],
    pub negative: [bool; 256],
}

impl Clause {
    pub const EMPTY: Clause = Clause {
        positive: [false; 256],
        negative: [false; 256],
    };

    /// The clause that holds exactly these variables, by sign.
    pub fn of(positive: &[usize], negative: &[usize]) -> Clause {
        Clause {
            positive: std::array::from_fn(|v| positive.contains(&v)),
            negative: std::array::from_fn(|v| negative.contains(&v)),
        }
    }

    pub fn read(record: &[u8]) -> Clause {
        Clause {
            positive: std::array::from_fn(|v| bit(&record[..32], v)),
            negative: std::array::from_fn(|v| bit(&record[32..], v)),
        }
    }

    pub fn record(&self) -> [u8; 64] {
        let mut record = [0; 64];
        for v in 0..256 {
            record[v / 8] |= u8::from(self.positive[v]) << (v % 8);
            record[32 + v / 8] |= u8::from(self.negative[v]) << (v % 8);
        }
        record
    }

    pub fn is_empty(&self) -> bool {
        *self == Clause::EMPTY
    }

    /// Whether the variable occurs here, in either sign.
    pub fn names(&self, v: usize) -> bool {
        self.positive[v] || self.negative[v]
    }
}

/// The variables that occur in the clauses.
pub fn occurring(clauses: &[Clause]) -> Vec<usize> {
    (0..256)
        .filter(|&v| clauses.iter().any(|clause| clause.names(v)))
        .collect()
}

/// A number of two bytes, little endian.
fn number(bytes: &[u8]) -> usize {
    usize::from(bytes[0]) + 256 * usize::from(bytes[1])
}

#[derive(Clone, Copy, Debug, PartialEq, Eq)]
pub struct Step {
    pub left: usize,
    pub right: usize,
    pub pivot: usize,
    /// Bytes 5 to 7, zero in a right step.
    pub spare: [u8; 3],
}

impl Step {
    /// The step with zero in its spare bytes.
    pub fn of(left: usize, right: usize, pivot: usize) -> Step {
        Step {
            left,
            right,
            pivot,
            spare: [0; 3],
        }
    }

    pub fn read(record: &[u8]) -> Step {
        Step {
            left: number(&record[0..2]),
            right: number(&record[2..4]),
            pivot: usize::from(record[4]),
            spare: [record[5], record[6], record[7]],
        }
    }

    pub fn record(&self) -> [u8; 8] {
        let [l0, l1] = (self.left as u16).to_le_bytes();
        let [r0, r1] = (self.right as u16).to_le_bytes();
        let [s5, s6, s7] = self.spare;
        [l0, l1, r0, r1, self.pivot as u8, s5, s6, s7]
    }
}

#[derive(Clone, Copy, Debug, PartialEq, Eq)]
pub enum Kind {
    And,
    Or,
}

/// A gate; its inputs are references.
#[derive(Clone, Copy, Debug, PartialEq, Eq)]
pub struct Gate {
    pub kind: Kind,
    pub left: usize,
    pub right: usize,
}

impl Gate {
    /// The gate in this record, or none where byte 0 is no kind or a spare byte is not zero.
    pub fn read(record: &[u8]) -> Option<Gate> {
        let kind = match record[0] {
            1 => Kind::And,
            2 => Kind::Or,
            _ => return None,
        };
        if record[1] != 0 || record[6] != 0 || record[7] != 0 {
            return None;
        }
        Some(Gate {
            kind,
            left: number(&record[2..4]),
            right: number(&record[4..6]),
        })
    }

    pub fn record(&self) -> [u8; 8] {
        let kind = match self.kind {
            Kind::And => 1,
            Kind::Or => 2,
        };
        let [l0, l1] = (self.left as u16).to_le_bytes();
        let [r0, r1] = (self.right as u16).to_le_bytes();
        [kind, 0, l0, l1, r0, r1, 0, 0]
    }
}

/// The caller's own 64 bytes from 64r, or the empty part of the table.
pub fn record(table: &[u8], r: usize) -> &[u8] {
    // As whole numbers: in 128 bits no usize makes this wrap.
    if 64 * (r as u128 + 1) <= table.len() as u128 {
        &table[64 * r..64 * r + 64]
    } else {
        &table[..0]
    }
}
