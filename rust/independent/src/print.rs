//! The printing program's output, from each file's bytes or none where it can't be read.

use crate::check::check;
use crate::records::{Gate, Kind};

/// The most bytes read from a.rec, b.rec and steps.rec.
const MOST: [usize; 3] = [16_384, 16_384, 2_048];

/// What the printing program prints, from a.rec, b.rec and steps.rec.
pub fn print(files: [Option<&[u8]>; 3]) -> String {
    let mut read = [&[][..]; 3];
    for (i, file) in files.into_iter().enumerate() {
        match file {
            Some(bytes) if bytes.len() <= MOST[i] => read[i] = bytes,
            _ => return format!("30 {} 0 0\n", i + 1),
        }
    }
    let [a, b, steps] = read;

    // Room for the most steps a file can hold.
    let most_steps = MOST[2] / 8;
    let mut work = vec![0; 64 * most_steps];
    let mut gates = vec![0; 24 * most_steps];
    let answer = check(a, b, steps, &mut work, &mut gates);

    let mut lines = format!(
        "{} {} {} {}\n",
        answer.number, answer.place, answer.root, answer.count
    );
    for (k, record) in gates.chunks(8).take(answer.count).enumerate() {
        let gate = Gate::read(record).expect("the check writes gates only");
        let kind = match gate.kind {
            Kind::And => "and",
            Kind::Or => "or",
        };
        lines += &format!("{} {kind} {} {}\n", 514 + k, gate.left, gate.right);
    }
    lines
}
