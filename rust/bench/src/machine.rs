//! Where and when the figures are made: the date, the processor, its load, and how both sides are built.

use std::collections::BTreeSet;
use std::fmt::{Display, Formatter, Result as Written};
use std::process::Command;
use std::time::{SystemTime, UNIX_EPOCH};
use std::{fs, thread};

use crate::Outcome;

/// The level at which the yardstick was compiled.
pub const LEVEL: &str = env!("YARDSTICK_LEVEL");

/// How the yardstick of this process was built.
pub fn yardstick() -> String {
    let processor = match env!("YARDSTICK_PROCESSOR") {
        "" => "no target-cpu named".to_string(),
        processor => format!("target-cpu {processor}"),
    };
    format!(
        "{}, opt-level {LEVEL}, target {}, {processor}, target features {}",
        env!("YARDSTICK_COMPILER"),
        env!("YARDSTICK_TARGET"),
        env!("YARDSTICK_FEATURES").replace(',', " "),
    )
}

/// The archive of the library as it is linked here.
const ARCHIVE: &[u8] = include_bytes!(env!("PRIVETCOMB_ARCHIVE"));

/// How the library was built: what its toolchain says of it, and what its archive shows.
pub fn library() -> Outcome<String> {
    let path = env!("PRIVETCOMB_ARCHIVE");
    // The native build links what stands there now.
    let now = fs::read(path).map_err(|error| format!("the archive: {error}"))?;
    if now != ARCHIVE {
        return Err("the archive has changed since it was linked: build again".to_string());
    }
    Ok(format!(
        "libprivetcomb.a of {} bytes ({}), compiled ahead: `rattle build --help` says at -O3 by clang, for \
         Linux, and `rt lib --cpu=x86-64` for every x86-64 processor. {}",
        ARCHIVE.len(),
        logic(ARCHIVE),
        disassembled(path)?,
    ))
}

/// The mark that the toolchain leaves in the archive: the logic in which the code is proved.
fn logic(archive: &[u8]) -> String {
    const MARK: &[u8] = b"rattle logic=";
    let start = archive.windows(MARK.len()).position(|part| part == MARK);
    let Some(start) = start else {
        return "without the toolchain's mark".to_string();
    };
    let mark = archive[start..].iter().take_while(|byte| **byte != 0);
    // As many digits as the toolchain's version has.
    let shown = mark.take(MARK.len() + 16).copied().collect();
    String::from_utf8(shown).unwrap_or_default()
}

/// The vector instructions of the archive's code, which show for how new a processor it is.
fn disassembled(archive: &str) -> Outcome<String> {
    let output = Command::new("objdump")
        .args(["--disassemble", "--no-show-raw-insn", archive])
        .output()
        .map_err(|error| format!("objdump can't be started: {error}"))?;
    if !output.status.success() {
        return Err(format!("objdump failed: {}", output.status));
    }
    let code = String::from_utf8_lossy(&output.stdout);
    let (registers, instructions) = vectors(&code);
    Ok(format!(
        "The vector registers in its code, as objdump shows it: {registers}; the instructions on them: {instructions}."
    ))
}

/// The kinds of vector registers (of 16, 32 and 64 bytes) that the code names, and the
/// instructions that name one.
fn vectors(code: &str) -> (String, String) {
    let kinds = ["xmm", "ymm", "zmm"];
    let names = |line: &str, kind: &str| line.contains(&format!("%{kind}"));
    let found = |kind: &&str| code.lines().any(|line| names(line, kind));
    let instructions: BTreeSet<&str> = code
        .lines()
        .filter(|line| kinds.iter().any(|kind| names(line, kind)))
        .filter_map(|line| line.split('\t').nth(1)?.split_whitespace().next())
        .collect();
    let listed = |words: Vec<&str>| match words[..] {
        [] => "none".to_string(),
        _ => words.join(" "),
    };
    (
        listed(kinds.into_iter().filter(found).collect()),
        listed(instructions.into_iter().collect()),
    )
}

/// The processor as the system names it, and how many there are.
pub struct Processor {
    pub name: String,
    count: usize,
}

impl Processor {
    pub fn here() -> Outcome<Processor> {
        let about = fs::read_to_string("/proc/cpuinfo")
            .map_err(|error| format!("the processor's name: {error}"))?;
        let name = field(&about, "model name").ok_or("the processor has no name")?;
        let count = thread::available_parallelism()
            .map_err(|error| format!("the number of processors: {error}"))?;
        Ok(Processor {
            name: name.to_string(),
            count: count.get(),
        })
    }
}

impl Display for Processor {
    fn fmt(&self, f: &mut Formatter<'_>) -> Written {
        write!(f, "{}, {} of them", self.name, self.count)?;
        match env!("NATIVE_NAME") {
            "" => Ok(()),
            name => write!(f, "; rustc knows it as {name}"),
        }
    }
}

/// The first value of a name in lines of names and values.
fn field<'a>(text: &'a str, name: &str) -> Option<&'a str> {
    text.lines().find_map(|line| {
        let (key, value) = line.split_once(':')?;
        (key.trim() == name).then_some(value.trim())
    })
}

/// The load over 1, 5 and 15 minutes.
pub fn load() -> Outcome<String> {
    let load = fs::read_to_string("/proc/loadavg").map_err(|error| format!("the load: {error}"))?;
    let minutes: Vec<&str> = load.split(' ').take(3).collect();
    Ok(minutes.join(", "))
}

/// Today's date, UTC.
pub fn today() -> Outcome<String> {
    let since = SystemTime::now()
        .duration_since(UNIX_EPOCH)
        .map_err(|error| format!("the date: {error}"))?;
    Ok(date(since.as_secs() / 86_400))
}

/// The date so many days after 1970-01-01.
fn date(days: u64) -> String {
    let leap = |year: u64| {
        year.is_multiple_of(4) && (!year.is_multiple_of(100) || year.is_multiple_of(400))
    };
    let (mut year, mut days) = (1970, days);
    while days >= 365 + u64::from(leap(year)) {
        days -= 365 + u64::from(leap(year));
        year += 1;
    }
    let february = 28 + u64::from(leap(year));
    let lengths = [31, february, 31, 30, 31, 30, 31, 31, 30, 31, 30, 31];
    let mut month = 0;
    while days >= lengths[month] {
        days -= lengths[month];
        month += 1;
    }
    format!("{year}-{:02}-{:02}", month + 1, days + 1)
}

#[cfg(test)]
mod tests {
    use super::*;

    #[test]
    fn dates_of_days() {
        for (days, expected) in [
            (0, "1970-01-01"),
            (364, "1970-12-31"),
            (365, "1971-01-01"),
            (11_016, "2000-02-29"),
            (11_017, "2000-03-01"),
            (20_772, "2026-11-15"),
            (47_540, "2100-02-28"),
            (47_541, "2100-03-01"),
        ] {
            assert_eq!(date(days), expected);
        }
    }

    #[test]
    fn the_first_of_a_name_counts() {
        let text = "model\t: 143\nmodel name\t: One: two\nmodel name\t: Three\n";
        assert_eq!(field(text, "model name"), Some("One: two"));
        assert_eq!(field(text, "name"), None);
    }

    #[test]
    fn vector_instructions_are_those_on_vector_registers() {
        let code = "0000 <check>:\n   0:\tpush   %rbp\n   1:\tpor    %xmm1,%xmm0\n   5:\tvpor %ymm1,%ymm0,%ymm0\n   9:\tpor    %xmm3,%xmm0\n";
        let found = ("xmm ymm".to_string(), "por vpor".to_string());
        assert_eq!(vectors(code), found);
        let none = "none".to_string();
        assert_eq!(vectors("   0:\tret\n"), (none.clone(), none));
    }

    #[test]
    fn the_mark_ends_where_its_text_ends() {
        assert_eq!(logic(b"..rattle logic=0123\0abc"), "rattle logic=0123");
        assert_eq!(
            logic(b"rattle logic=0123456789abcdef0123"),
            "rattle logic=0123456789abcdef"
        );
        assert_eq!(logic(b"rattle"), "without the toolchain's mark");
    }
}
