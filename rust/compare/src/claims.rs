//! The documents: every name that docs/CLAIMS.md gives in backticks is there, a path as a file and any other in a source.

use std::collections::HashSet;
use std::fs;
use std::path::Path;

use crate::repository::in_repository;
use crate::tally::Tally;

/// The folders whose files have the names.
const SOURCES: [&str; 5] = ["crates", "rust", "include", "examples", ".ci"];

pub fn run(tally: &mut Tally) {
    let mut words = HashSet::new();
    for folder in SOURCES {
        collect(&in_repository(folder), &mut words);
    }
    let claims = fs::read_to_string(in_repository("docs/CLAIMS.md")).unwrap_or_default();
    let names: Vec<&str> = claims.split('`').skip(1).step_by(2).collect();
    tally.expect(
        format!("docs/CLAIMS.md names {} things", names.len()),
        names.len() > 500,
    );
    let lost: Vec<&&str> = names.iter().filter(|name| !there(name, &words)).collect();
    tally.expect(
        format!("names of docs/CLAIMS.md that are nowhere: {lost:?}"),
        lost.is_empty(),
    );
}

/// A path is a file or a folder; a name of several words has each of them.
fn there(name: &str, words: &HashSet<String>) -> bool {
    if name.contains('/') {
        return in_repository(name).exists();
    }
    name.split_whitespace()
        .flat_map(|part| part.split("::"))
        .all(|part| words.contains(trimmed(part)))
}

/// The words of all files below a folder, and the files' own names with and without what follows the dot.
fn collect(folder: &Path, words: &mut HashSet<String>) {
    let Ok(entries) = fs::read_dir(folder) else {
        return;
    };
    for path in entries.flatten().map(|entry| entry.path()) {
        let name = path.file_name().unwrap_or_default().to_string_lossy();
        if name == "target" || name == "out" {
            continue;
        }
        let stem = path.file_stem().unwrap_or_default().to_string_lossy();
        words.extend([name.to_string(), stem.to_string()]);
        if path.is_dir() {
            collect(&path, words);
        } else if let Ok(text) = fs::read_to_string(&path) {
            let parts = text.split(|c: char| c.is_whitespace() || "(){}[],;".contains(c));
            words.extend(parts.map(|part| trimmed(part).to_string()));
            words.extend(
                text.split(|c: char| !(c.is_alphanumeric() || "_-′₁₂".contains(c)))
                    .map(str::to_string),
            );
        }
    }
}

/// A word without the punctuation around it.
fn trimmed(word: &str) -> &str {
    word.trim_matches(|c: char| "(){}[],;:.\"`&".contains(c))
}
