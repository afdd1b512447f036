//! The stored cases: tables of calls, and lists with the page they print.

use std::fs;
use std::path::{Path, PathBuf};

pub const TABLES: [&str; 8] = [
    "queries", "columns", "draws", "writes", "reads", "lists", "ceilings", "squeezes",
];

/// One row of a table: the call, and the answer right of the arrow.
pub struct Row {
    pub call: String,
    pub answer: String,
}

/// One list and what the print program writes for it.
pub struct ListCase {
    pub name: String,
    pub list: Vec<u8>,
    pub output: String,
}

fn folder() -> PathBuf {
    Path::new(env!("CARGO_MANIFEST_DIR")).join("cases")
}

fn read(path: &Path) -> String {
    fs::read_to_string(path).unwrap_or_else(|error| panic!("{}: {error}", path.display()))
}

pub fn rows(table: &str) -> Vec<Row> {
    let text = read(&folder().join(table).with_extension("txt"));
    text.lines()
        .map(|line| {
            let (call, answer) = line.split_once(" -> ").expect("a row has an arrow");
            Row {
                call: call.to_string(),
                answer: answer.trim().to_string(),
            }
        })
        .collect()
}

/// All list cases, by name.
pub fn list_cases() -> Vec<ListCase> {
    let entries = fs::read_dir(folder()).expect("the folder of cases is readable");
    let mut paths: Vec<PathBuf> = entries
        .map(|entry| entry.expect("the folder of cases is readable").path())
        .filter(|path| path.extension().is_some_and(|extension| extension == "hex"))
        .collect();
    paths.sort();
    paths.iter().map(|path| list_case(path)).collect()
}

fn list_case(path: &Path) -> ListCase {
    let text = read(path);
    let digits: String = text
        .lines()
        .map(|line| line.split('#').next().unwrap_or(""))
        .collect();
    ListCase {
        name: path.display().to_string(),
        list: parse_hex(&digits),
        output: read(&path.with_extension("out")),
    }
}

/// Bytes from hexadecimal digits; blanks do not count.
pub fn parse_hex(text: &str) -> Vec<u8> {
    let digit = |c: char| c.to_digit(16).expect("a hexadecimal digit") as u8;
    let digits: Vec<u8> = text
        .chars()
        .filter(|c| !c.is_whitespace())
        .map(digit)
        .collect();
    assert!(digits.len().is_multiple_of(2), "a byte has two digits");
    digits
        .chunks(2)
        .map(|pair| pair[0] * 16 + pair[1])
        .collect()
}

pub fn show_hex(bytes: &[u8]) -> String {
    bytes.iter().map(|byte| format!("{byte:02x}")).collect()
}
