//! `list make [TEXT] > LIST`, `list dump [LIST]` and `list squeeze [LIST] > SQUEEZED`.
//! Exit status: 0 done, 1 a wrong line or a refused list, 2 anything else.

use list::{dump, make, refusal_words, squeeze};
use std::io::{self, Read, Write};
use std::process::ExitCode;
use std::{env, fs};

const USAGE: &str = "\
list make [TEXT] > LIST         turns a text (of standard input, or this file) into a drawing list
list dump [LIST]                prints a drawing list as text, each record with its place, and last
                                the ceiling of its touches, or its refusal
list squeeze [LIST] > SQUEEZED  leaves out the settings of a drawing list that change nothing";

const WRONG: u8 = 1;
const FAILED: u8 = 2;

fn main() -> ExitCode {
    let words: Vec<String> = env::args().skip(1).collect();
    let words: Vec<&str> = words.iter().map(String::as_str).collect();
    let outcome = match words[..] {
        ["make"] => read(None).and_then(|text| make_list(&text)),
        ["make", file] => read(Some(file)).and_then(|text| make_list(&text)),
        ["dump"] => read(None).and_then(|list| dump_list(&list)),
        ["dump", file] => read(Some(file)).and_then(|list| dump_list(&list)),
        ["squeeze"] => read(None).and_then(|list| squeeze_list(&list)),
        ["squeeze", file] => read(Some(file)).and_then(|list| squeeze_list(&list)),
        _ => {
            eprintln!("{USAGE}");
            Ok(FAILED)
        }
    };
    ExitCode::from(outcome.unwrap_or_else(|error| {
        eprintln!("list: {error}");
        FAILED
    }))
}

/// Nothing is written unless the whole text is right.
fn make_list(text: &[u8]) -> io::Result<u8> {
    match make(text) {
        Ok(list) => io::stdout().write_all(&list).map(|()| 0),
        Err(wrong) => {
            eprintln!("{wrong}");
            Ok(WRONG)
        }
    }
}

fn dump_list(list: &[u8]) -> io::Result<u8> {
    let dumped = dump(list);
    io::stdout().write_all(dumped.text.as_bytes())?;
    Ok(if dumped.refusal.is_some() { WRONG } else { 0 })
}

/// Nothing is written of a refused list.
fn squeeze_list(list: &[u8]) -> io::Result<u8> {
    match squeeze(list) {
        Ok(squeezed) => io::stdout().write_all(&squeezed).map(|()| 0),
        Err(refused) => {
            eprintln!("{}", refusal_words(refused));
            Ok(WRONG)
        }
    }
}

/// A file whole, or standard input.
fn read(file: Option<&str>) -> io::Result<Vec<u8>> {
    let Some(name) = file else {
        let mut bytes = Vec::new();
        return io::stdin().read_to_end(&mut bytes).map(|_| bytes);
    };
    let named = |error: io::Error| io::Error::new(error.kind(), format!("{name}: {error}"));
    fs::read(name).map_err(named)
}
