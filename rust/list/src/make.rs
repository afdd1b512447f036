//! A text into a list.

use crate::words::{header_of, record_of, Unexpected, PAGE};
use greystroke::{Record, Refusal, Writer};
use std::error::Error;
use std::fmt::{self, Display, Formatter};

/// No list has more bytes.
pub const LONGEST_LIST: usize = 65_536;

/// How much of a wrong line is told.
const LONGEST_FOUND: usize = 60;

/// A line of a text that makes no list: its number, counted from 1, and why.
#[derive(Clone, Debug, PartialEq, Eq)]
pub struct WrongLine {
    pub number: usize,
    reason: Reason,
}

#[derive(Clone, Debug, PartialEq, Eq)]
enum Reason {
    /// The words are not those of a header or a record.
    Words { expected: Unexpected, found: String },
    /// The library's writer turned the header or the record down.
    Refused(Refusal),
}

impl Display for WrongLine {
    fn fmt(&self, formatter: &mut Formatter<'_>) -> fmt::Result {
        write!(formatter, "line {}: ", self.number)?;
        match &self.reason {
            Reason::Refused(refusal) => write!(formatter, "{refusal}"),
            Reason::Words { expected, found } => {
                write!(formatter, "expected {}, found {found}", expected.expected)?;
                match &expected.unfit {
                    Some((field, word)) => write!(formatter, ": {word} does not fit {field}"),
                    None => Ok(()),
                }
            }
        }
    }
}

impl Error for WrongLine {}

/// The list that a text stands for: a page, records, and end last.
///
/// # Errors
///
/// The first line that is wrong.
pub fn make(text: &[u8]) -> Result<Vec<u8>, WrongLine> {
    let mut list = vec![0; LONGEST_LIST];
    let mut maker = Maker {
        writer: Writer::new(&mut list),
        next: Next::Page,
    };
    let mut number = 0;
    for line in text.split(|&byte| byte == b'\n') {
        number += 1;
        let line = String::from_utf8_lossy(line);
        let record = line.split('#').next().unwrap_or_default();
        let words: Vec<&str> = record.split_whitespace().collect();
        if !words.is_empty() {
            let reason = maker.take(&words);
            reason.map_err(|reason| WrongLine { number, reason })?;
        }
    }
    let whole = maker.finish();
    let length = whole.map_err(|reason| WrongLine { number, reason })?;
    list.truncate(length);
    Ok(list)
}

/// What the next line with words in it has to be.
enum Next {
    Page,
    Record,
    Nothing,
}

struct Maker<'a> {
    writer: Writer<'a>,
    next: Next,
}

impl Maker<'_> {
    fn take(&mut self, words: &[&str]) -> Result<(), Reason> {
        let wrong = |expected| Reason::Words {
            expected,
            found: shown(words),
        };
        match self.next {
            Next::Page => {
                let header = header_of(words).map_err(wrong)?;
                self.writer.write_header(header).map_err(Reason::Refused)?;
                self.next = Next::Record;
            }
            Next::Record => {
                let record = record_of(words).map_err(wrong)?;
                self.writer.write_record(record).map_err(Reason::Refused)?;
                if record == Record::End {
                    self.next = Next::Nothing;
                }
            }
            Next::Nothing => return Err(wrong(expected("nothing behind end"))),
        }
        Ok(())
    }

    /// The list's length, if the text has come to its end record.
    fn finish(self) -> Result<usize, Reason> {
        let missing = match self.next {
            Next::Nothing => return Ok(self.writer.place),
            Next::Page => PAGE,
            Next::Record => "end as the last record",
        };
        Err(Reason::Words {
            expected: expected(missing),
            found: "the end of the text".to_string(),
        })
    }
}

fn expected(expected: &'static str) -> Unexpected {
    Unexpected {
        expected,
        unfit: None,
    }
}

/// Words on one line that any terminal can show: the text may be no text at all.
fn shown(words: &[&str]) -> String {
    let line = words.join(" ");
    let visible = |letter: char| if letter.is_control() { '?' } else { letter };
    let mut found: String = line.chars().take(LONGEST_FOUND).map(visible).collect();
    if line.chars().nth(LONGEST_FOUND).is_some() {
        found.push_str(" ..");
    }
    found
}
