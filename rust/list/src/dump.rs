//! A list into a text.

use crate::words::{header_words, record_words, refusal_words};
use greystroke::{check_without_page, read_record, Header, ListRefusal};

const HEADER_LENGTH: usize = 10;
/// Comments begin here, unless the record is longer.
const COMMENT_COLUMN: usize = 28;

/// What a list holds.
#[derive(Clone, Debug, PartialEq, Eq)]
pub struct Dumped {
    /// Its header and its records, up to its refusal if it has one; then the refusal, or else the
    /// ceiling of its touches.
    pub text: String,
    pub refusal: Option<ListRefusal>,
}

/// The text of a list, each line with its place, and then its ceiling; a refused list up to the
/// place of its refusal, and then the refusal.
pub fn dump(list: &[u8]) -> Dumped {
    let checked = check_without_page(list);
    let refusal = checked.err();
    let stop = refusal.map_or(list.len(), |refusal| refusal.place);
    let mut text = String::new();
    if stop >= HEADER_LENGTH {
        dump_until(stop, list, &mut text);
    }
    text += &match checked {
        Ok(checked) => format!("# ceiling {}\n", checked.ceiling),
        Err(refused) => format!("# {}\n", refusal_words(refused)),
    };
    Dumped { text, refusal }
}

/// Header and records in front of `stop`, none of which is refused.
fn dump_until(stop: usize, list: &[u8], text: &mut String) {
    let header = header_of(list);
    *text += &line(&header_words(header), 0);
    let mut place = HEADER_LENGTH;
    while place < stop {
        let (record, rest) = read_record(&list[place..], header.basis())
            .expect("no record in front of a list's refusal is refused");
        *text += &line(&record_words(record), place);
        place = list.len() - rest.len();
    }
}

/// Whatever follows it, a header is what the library finds in it with an end record behind.
fn header_of(list: &[u8]) -> Header {
    let mut header_and_end = list[..HEADER_LENGTH].to_vec();
    header_and_end.push(0);
    let checked = check_without_page(&header_and_end);
    checked.expect("the header is not refused").header
}

fn line(words: &str, place: usize) -> String {
    format!("{words:<COMMENT_COLUMN$} # at {place}\n")
}
