//! A whole list: checking it, and drawing it on a lent page.

use crate::ceiling::list_ceiling;
use crate::format::{decode_header, Header, HEADER_LENGTH, LONGEST_LIST};
use crate::lights::lights_refusal;
use crate::page::{page_length, paint};
use crate::reader::lawful_record;
use crate::refusal::{Refusal, Refused};
use crate::shape::{page_size_refusal, Clip, Record, Setting, Shape, PLAYERS};

/// A shape with the clip, level and player in force for it.
#[derive(Clone, Copy, Debug, PartialEq, Eq)]
pub struct Drawing {
    pub shape: Shape,
    pub clip: Clip,
    pub level: u8,
    pub player: u8,
}

/// What an accepted list says.
#[derive(Clone, Debug, PartialEq, Eq)]
pub struct Accepted {
    pub header: Header,
    pub drawings: Vec<Drawing>,
}

/// What the check of an accepted list answers.
#[derive(Clone, Copy, Debug, PartialEq, Eq)]
pub struct Checked {
    pub header: Header,
    pub ceiling: u64,
}

impl Accepted {
    pub fn checked(&self) -> Checked {
        Checked {
            header: self.header,
            ceiling: list_ceiling(&self.drawings),
        }
    }
}

#[derive(Clone, Copy, Debug, PartialEq, Eq)]
pub struct Drawn {
    pub width: u16,
    pub height: u16,
    /// For each player the pixels that the player's own shapes touch.
    pub touched: [u64; PLAYERS],
}

/// Tries the whole list, as it would be drawn on a page of `page_bytes` bytes in these lights.
pub fn check(list: &[u8], page_bytes: usize, lights: &[u16]) -> Result<Accepted, Refused> {
    check_by(list, |header| {
        let too_short = page_bytes < page_length(header.width, header.height);
        let too_short = too_short.then_some(Refusal::PageTooShort);
        too_short.or_else(|| lights_refusal(lights))
    })
}

/// The same of the list alone: neither 21 nor 32 is tried.
pub fn check_without_page(list: &[u8]) -> Result<Accepted, Refused> {
    check_by(list, |_| None)
}

/// What page and lights are refused for comes between the header and the records.
fn check_by(
    list: &[u8],
    page_refusal: impl Fn(&Header) -> Option<Refusal>,
) -> Result<Accepted, Refused> {
    let header = check_header(list).map_err(|refusal| refusal.at(0))?;
    if let Some(refusal) = page_refusal(&header) {
        return Err(refusal.at(0));
    }
    let records = check_records(list, &header)?;
    Ok(Accepted {
        header,
        drawings: drawings(&header, &records),
    })
}

/// 12, 5, 1, 2, 3.
fn check_header(list: &[u8]) -> Result<Header, Refusal> {
    if list.len() > LONGEST_LIST {
        return Err(Refusal::ListTooLong);
    }
    let header = decode_header(list)?;
    match page_size_refusal(header.width, header.height) {
        Some(refusal) => Err(refusal),
        None => Ok(header),
    }
}

/// The records before the end record: each tried 4, 5, then 7, 8, 9, 10, 33, 11, 31, 34 and 35 as its
/// kind has them; last 6.
fn check_records(list: &[u8], header: &Header) -> Result<Vec<Record>, Refused> {
    let mut records = Vec::new();
    let mut place = HEADER_LENGTH;
    loop {
        let (record, length) =
            lawful_record(&list[place..], header.basis()).map_err(|refusal| refusal.at(place))?;
        place += length;
        if record != Record::End {
            records.push(record);
        } else if place < list.len() {
            return Err(Refusal::SurplusBytes.at(place));
        } else {
            return Ok(records);
        }
    }
}

/// Settings stay in force until the next of their kind.
fn drawings(header: &Header, records: &[Record]) -> Vec<Drawing> {
    let mut clip = Clip::whole(header.width, header.height);
    let mut level = 255;
    let mut player = 0;
    let mut drawings = Vec::new();
    for record in records {
        match *record {
            Record::End => {}
            Record::Setting(Setting::Clip(next)) => clip = next,
            Record::Setting(Setting::Level(next)) => level = next,
            Record::Setting(Setting::Player(next)) => player = next,
            Record::Shape(shape) => drawings.push(Drawing {
                shape,
                clip,
                level,
                player,
            }),
        }
    }
    drawings
}

/// Checks the list, fills the page with the background and draws every shape in order.
pub fn draw_list(list: &[u8], page: &mut [u8], lights: &[u16]) -> Result<Drawn, Refused> {
    let accepted = check(list, page.len(), lights)?;
    let Header {
        width,
        height,
        background,
        ..
    } = accepted.header;
    page[..page_length(width, height)].fill(background);
    let mut touched = [0; PLAYERS];
    for drawing in &accepted.drawings {
        let Drawing {
            shape,
            clip,
            level,
            player,
        } = drawing;
        touched[usize::from(*player)] += paint(page, width, lights, clip, *level, shape);
    }
    Ok(Drawn {
        width,
        height,
        touched,
    })
}

#[cfg(test)]
mod tests {
    use super::*;
    use crate::format::encode_header;
    use crate::lights::codes;

    fn header() -> Vec<u8> {
        encode_header(&Header {
            version: 2,
            width: 1,
            height: 1,
            background: 7,
        })
    }

    #[test]
    fn a_list_of_65536_bytes_is_read_to_its_end() {
        let mut list = header();
        while list.len() < LONGEST_LIST {
            list.extend([2, 9]);
        }
        let missing_end = Refusal::CutShort.at(LONGEST_LIST);
        assert_eq!(check(&list, 1, &codes()), Err(missing_end));
        list.push(0);
        assert_eq!(check(&list, 1, &[]), Err(Refusal::ListTooLong.at(0)));
    }

    #[test]
    fn a_bare_header_lacks_its_end() {
        assert_eq!(
            check(&header(), 1, &codes()),
            Err(Refusal::CutShort.at(HEADER_LENGTH))
        );
    }

    #[test]
    fn lights_come_between_the_page_and_the_records() {
        let number = |bytes, lights: &[u16]| {
            let refused = check(&header(), bytes, lights).expect_err("the list lacks its end");
            (refused.number, refused.place)
        };
        assert_eq!(number(0, &[]), (21, 0));
        assert_eq!(number(1, &[]), (32, 0));
        assert_eq!(number(1, &codes()), (5, HEADER_LENGTH));
        let alone = check_without_page(&header());
        assert_eq!(alone, Err(Refusal::CutShort.at(HEADER_LENGTH)));
    }
}
