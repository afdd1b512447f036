//! A list without the settings that change nothing.

use crate::format::{encode_header, encode_record};
use crate::list::{check_without_page, Accepted};
use crate::refusal::{Refusal, Refused};
use crate::shape::{Clip, Record, Setting};

/// Writes the squeezed list to the front of the bytes lent and hands back its length.
/// Tried as a list is without a page, then 22.
pub fn squeeze_list(squeezed: &mut [u8], list: &[u8]) -> Result<usize, Refused> {
    let bytes = squeezed_bytes(&check_without_page(list)?);
    if bytes.len() > squeezed.len() {
        return Err(Refusal::NoRoom.at(0));
    }
    squeezed[..bytes.len()].copy_from_slice(&bytes);
    Ok(bytes.len())
}

/// The header, the shapes, each behind the settings that differ from those at the shape before it,
/// and the end record. The first shape's are held against those that a list starts with.
pub fn squeezed_bytes(accepted: &Accepted) -> Vec<u8> {
    let header = &accepted.header;
    let mut clip = Clip::whole(header.width, header.height);
    let mut level = 255;
    let mut player = 0;
    let mut bytes = encode_header(header);
    for drawing in &accepted.drawings {
        if drawing.clip != clip {
            clip = drawing.clip;
            bytes.extend(encode_record(&Record::Setting(Setting::Clip(clip))));
        }
        if drawing.level != level {
            level = drawing.level;
            bytes.extend(encode_record(&Record::Setting(Setting::Level(level))));
        }
        if drawing.player != player {
            player = drawing.player;
            bytes.extend(encode_record(&Record::Setting(Setting::Player(player))));
        }
        bytes.extend(encode_record(&Record::Shape(drawing.shape)));
    }
    bytes.extend(encode_record(&Record::End));
    bytes
}

#[cfg(test)]
mod tests {
    use super::*;

    type Records = &'static [&'static [u8]];

    const HEADER: [u8; 10] = *b"INK\x02\x00\x04\x00\x03\x00\x09";
    const DISC: [u8; 6] = [5, 1, 0, 1, 0, 2];
    /// A clip that keeps the first column.
    const CLIP: [u8; 9] = [1, 0, 0, 0, 0, 1, 0, 3, 0];
    const WHOLE: [u8; 9] = [1, 0, 0, 0, 0, 4, 0, 3, 0];

    fn list(records: Records) -> Vec<u8> {
        [&HEADER[..], &records.concat(), &[0]].concat()
    }

    #[test]
    fn settings_are_held_against_those_at_the_shape_before() {
        let rows: [(Records, Records); 8] = [
            (&[], &[]),
            (&[&CLIP, &[2, 7], &[7, 3]], &[]),
            (&[&WHOLE, &[2, 255], &[7, 0], &DISC], &[&DISC]),
            (
                &[&[7, 3], &[2, 7], &CLIP, &DISC],
                &[&CLIP, &[2, 7], &[7, 3], &DISC],
            ),
            (&[&[2, 7], &[2, 255], &DISC], &[&DISC]),
            (
                &[&[2, 7], &DISC, &[2, 9], &[2, 7], &DISC],
                &[&[2, 7], &DISC, &DISC],
            ),
            (
                &[&CLIP, &DISC, &WHOLE, &DISC],
                &[&CLIP, &DISC, &WHOLE, &DISC],
            ),
            (
                &[&DISC, &[7, 3], &DISC, &[7, 0], &[7, 5]],
                &[&DISC, &[7, 3], &DISC],
            ),
        ];
        for (records, squeezed) in rows {
            let (given, expected) = (list(records), list(squeezed));
            let mut bytes = vec![0xAA; given.len()];
            assert_eq!(squeeze_list(&mut bytes, &given), Ok(expected.len()));
            let (front, rest) = bytes.split_at(expected.len());
            assert_eq!(front, expected);
            assert!(rest.iter().all(|&byte| byte == 0xAA));
        }
    }

    #[test]
    fn the_list_is_tried_before_the_bytes_lent() {
        let given = list(&[&[2, 7], &DISC, &[2, 9]]);
        let mut bytes = vec![0xAA; given.len() - 3];
        assert_eq!(squeeze_list(&mut bytes, &given), Err(Refusal::NoRoom.at(0)));
        let cut = &given[..given.len() - 1];
        let missing_end = Refusal::CutShort.at(cut.len());
        for room in 0..bytes.len() {
            let answer = squeeze_list(&mut bytes[..room], cut);
            assert_eq!(answer, Err(missing_end));
        }
        assert!(bytes.iter().all(|&byte| byte == 0xAA));
    }
}
