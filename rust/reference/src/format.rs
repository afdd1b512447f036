//! The bytes of a header and of each kind of record.

use crate::refusal::Refusal;
use crate::shape::{
    version_refusal, Basis, Clip, Disc, Line, Record, Ring, Setting, Shape, Triangle,
};

pub const LONGEST_LIST: usize = 65_536;
pub const HEADER_LENGTH: usize = 10;
const MARK: [u8; 3] = *b"INK";

#[derive(Clone, Copy, Debug, PartialEq, Eq)]
pub struct Header {
    pub version: u16,
    pub width: u16,
    pub height: u16,
    pub background: u8,
}

impl Header {
    /// What the records behind this header are read and written against.
    pub fn basis(&self) -> Basis {
        Basis {
            version: self.version,
            width: self.width,
            height: self.height,
        }
    }
}

/// Reads the header: 5, 1, 2 in this order. Its sizes are judged by the caller.
pub fn decode_header(list: &[u8]) -> Result<Header, Refusal> {
    if list.len() < HEADER_LENGTH {
        Err(Refusal::CutShort)
    } else if list[..3] != MARK {
        Err(Refusal::WrongMark)
    } else if let Some(refusal) = version_refusal(unsigned(list, 3)) {
        Err(refusal)
    } else {
        Ok(Header {
            version: unsigned(list, 3),
            width: unsigned(list, 5),
            height: unsigned(list, 7),
            background: list[9],
        })
    }
}

pub fn encode_header(header: &Header) -> Vec<u8> {
    let mut bytes = MARK.to_vec();
    for field in [header.version, header.width, header.height] {
        bytes.extend(field.to_le_bytes());
    }
    bytes.push(header.background);
    bytes
}

/// 4 unless the version has this kind: version 1 has 0 to 6, and version 2 has 7 to 10 too.
pub fn kind_refusal(kind: u8, version: u16) -> Option<Refusal> {
    let last = if version == 1 { 6 } else { 10 };
    (kind > last).then_some(Refusal::UnknownKind)
}

/// Bytes of a record of this kind, the kind byte included.
fn record_length(kind: u8) -> usize {
    match kind {
        0 => 1,
        1 => 9,
        2 => 2,
        3 | 4 => 9,
        5 => 6,
        6 => 7,
        7 => 2,
        8 => 7,
        9 => 9,
        10 => 13,
        _ => panic!("no version has kind {kind}"),
    }
}

/// The record at the front of the bytes and its length: 5 for no byte, 4, then 5 for a cut record.
pub fn decode_record(bytes: &[u8], version: u16) -> Result<(Record, usize), Refusal> {
    let kind = *bytes.first().ok_or(Refusal::CutShort)?;
    if let Some(refusal) = kind_refusal(kind, version) {
        return Err(refusal);
    }
    let length = record_length(kind);
    let bytes = bytes.get(..length).ok_or(Refusal::CutShort)?;
    let record = match kind {
        0 => Record::End,
        1 => Record::Setting(Setting::Clip(decode_clip(bytes))),
        2 => Record::Setting(Setting::Level(bytes[1])),
        3 | 4 => Record::Shape(Shape::Line(decode_line(bytes))),
        5 | 8 => Record::Shape(Shape::Disc(decode_disc(bytes))),
        6 | 9 => Record::Shape(Shape::Ring(decode_ring(bytes))),
        10 => Record::Shape(Shape::Triangle(decode_triangle(bytes))),
        _ => Record::Setting(Setting::Player(bytes[1])),
    };
    Ok((record, length))
}

fn decode_clip(bytes: &[u8]) -> Clip {
    Clip {
        x0: unsigned(bytes, 1),
        y0: unsigned(bytes, 3),
        x1: unsigned(bytes, 5),
        y1: unsigned(bytes, 7),
    }
}

fn decode_line(bytes: &[u8]) -> Line {
    Line {
        exact: bytes[0] == 3,
        x0: signed(bytes, 1),
        y0: signed(bytes, 3),
        x1: signed(bytes, 5),
        y1: signed(bytes, 7),
    }
}

/// Kind 5 has one byte for the radius, and kind 8 two.
fn decode_disc(bytes: &[u8]) -> Disc {
    let big = bytes[0] == 8;
    Disc {
        x: signed(bytes, 1),
        y: signed(bytes, 3),
        radius: if big {
            unsigned(bytes, 5)
        } else {
            bytes[5].into()
        },
        big,
    }
}

/// Kind 6 has one byte each for the radius and the width, and kind 9 two.
fn decode_ring(bytes: &[u8]) -> Ring {
    let big = bytes[0] == 9;
    let (radius, width) = if big {
        (unsigned(bytes, 5), unsigned(bytes, 7))
    } else {
        (bytes[5].into(), bytes[6].into())
    };
    Ring {
        x: signed(bytes, 1),
        y: signed(bytes, 3),
        radius,
        width,
        big,
    }
}

fn decode_triangle(bytes: &[u8]) -> Triangle {
    Triangle {
        x0: signed(bytes, 1),
        y0: signed(bytes, 3),
        x1: signed(bytes, 5),
        y1: signed(bytes, 7),
        x2: signed(bytes, 9),
        y2: signed(bytes, 11),
    }
}

/// The kind byte of a record.
pub fn kind_of(record: &Record) -> u8 {
    match record {
        Record::End => 0,
        Record::Setting(Setting::Clip(_)) => 1,
        Record::Setting(Setting::Level(_)) => 2,
        Record::Shape(Shape::Line(line)) if line.exact => 3,
        Record::Shape(Shape::Line(_)) => 4,
        Record::Shape(Shape::Disc(disc)) if disc.big => 8,
        Record::Shape(Shape::Disc(_)) => 5,
        Record::Shape(Shape::Ring(ring)) if ring.big => 9,
        Record::Shape(Shape::Ring(_)) => 6,
        Record::Setting(Setting::Player(_)) => 7,
        Record::Shape(Shape::Triangle(_)) => 10,
    }
}

/// The bytes of a record whose numbers fit them, as those of one that is not refused do.
pub fn encode_record(record: &Record) -> Vec<u8> {
    let mut bytes = vec![kind_of(record)];
    match record {
        Record::End => {}
        Record::Setting(Setting::Clip(clip)) => {
            let corners = [clip.x0, clip.y0, clip.x1, clip.y1];
            bytes.extend(corners.map(u16::to_le_bytes).iter().flatten());
        }
        Record::Setting(Setting::Level(byte) | Setting::Player(byte)) => bytes.push(*byte),
        Record::Shape(Shape::Line(line)) => {
            let ends = [line.x0, line.y0, line.x1, line.y1];
            bytes.extend(ends.map(i16::to_le_bytes).iter().flatten());
        }
        Record::Shape(Shape::Disc(disc)) => {
            bytes.extend([disc.x, disc.y].map(i16::to_le_bytes).iter().flatten());
            bytes.extend(encode_measure(disc.radius, disc.big));
        }
        Record::Shape(Shape::Ring(ring)) => {
            bytes.extend([ring.x, ring.y].map(i16::to_le_bytes).iter().flatten());
            bytes.extend(encode_measure(ring.radius, ring.big));
            bytes.extend(encode_measure(ring.width, ring.big));
        }
        Record::Shape(Shape::Triangle(triangle)) => {
            for (x, y) in triangle.corners() {
                bytes.extend([x, y].map(i16::to_le_bytes).iter().flatten());
            }
        }
    }
    bytes
}

/// A radius or a width: two bytes in a big record, else one.
fn encode_measure(measure: u16, big: bool) -> Vec<u8> {
    if big {
        measure.to_le_bytes().to_vec()
    } else {
        vec![u8::try_from(measure).expect("a radius or width of a small record fits one byte")]
    }
}

fn unsigned(bytes: &[u8], at: usize) -> u16 {
    u16::from_le_bytes([bytes[at], bytes[at + 1]])
}

fn signed(bytes: &[u8], at: usize) -> i16 {
    i16::from_le_bytes([bytes[at], bytes[at + 1]])
}
