//! Random headers, records and whole lists, and damage to a list.

use crate::random::Random;
use crate::strokes::{disc, line, push_outside, ring, triangle};
use reference::format::{encode_header, encode_record, kind_of, kind_refusal, Header};
use reference::shape::{Basis, Clip, Record, Setting, Shape};

const UNLAWFUL_SIDES: [u16; 3] = [0, 1025, u16::MAX];
/// With the low byte of a lawful version, and without.
const UNLAWFUL_VERSIONS: [u16; 5] = [0, 3, 257, 258, u16::MAX];

/// A header; one in sixteen has a side out of range, and one in sixteen an unlawful version.
pub fn header(random: &mut Random) -> Header {
    let version = match random.one_in(16) {
        true => random.pick(&UNLAWFUL_VERSIONS),
        false => lawful_version(random),
    };
    let mut side = || match random.between(0, 31) {
        0 => random.pick(&UNLAWFUL_SIDES),
        1 => 1024,
        2 => 1,
        _ => random.between(1, 40) as u16,
    };
    let (width, height) = (side(), side());
    Header {
        version,
        width,
        height,
        background: random.bits() as u8,
    }
}

/// One list in three is of version 1.
pub fn lawful_version(random: &mut Random) -> u16 {
    random.pick(&[1, 2, 2])
}

/// Any record, refused in a list of this version and page or not.
pub fn record(random: &mut Random, basis: Basis) -> Record {
    let Basis { width, height, .. } = basis;
    let mut shape = match random.between(0, 14) {
        0 => return Record::End,
        1 => return Record::Setting(Setting::Level(random.bits() as u8)),
        2 | 3 => return Record::Setting(Setting::Clip(clip(random, width, height))),
        4 | 5 => return Record::Setting(Setting::Player(player(random))),
        6..=8 => Shape::Line(line(random)),
        9 | 10 => Shape::Disc(disc(random)),
        11 | 12 => Shape::Ring(ring(random)),
        _ => Shape::Triangle(triangle(random)),
    };
    if random.one_in(8) {
        push_outside(random, &mut shape);
    }
    Record::Shape(shape)
}

/// One in eight is no player.
fn player(random: &mut Random) -> u8 {
    let no_player = random.between(8, 255) as u8;
    match random.one_in(8) {
        true => random.pick(&[8, 255, no_player]),
        false => random.between(0, 7) as u8,
    }
}

fn clip(random: &mut Random, width: u16, height: u16) -> Clip {
    let mut corner = |side: u16| match random.between(0, 7) {
        0 => 0,
        1 => side,
        2 => side.saturating_add(1),
        3 => u16::MAX,
        _ => random.between(0, i64::from(side)) as u16,
    };
    let (one, other) = (corner(width), corner(width));
    let (x0, x1) = (one.min(other), one.max(other));
    let (y0, y1) = (corner(height), corner(height));
    Clip { x0, y0, x1, y1 }
}

/// A setting or a shape that is not refused in a list of this version with a page of lawful size.
pub fn lawful_record(random: &mut Random, basis: Basis) -> Record {
    loop {
        let record = record(random, basis);
        if record != Record::End && !is_refused(&record, basis) {
            return record;
        }
    }
}

/// Whether a list of this version with a page of lawful size cannot hold the record.
pub(crate) fn is_refused(record: &Record, basis: Basis) -> bool {
    let refusal = kind_refusal(kind_of(record), basis.version)
        .or_else(|| record.first_refusal(basis.width, basis.height));
    refusal.is_some()
}

/// A record for a list: one in twenty may have a refusal, or be an end record before the last.
fn listed_record(random: &mut Random, basis: Basis) -> Record {
    if !random.one_in(20) {
        return lawful_record(random, basis);
    }
    loop {
        let record = record(random, basis);
        if fits_its_bytes(&record) {
            return record;
        }
    }
}

/// A list has one byte for a radius and for a width, and two in the records of big shapes.
fn fits_its_bytes(record: &Record) -> bool {
    match record {
        Record::Shape(Shape::Disc(disc)) => disc.big || disc.radius < 256,
        Record::Shape(Shape::Ring(ring)) => ring.big || ring.radius.max(ring.width) < 256,
        _ => true,
    }
}

/// A list of up to twelve records and an end record.
pub fn list(random: &mut Random) -> Vec<u8> {
    let header = header(random);
    let mut list = encode_header(&header);
    let basis = Basis {
        width: header.width.max(1),
        height: header.height.max(1),
        ..header.basis()
    };
    for _ in 0..random.between(0, 12) {
        list.extend(encode_record(&listed_record(random, basis)));
    }
    list.push(0);
    list
}

/// Cuts the list, lengthens it, or changes, takes out or puts in a byte.
pub fn damage(random: &mut Random, list: &mut Vec<u8>) {
    let place = random.between(0, list.len() as i64 - 1) as usize;
    let any = random.bits() as u8;
    let byte = random.pick(&[0, 1, 2, 4, 7, 8, 9, 10, 11, 16, 0xF0, 0xFF, any]);
    match random.between(0, 6) {
        0 => list.truncate(place),
        1 => list.push(byte),
        2 => list.insert(place, byte),
        3 => drop(list.remove(place)),
        4 => list[place] ^= 1 << random.between(0, 7),
        _ => list[place] = byte,
    }
}
