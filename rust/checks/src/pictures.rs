//! Random lists that are accepted and whose shapes meet their page, and pages to draw them on.

use crate::drawings::{clip, point_near, shape, sides, triangle, LONGEST_CLIP};
use crate::listings::{is_refused, lawful_version};
use crate::random::Random;
use reference::format::{encode_header, encode_record, Header};
use reference::shape::{page_size_refusal, Basis, Clip, Disc, Line, Record, Ring, Setting, Shape};

/// A list, and what it is made of.
pub struct Listed {
    pub header: Header,
    /// Those in front of the end record.
    pub records: Vec<Record>,
    pub list: Vec<u8>,
}

/// Up to twelve settings and shapes in a list of either version, on a page of any lawful size.
pub fn picture(random: &mut Random) -> Listed {
    let version = lawful_version(random);
    picture_of(random, version)
}

/// The same of one version.
pub fn picture_of(random: &mut Random, version: u16) -> Listed {
    let (width, height) = lawful_sides(random);
    let header = Header {
        version,
        width,
        height,
        background: level(random),
    };
    let mut clip_now = Clip::whole(width, height);
    let mut records = Vec::new();
    // The reference asks every pixel of the clip, so that a large page starts with a small clip.
    if i64::from(width.max(height)) > LONGEST_CLIP || random.one_in(4) {
        clip_now = clip(random, width, height);
        records.push(Record::Setting(Setting::Clip(clip_now)));
    }
    for _ in 0..random.between(0, 12) {
        records.push(match random.between(0, 6) {
            0 => {
                clip_now = clip(random, width, height);
                Record::Setting(Setting::Clip(clip_now))
            }
            1 => Record::Setting(Setting::Level(level(random))),
            2 if version == 2 => Record::Setting(Setting::Player(player(random))),
            _ => shape_about(random, header.basis(), &clip_now),
        });
    }
    listed(header, records)
}

fn lawful_sides(random: &mut Random) -> (u16, u16) {
    loop {
        let (width, height) = sides(random);
        if page_size_refusal(width, height).is_none() {
            return (width, height);
        }
    }
}

fn level(random: &mut Random) -> u8 {
    let any = random.bits() as u8;
    random.pick(&[0, 255, any])
}

fn player(random: &mut Random) -> u8 {
    random.between(0, 7) as u8
}

/// A shape that a list of this version can hold.
fn shape_about(random: &mut Random, basis: Basis, clip: &Clip) -> Record {
    loop {
        let near = point_near(random, clip);
        let record = Record::Shape(shape(random, near, clip));
        if !is_refused(&record, basis) {
            return record;
        }
    }
}

/// The list of a header and records, with an end record behind them.
pub fn listed(header: Header, records: Vec<Record>) -> Listed {
    let mut list = encode_header(&header);
    list.extend(records.iter().flat_map(encode_record));
    list.extend(encode_record(&Record::End));
    Listed {
        header,
        records,
        list,
    }
}

/// Up to fourteen short shapes, each at a level of its own and in version 2 of any player, on a page of
/// at most eight by eight; before some of them a clip is set, or set back to the whole page.
pub fn small_picture(random: &mut Random) -> Listed {
    let header = Header {
        version: lawful_version(random),
        width: random.between(1, 8) as u16,
        height: random.between(1, 8) as u16,
        background: level(random),
    };
    let mut records = Vec::new();
    for _ in 0..random.between(1, 14) {
        records.push(Record::Setting(Setting::Level(level(random))));
        if header.version == 2 {
            records.push(Record::Setting(Setting::Player(player(random))));
        }
        if random.one_in(3) {
            records.push(Record::Setting(Setting::Clip(next_clip(random, &header))));
        }
        records.push(Record::Shape(short_shape(random, header.version)));
    }
    listed(header, records)
}

/// Most often the whole page, so that shapes still meet.
fn next_clip(random: &mut Random, header: &Header) -> Clip {
    match random.one_in(3) {
        true => clip(random, header.width, header.height),
        false => Clip::whole(header.width, header.height),
    }
}

/// Mostly a line, as only a line is drawn with other than its exact coverage.
fn short_shape(random: &mut Random, version: u16) -> Shape {
    let big = version == 2 && random.flip();
    let mut corner = || random.between(-2, 10) as i16;
    let (x, y, x1, y1) = (corner(), corner(), corner(), corner());
    let radius = random.between(1, 6) as u16;
    match random.between(0, 8) {
        0 => Shape::Disc(Disc { x, y, radius, big }),
        1 => Shape::Ring(Ring {
            x,
            y,
            radius,
            width: random.between(1, i64::from(radius)) as u16,
            big,
        }),
        2 if version == 2 => Shape::Triangle(triangle(random, (x.into(), y.into()))),
        _ => Shape::Line(Line {
            exact: random.flip(),
            x0: x,
            y0: y,
            x1: if (x, y) == (x1, y1) { x1 + 1 } else { x1 },
            y1,
        }),
    }
}

/// A page of random bytes for this header: as long as its pixels, some longer, or too short.
pub fn page_for(random: &mut Random, header: &Header) -> Vec<u8> {
    let pixels = usize::from(header.width) * usize::from(header.height);
    let length = match random.between(0, 19) {
        0 => random.between(0, pixels as i64 - 1) as usize,
        1..=9 => pixels + random.between(1, 9) as usize,
        _ => pixels,
    };
    (0..length).map(|_| random.bits() as u8).collect()
}
