//! Checking, drawing and squeezing a whole list as one would first write it in Rust.
//!
//! The list is read twice, record by record: once to find its first refusal and add up its ceiling,
//! once to draw it or to build the squeezed list, which is then copied if it fits.

use crate::baseline::{clip_refusal, page_refusal, paint, shape_refusal, CodeInk, Ink, LightInk};
use greystroke::{
    Checked, Clip, Disc, Header, Lights, Line, ListRefusal, Picture, Record, Refusal, Ring,
    Setting, Shape, Size, Triangle, PLAYERS,
};

const LONGEST_LIST: usize = 65_536;
const HEADER_LENGTH: usize = 10;

/// What [`greystroke::check_list`] does. Lights of that type are fit.
pub fn check_list(
    list: &[u8],
    page_length: usize,
    _lights: &Lights,
) -> Result<Checked, ListRefusal> {
    check(list, page_length)
}

/// What [`greystroke::check_without_page`] does: no page is then too short.
pub fn check_without_page(list: &[u8]) -> Result<Checked, ListRefusal> {
    check(list, usize::MAX)
}

fn check(list: &[u8], page_length: usize) -> Result<Checked, ListRefusal> {
    let at = |place| move |refusal| ListRefusal { refusal, place };
    let header = check_header(list, page_length).map_err(at(0))?;
    let mut place = HEADER_LENGTH;
    let mut clip = Clip::whole(header.size);
    let mut ceiling = 0;
    loop {
        let (record, length) = decode(&list[place..], header.version).map_err(at(place))?;
        if let Some(refusal) = record_refusal(record, header.size) {
            return Err(at(place)(refusal));
        }
        place += length;
        match record {
            Record::End => break,
            Record::Setting(Setting::Clip(next)) => clip = next,
            Record::Setting(_) => {}
            Record::Shape(shape) => ceiling += u64::from(shape_ceiling(shape, clip)),
        }
    }
    if place < list.len() {
        return Err(at(place)(Refusal::SurplusBytes));
    }
    Ok(Checked { header, ceiling })
}

/// What [`greystroke::draw_list`] does with lights equal to codes.
pub fn draw_list(page: &mut [u8], codes: &Lights, list: &[u8]) -> Result<Picture, ListRefusal> {
    draw(page, codes, list, |level| CodeInk { level })
}

/// What [`greystroke::draw_list`] does with any lights.
pub fn draw_list_in_light(
    page: &mut [u8],
    lights: &Lights,
    list: &[u8],
) -> Result<Picture, ListRefusal> {
    draw(page, lights, list, |level| LightInk { lights, level })
}

fn draw<I: Ink>(
    page: &mut [u8],
    lights: &Lights,
    list: &[u8],
    ink: impl Fn(u8) -> I,
) -> Result<Picture, ListRefusal> {
    let Header {
        version,
        size,
        background,
    } = check_list(list, page.len(), lights)?.header;
    page[..usize::from(size.width) * usize::from(size.height)].fill(background);
    let mut clip = Clip::whole(size);
    let mut level = 255;
    let mut player = 0;
    let mut touched = [0; PLAYERS];
    let mut rest = &list[HEADER_LENGTH..];
    while let Ok((record, length)) = decode(rest, version) {
        match record {
            Record::End => break,
            Record::Setting(Setting::Clip(next)) => clip = next,
            Record::Setting(Setting::Level(next)) => level = next,
            Record::Setting(Setting::Player(next)) => player = usize::from(next),
            Record::Shape(shape) => touched[player] += paint(page, size, clip, ink(level), shape),
        }
        rest = &rest[length..];
    }
    Ok(Picture { size, touched })
}

/// What [`greystroke::squeeze_list`] does.
pub fn squeeze_list(squeezed: &mut [u8], list: &[u8]) -> Result<usize, ListRefusal> {
    let Header { version, size, .. } = check_without_page(list)?.header;
    let start = Settings {
        clip: Clip::whole(size),
        level: 255,
        player: 0,
    };
    let (mut written, mut now) = (start, start);
    let mut built = list[..HEADER_LENGTH].to_vec();
    let mut rest = &list[HEADER_LENGTH..];
    while let Ok((record, length)) = decode(rest, version) {
        match record {
            Record::End => break,
            Record::Setting(Setting::Clip(next)) => now.clip = next,
            Record::Setting(Setting::Level(next)) => now.level = next,
            Record::Setting(Setting::Player(next)) => now.player = next,
            Record::Shape(_) => {
                write_changes(&mut built, &written, &now);
                written = now;
                built.extend_from_slice(&rest[..length]);
            }
        }
        rest = &rest[length..];
    }
    built.push(0);
    let Some(room) = squeezed.get_mut(..built.len()) else {
        return Err(ListRefusal {
            refusal: Refusal::NoRoom,
            place: 0,
        });
    };
    room.copy_from_slice(&built);
    Ok(built.len())
}

/// What is in force at a shape.
#[derive(Clone, Copy)]
struct Settings {
    clip: Clip,
    level: u8,
    player: u8,
}

fn write_changes(built: &mut Vec<u8>, before: &Settings, now: &Settings) {
    if now.clip != before.clip {
        let Clip { x0, y0, x1, y1 } = now.clip;
        built.push(1);
        for corner in [x0, y0, x1, y1] {
            built.extend_from_slice(&corner.to_le_bytes());
        }
    }
    if now.level != before.level {
        built.extend_from_slice(&[2, now.level]);
    }
    if now.player != before.player {
        built.extend_from_slice(&[7, now.player]);
    }
}

fn check_header(list: &[u8], page_length: usize) -> Result<Header, Refusal> {
    if list.len() > LONGEST_LIST {
        return Err(Refusal::ListTooLong);
    } else if list.len() < HEADER_LENGTH {
        return Err(Refusal::CutShort);
    } else if &list[..3] != b"INK" {
        return Err(Refusal::WrongMark);
    }
    let version = word(list, 3);
    if version != 1 && version != 2 {
        return Err(Refusal::WrongVersion);
    }
    let (width, height) = (word(list, 5), word(list, 7));
    let size = Size { width, height };
    match page_refusal(page_length, size) {
        Some(refusal) => Err(refusal),
        None => Ok(Header {
            version,
            size,
            background: list[9],
        }),
    }
}

fn record_refusal(record: Record, size: Size) -> Option<Refusal> {
    match record {
        Record::End | Record::Setting(Setting::Level(_)) => None,
        Record::Setting(Setting::Clip(clip)) => clip_refusal(clip, size),
        Record::Setting(Setting::Player(player)) => {
            (usize::from(player) >= PLAYERS).then_some(Refusal::Player)
        }
        Record::Shape(shape) => shape_refusal(shape),
    }
}

/// How much a lawful shape adds to the ceiling.
fn shape_ceiling(shape: Shape, clip: Clip) -> u32 {
    let count = match shape {
        Shape::Line(line) => {
            let (across, down) = (line.x0.abs_diff(line.x1), line.y0.abs_diff(line.y1));
            3 * u32::from(across.max(down))
        }
        Shape::Disc(Disc { radius, .. }) | Shape::Ring(Ring { radius, .. }) => {
            4 * u32::from(radius) * u32::from(radius)
        }
        Shape::Triangle(t) => {
            let span = |a: i16, b: i16, c: i16| a.max(b).max(c).abs_diff(a.min(b).min(c));
            u32::from(span(t.x0, t.x1, t.x2)) * u32::from(span(t.y0, t.y1, t.y2))
        }
    };
    count.min(u32::from(clip.x1 - clip.x0) * u32::from(clip.y1 - clip.y0))
}

/// The record at the front of the bytes of a list of this version, and how many it has.
fn decode(bytes: &[u8], version: u16) -> Result<(Record, usize), Refusal> {
    let &kind = bytes.first().ok_or(Refusal::CutShort)?;
    let length = match kind {
        0 => 1,
        1 | 3 | 4 => 9,
        2 => 2,
        5 => 6,
        6 => 7,
        7 if version == 2 => 2,
        8 if version == 2 => 7,
        9 if version == 2 => 9,
        10 if version == 2 => 13,
        _ => return Err(Refusal::UnknownKind),
    };
    let bytes = bytes.get(..length).ok_or(Refusal::CutShort)?;
    let record = match kind {
        0 => Record::End,
        1 => Record::Setting(Setting::Clip(Clip {
            x0: word(bytes, 1),
            y0: word(bytes, 3),
            x1: word(bytes, 5),
            y1: word(bytes, 7),
        })),
        2 => Record::Setting(Setting::Level(bytes[1])),
        7 => Record::Setting(Setting::Player(bytes[1])),
        _ => Record::Shape(decode_shape(bytes)),
    };
    Ok((record, length))
}

fn decode_shape(bytes: &[u8]) -> Shape {
    let (x, y) = (signed(bytes, 1), signed(bytes, 3));
    let disc = |radius, big| Shape::Disc(Disc { x, y, radius, big });
    let ring = |radius, width, big| {
        Shape::Ring(Ring {
            x,
            y,
            radius,
            width,
            big,
        })
    };
    match bytes[0] {
        5 => disc(bytes[5].into(), false),
        6 => ring(bytes[5].into(), bytes[6].into(), false),
        8 => disc(word(bytes, 5), true),
        9 => ring(word(bytes, 5), word(bytes, 7), true),
        10 => Shape::Triangle(Triangle {
            x0: x,
            y0: y,
            x1: signed(bytes, 5),
            y1: signed(bytes, 7),
            x2: signed(bytes, 9),
            y2: signed(bytes, 11),
        }),
        kind => Shape::Line(Line {
            exact: kind == 3,
            x0: x,
            y0: y,
            x1: signed(bytes, 5),
            y1: signed(bytes, 7),
        }),
    }
}

fn word(bytes: &[u8], at: usize) -> u16 {
    u16::from_le_bytes([bytes[at], bytes[at + 1]])
}

fn signed(bytes: &[u8], at: usize) -> i16 {
    word(bytes, at) as i16
}
