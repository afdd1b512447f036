//! One function a table: parse the call, make it, and write the answer as the table does.
//!
//! The call itself is handed in, so that the reference and the library answer by the same text.

use crate::cases::{parse_hex, show_hex};
use crate::lights::parse_lights;
use crate::notation::{
    narrow, numbers, parse_clip, parse_line, parse_shape, parse_writable, show_record, Writable,
};
use reference::coverage::Fraction;
use reference::list::Checked;
use reference::refusal::Refused;
use reference::shape::{Basis, Clip, Line, Record, Shape, PLAYERS};

/// The state of a writer, the list included.
#[derive(Clone, Debug, PartialEq, Eq)]
pub struct Writing {
    pub list: Vec<u8>,
    pub place: usize,
    pub basis: Basis,
}

/// A page, the lights of its screen, and the settings for one shape on it.
#[derive(Clone, Debug)]
pub struct ShapeCall {
    pub page: Vec<u8>,
    pub width: u16,
    pub height: u16,
    pub lights: Vec<u16>,
    pub clip: Clip,
    pub level: u8,
    pub shape: Shape,
}

pub fn queries(call: &str, ask: impl Fn(&Shape, i16, i16) -> Result<Fraction, Refused>) -> String {
    let [shape, pixel] = fields(call);
    let [x, y] = numbers(pixel);
    match ask(&parse_shape(shape), x, y) {
        Ok(cover) => format!("{} {}", cover.n, cover.d),
        Err(refusal) => refused(&refusal, false),
    }
}

pub fn columns(
    call: &str,
    ask: impl Fn(u16, u16, &Clip, &Line) -> Result<Option<u64>, Refused>,
) -> String {
    let [size, clip, line] = fields(call);
    let [width, height] = numbers(size);
    match ask(width, height, &parse_clip(clip), &parse_line(line)) {
        Ok(Some(column)) => column.to_string(),
        Ok(None) => "none".to_string(),
        Err(refusal) => refused(&refusal, false),
    }
}

pub fn draws(call: &str, draw: impl Fn(&mut ShapeCall) -> Result<u64, Refused>) -> String {
    let [sizes, lights, clip, shape, level] = fields(call);
    let [length, width, height]: [usize; 3] = numbers(sizes);
    let [level] = numbers(level);
    let before = starting_page(length);
    let mut call = ShapeCall {
        page: before.clone(),
        width: narrow(width),
        height: narrow(height),
        lights: parse_lights(lights),
        clip: parse_clip(clip),
        level,
        shape: parse_shape(shape),
    };
    match draw(&mut call) {
        Ok(touched) => show_page(&[touched], &call.page),
        Err(refusal) => refused(&refusal, call.page != before),
    }
}

pub fn writes(
    call: &str,
    write: impl Fn(&mut Writing, &Writable) -> Result<(), Refused>,
) -> String {
    let [state, what] = fields(call);
    let [length, place, version, width, height]: [usize; 5] = numbers(state);
    let before = Writing {
        list: vec![0xAA; length],
        place,
        basis: Basis {
            version: narrow(version),
            width: narrow(width),
            height: narrow(height),
        },
    };
    let mut after = before.clone();
    match write(&mut after, &parse_writable(what)) {
        Ok(()) => show_writing(&after),
        Err(refusal) => refused(&refusal, after != before),
    }
}

pub fn reads(
    call: &str,
    read: impl Fn(&[u8], Basis) -> (Result<Record, Refused>, &[u8]),
) -> String {
    let [basis, hex] = fields(call);
    let [version, width, height] = numbers(basis);
    let bytes = parse_hex(hex);
    let basis = Basis {
        version,
        width,
        height,
    };
    let (record, rest) = read(&bytes, basis);
    match record {
        Ok(record) => format!("{} / {}", show_record(&record), show_hex(rest)),
        Err(refusal) => refused(&refusal, rest != bytes),
    }
}

pub fn lists(
    call: &str,
    draw: impl Fn(&[u8], &mut [u8], &[u16]) -> Result<[u64; PLAYERS], Refused>,
) -> String {
    let [length, lights, hex] = fields(call);
    let [length] = numbers(length);
    let before = starting_page(length);
    let mut page = before.clone();
    match draw(&parse_hex(hex), &mut page, &parse_lights(lights)) {
        Ok(touched) => show_page(&touched, &page),
        Err(refusal) => marked(refused_at(&refusal), page != before),
    }
}

pub fn ceilings(call: &str, check: impl Fn(&[u8]) -> Result<Checked, Refused>) -> String {
    match check(&parse_hex(call)) {
        Ok(checked) => checked.ceiling.to_string(),
        Err(refusal) => refused_at(&refusal),
    }
}

pub fn squeezes(
    call: &str,
    squeeze: impl Fn(&mut [u8], &[u8]) -> Result<usize, Refused>,
) -> String {
    let [length, hex] = fields(call);
    let [length] = numbers(length);
    let before = vec![0xAA; length];
    let mut squeezed = before.clone();
    match squeeze(&mut squeezed, &parse_hex(hex)) {
        Ok(length) => format!("{length} {}", show_hex(&squeezed)),
        Err(refusal) => marked(refused_at(&refusal), squeezed != before),
    }
}

/// The parts of a call, parted by colons with a blank in front: any other belongs to its word.
fn fields<const N: usize>(call: &str) -> [&str; N] {
    let parts: Vec<&str> = call.split(" :").map(str::trim).collect();
    let array = parts.try_into().ok();
    array.unwrap_or_else(|| panic!("{N} parts expected in `{call}`"))
}

/// Byte k is 37·k + 11 modulo 256, so that a byte left alone is told from a drawn one.
pub fn starting_page(length: usize) -> Vec<u8> {
    (0..length).map(|k| ((37 * k + 11) % 256) as u8).collect()
}

/// The counts, then the bytes.
fn show_page(touched: &[u64], page: &[u8]) -> String {
    let counts = touched.iter().copied();
    let numbers = counts.chain(page.iter().map(|&byte| byte.into()));
    let words: Vec<String> = numbers.map(|number| number.to_string()).collect();
    words.join(" ")
}

fn show_writing(writing: &Writing) -> String {
    let Basis {
        version,
        width,
        height,
    } = writing.basis;
    let (place, list) = (writing.place, show_hex(&writing.list));
    format!("{place} {version} {width} {height} {list}")
}

fn refused(refusal: &Refused, changed: bool) -> String {
    marked(format!("refused {}", refusal.number), changed)
}

/// The refusal of a whole list.
fn refused_at(refusal: &Refused) -> String {
    format!("refused {} at {}", refusal.number, refusal.place)
}

/// A refusal, and whether something that was lent or held is no longer as it was.
fn marked(refusal: String, changed: bool) -> String {
    refusal + if changed { " changed" } else { "" }
}
