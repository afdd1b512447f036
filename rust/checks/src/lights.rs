//! Lights by the names of the tables, and random ones, fit or not.

use crate::cases::parse_hex;
use crate::random::Random;
use reference::lights::CODES;
use std::collections::BTreeSet;
use std::ops::Range;

/// Lights that are 256 and rise strictly.
pub const FIT: [&str; 11] = [
    "codes", "square", "wide", "offset", "even", "gap", "gamma", "top", "first", "last", "saw",
];
/// Lights that are another number, or do not rise.
pub const UNFIT: [&str; 6] = ["short", "long", "none", "flat", "dip", "fall"];

/// The lights that the tables call so.
pub fn named(name: &str) -> Vec<u16> {
    let each = |light: fn(u32) -> u32| lights(0..CODES as u32, light);
    match name {
        "codes" => each(|k| k),
        "square" => each(|k| k * k + k),
        "wide" => each(|k| 257 * k),
        "offset" => each(|k| 40_000 + k),
        "even" => each(|k| 2 * k),
        "gap" => each(|k| if k < 200 { k } else { 60_000 + k }),
        "gamma" => each(|k| k + k * k * (k + 1020) / 1271),
        "top" => each(|k| 65_280 + k),
        "first" => each(|k| if k == 0 { 0 } else { 65_280 + k }),
        "last" => each(|k| if k == 255 { 65_535 } else { k }),
        "saw" => each(|k| 301 * (k / 2) + k % 2),
        "short" => lights(0..255, |k| k),
        "long" => lights(0..257, |k| k),
        "none" => Vec::new(),
        "flat" => each(|k| k.saturating_sub(1)),
        "dip" => each(|k| k.min(254)),
        "fall" => each(|k| 255 - k),
        _ => panic!("no lights are called `{name}`"),
    }
}

fn lights(codes: Range<u32>, light: fn(u32) -> u32) -> Vec<u16> {
    let narrow = |k| u16::try_from(light(k)).expect("a light has 16 bits");
    codes.map(narrow).collect()
}

/// A name, or `hex:` and four digits for each light.
pub fn parse_lights(text: &str) -> Vec<u16> {
    let Some(digits) = text.strip_prefix("hex:") else {
        return named(text);
    };
    let bytes = parse_hex(digits);
    let pairs = bytes.chunks(2);
    let light = |pair: &[u8]| u16::from_be_bytes(pair.try_into().expect("a light has four digits"));
    pairs.map(light).collect()
}

/// Fit lights with what they are called: one in three equal to codes, others by name, or random.
pub fn fit_lights(random: &mut Random) -> (&'static str, Vec<u16>) {
    match random.between(0, 5) {
        0 | 1 => ("codes", named("codes")),
        2 | 3 => ("random", rising_lights(random)),
        _ => {
            let name = random.pick(&FIT);
            (name, named(name))
        }
    }
}

/// Random lights that rise strictly: runs of neighbouring numbers at either end of the range or
/// anywhere in it, and the others scattered.
pub fn rising_lights(random: &mut Random) -> Vec<u16> {
    let runs = random.pick(&[0, 1, 1, 2, 6]);
    let scattered = random.pick(&[0, 1, 2, 20]);
    let mut lights = BTreeSet::new();
    for _ in 0..runs {
        let length = (CODES as i64 - scattered) / runs;
        let last_start = 65_536 - length;
        let anywhere = random.between(0, last_start);
        let start = random.pick(&[0, last_start, anywhere]);
        lights.extend((start..start + length).map(|light| light as u16));
    }
    while lights.len() < CODES {
        lights.insert(random.bits() as u16);
    }
    lights.into_iter().collect()
}

/// Makes fit lights unfit: one too few or too many, two neighbours equal or exchanged, or none.
pub fn spoil_lights(random: &mut Random, lights: &mut Vec<u16>) {
    let place = random.between(0, CODES as i64 - 2) as usize;
    let place = random.pick(&[0, CODES - 2, place]);
    match random.between(0, 6) {
        0 => drop(lights.pop()),
        1 => drop(lights.remove(0)),
        2 => lights.push(u16::MAX),
        3 => lights.clear(),
        4 => lights.swap(place, place + 1),
        5 => lights[place] = lights[place + 1],
        _ => lights[place + 1] = lights[place],
    }
}
