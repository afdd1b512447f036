//! Random pages, lights, clips and shapes on them, lawful or not. Most shapes meet the clip or just
//! miss it.

use crate::lights::{fit_lights, spoil_lights};
use crate::random::Random;
use crate::rows::ShapeCall;
use crate::strokes::{
    clamped, longest_line, on_circle, push_outside, triangle_between, triangle_from,
};
use reference::page::page_length;
use reference::shape::{Clip, Disc, Line, Ring, Shape, Triangle};

const UNLAWFUL_SIDES: [u16; 3] = [0, 1025, u16::MAX];
/// The reference asks every pixel of the clip, so that a clip is kept small on any page.
pub(crate) const LONGEST_CLIP: i64 = 24;

/// A page, lights, a clip, a level and a shape; about two in five are turned down. What the lights
/// are called comes with it.
pub fn drawing(random: &mut Random) -> (&'static str, ShapeCall) {
    let (width, height) = sides(random);
    let page = page(random, width, height);
    let (name, mut lights) = fit_lights(random);
    if random.one_in(12) {
        spoil_lights(random, &mut lights);
    }
    let mut clip = clip(random, width, height);
    let near = point_near(random, &clip);
    let mut shape = shape(random, near, &clip);
    if random.one_in(12) {
        spoil_clip(random, &mut clip, width, height);
    }
    if random.one_in(8) {
        spoil_shape(random, &mut shape);
    }
    let any = random.between(0, 255) as u8;
    let call = ShapeCall {
        page,
        width,
        height,
        lights,
        clip,
        level: random.pick(&[0, 255, any, any]),
        shape,
    };
    (name, call)
}

/// A lawful triangle on a page of at most twelve by twelve, under any clip and in fit lights.
pub fn triangle_drawing(random: &mut Random) -> ShapeCall {
    let mut side = || random.between(1, 12) as u16;
    let (width, height) = (side(), side());
    let clip = clip(random, width, height);
    let near = point_near(random, &clip);
    let pixels = page_length(width, height);
    ShapeCall {
        page: (0..pixels).map(|_| random.bits() as u8).collect(),
        width,
        height,
        lights: fit_lights(random).1,
        clip,
        level: random.bits() as u8,
        shape: Shape::Triangle(triangle(random, near)),
    }
}

pub(crate) fn sides(random: &mut Random) -> (u16, u16) {
    let mut small = || random.between(1, 20) as u16;
    let (width, height) = (small(), small());
    match random.between(0, 63) {
        0 => (1, 1),
        1 => (1024, height),
        2 => (width, 1024),
        3 => (1024, 1024),
        4 => (random.pick(&UNLAWFUL_SIDES), height),
        5 => (width, random.pick(&UNLAWFUL_SIDES)),
        _ => (width, height),
    }
}

/// Random bytes, or all black or white: as many as pixels, some more, or too few.
fn page(random: &mut Random, width: u16, height: u16) -> Vec<u8> {
    // A page of unlawful size may ask for more bytes than there should be.
    let pixels = page_length(width, height).min(1 << 20);
    let surplus = random.between(1, 9) as usize;
    let length = match random.between(0, 19) {
        0 => pixels.saturating_sub(1),
        1 => pixels.saturating_sub(surplus),
        2 => 0,
        3..=9 => pixels + surplus,
        _ => pixels,
    };
    let plain = random.pick(&[None, None, None, Some(0), Some(255)]);
    let byte = |_| plain.unwrap_or_else(|| random.bits() as u8);
    (0..length).map(byte).collect()
}

/// A lawful clip wherever the page is lawful.
pub(crate) fn clip(random: &mut Random, width: u16, height: u16) -> Clip {
    let mut span = |side: u16| match random.between(0, 7) {
        0 => one_or_none(random, side, 0),
        1 | 2 => one_or_none(random, side, 1),
        3 => some_of(random, side),
        _ => most_of(random, side),
    };
    let ((x0, x1), (y0, y1)) = (span(width), span(height));
    Clip { x0, y0, x1, y1 }
}

/// A span of 0 or 1 anywhere on the side.
fn one_or_none(random: &mut Random, side: u16, length: u16) -> (u16, u16) {
    let length = length.min(side);
    let low = random.between(0, i64::from(side - length)) as u16;
    (low, low + length)
}

fn some_of(random: &mut Random, side: u16) -> (u16, u16) {
    let low = random.between(0, i64::from(side));
    let length = random.between(0, (i64::from(side) - low).min(LONGEST_CLIP));
    (low as u16, (low + length) as u16)
}

/// All of a short side, else a piece from its beginning, from its end or about its middle.
fn most_of(random: &mut Random, side: u16) -> (u16, u16) {
    let length = side.min(LONGEST_CLIP as u16);
    let last = side - length;
    let low = random.pick(&[0, last / 2, last]);
    (low, low + length)
}

pub(crate) fn spoil_clip(random: &mut Random, clip: &mut Clip, width: u16, height: u16) {
    let beyond = |side: u16| side.saturating_add(1);
    match random.between(0, 5) {
        0 => clip.x1 = beyond(width),
        1 => clip.y1 = beyond(height),
        2 => clip.x0 = beyond(clip.x1),
        3 => clip.y0 = beyond(clip.y1),
        4 => clip.x1 = u16::MAX,
        _ => clip.y1 = u16::MAX,
    }
}

/// A corner within or about the clip, often on its very edge.
pub(crate) fn point_near(random: &mut Random, clip: &Clip) -> (i64, i64) {
    let mut near = |low: u16, high: u16| {
        let (low, high) = (i64::from(low), i64::from(high));
        match random.between(0, 3) {
            0 => random.pick(&[low, high]),
            1 => random.between(low.min(high) - 3, low.max(high) + 3),
            _ => random.between(low.min(high), low.max(high)),
        }
    };
    (near(clip.x0, clip.x1), near(clip.y0, clip.y1))
}

pub(crate) fn shape(random: &mut Random, near: (i64, i64), clip: &Clip) -> Shape {
    match random.between(0, 15) {
        0..=5 => Shape::Line(line(random, near)),
        6 => Shape::Line(line_between(random, near, last_corner(clip))),
        7..=9 => Shape::Disc(disc(random, near)),
        10..=13 => Shape::Triangle(triangle(random, near)),
        _ => {
            let disc = disc(random, near);
            Shape::Ring(ring(random, disc))
        }
    }
}

/// A line to this corner ends just where the clip does.
fn last_corner(clip: &Clip) -> (i64, i64) {
    (clip.x1.into(), clip.y1.into())
}

pub(crate) fn line(random: &mut Random, near: (i64, i64)) -> Line {
    let (x, y) = near;
    let span = random.between(-30, 30);
    let far = match random.between(0, 9) {
        0 => (x + span, y),
        1 => (x, y + span),
        2 => (x + span, y + random.pick(&[span, -span])),
        3 => (x + random.between(-1, 1), y + random.between(-1, 1)),
        4 | 5 => (x + span, y + random.between(-30, 30)),
        6 => return longest_line(random),
        _ => return line_through(random, near),
    };
    line_between(random, near, far)
}

/// A line whose ends are both far off, and which passes close to a point.
pub(crate) fn line_through(random: &mut Random, (x, y): (i64, i64)) -> Line {
    let (across, down) = (random.between(-12, 12), random.between(-12, 12));
    let (back, forth) = (random.between(100, 250), random.between(100, 250));
    let nudge = random.between(-1, 1);
    let first = (x - back * across, y - back * down);
    let last = (x + forth * across, y + forth * down + nudge);
    line_between(random, first, last)
}

/// A line between two points, either of them its first end.
pub(crate) fn line_between(random: &mut Random, one: (i64, i64), other: (i64, i64)) -> Line {
    let (first, last) = random.pick(&[(one, other), (other, one)]);
    let within = |value: i64| clamped(value.clamp(-4096, 4095));
    Line {
        exact: random.flip(),
        x0: within(first.0),
        y0: within(first.1),
        x1: within(last.0),
        y1: within(last.1),
    }
}

/// A disc about the point, or one whose edge passes it.
fn disc(random: &mut Random, (x, y): (i64, i64)) -> Disc {
    let radius = match random.between(0, 9) {
        0..=2 => random.pick(&[1, 254, 255, 256, 257, 1022, 1023]),
        3..=5 => random.between(1, 12) as u16,
        6..=8 => random.between(1, 255) as u16,
        _ => random.between(256, 1023) as u16,
    };
    let (across, down) = match random.one_in(4) {
        true => (0, 0),
        false => on_circle(random, 0, 0, radius),
    };
    Disc {
        x: clamped(x - across),
        y: clamped(y - down),
        radius,
        big: random.flip(),
    }
}

fn ring(random: &mut Random, disc: Disc) -> Ring {
    let Disc { x, y, radius, big } = disc;
    let any = random.between(1, i64::from(radius)) as u16;
    Ring {
        x,
        y,
        radius,
        width: random.pick(&[1, radius, any, any, any.min(3)]),
        big,
    }
}

/// A lawful triangle with a corner at the point or with the point inside it, now and then far off.
pub fn triangle(random: &mut Random, (x, y): (i64, i64)) -> Triangle {
    // About a point out of range, as an unlawful page may have, no triangle would be lawful.
    let near = (x.clamp(-4000, 4000), y.clamp(-4000, 4000));
    loop {
        let far = (random.between(-4096, 4095), random.between(-4096, 4095));
        let triangle = match random.between(0, 11) {
            0 => triangle_from(random, far),
            1..=4 => triangle_about(random, near),
            _ => triangle_from(random, near),
        };
        if Shape::Triangle(triangle).first_refusal().is_none() {
            return triangle;
        }
    }
}

/// A triangle with one corner below a point, or above it, and two on the other side.
fn triangle_about(random: &mut Random, (x, y): (i64, i64)) -> Triangle {
    let (reach, down) = (random.pick(&[2, 8, 30, 63]), random.pick(&[1, -1]));
    let mut step = || random.between(0, reach);
    let corners = [
        (x - step(), y - down * step()),
        (x + step(), y - down * step()),
        (x + step() - step(), y + down * step()),
    ];
    triangle_between(random, corners)
}

/// Gives the shape a refusal of its kind, or moves it out of range.
fn spoil_shape(random: &mut Random, shape: &mut Shape) {
    if random.one_in(3) {
        return push_outside(random, shape);
    }
    let radius = random.pick(&[0, 0, 1024, u16::MAX]);
    match shape {
        Shape::Line(line) => (line.x1, line.y1) = (line.x0, line.y0),
        Shape::Disc(disc) => disc.radius = radius,
        Shape::Ring(ring) if random.flip() => ring.radius = radius,
        Shape::Ring(ring) => ring.width = random.pick(&[0, ring.radius + 1, u16::MAX]),
        Shape::Triangle(t) if random.flip() => {
            t.x1 = t.x0.saturating_add(random.pick(&[128, 128, 300, -128]));
        }
        Shape::Triangle(t) => (t.x2, t.y2) = random.pick(&[(t.x1, t.y1), (t.x0, t.y0)]),
    }
}
