//! Random shapes, lawful or not, and pixels close enough to them to be covered often.

use crate::notation::triangle_of;
use crate::random::Random;
use reference::shape::{Disc, Line, Ring, Shape, Triangle};

const EDGES: [i16; 9] = [-4096, -4095, -1024, -1, 0, 1, 1024, 4094, 4095];
pub(crate) const OUTSIDE: [i16; 4] = [i16::MIN, -4097, 4096, i16::MAX];
/// The smallest, and those about the largest of one byte, the largest and the largest of two bytes.
const RADII: [u16; 13] = [
    0,
    1,
    2,
    3,
    5,
    254,
    255,
    256,
    257,
    1022,
    1023,
    1024,
    u16::MAX,
];

/// A number that may have left 16 bits, brought back into them.
pub(crate) fn clamped(value: i64) -> i16 {
    value.clamp(i16::MIN.into(), i16::MAX.into()) as i16
}

fn coordinate(random: &mut Random) -> i16 {
    match random.between(0, 3) {
        0 => random.pick(&EDGES),
        1 => clamped(random.between(-4096, 4095)),
        _ => clamped(random.between(-20, 20)),
    }
}

/// A shape and a pixel to ask about. One in eight has a coordinate out of range.
pub fn shape_and_pixel(random: &mut Random) -> (Shape, i16, i16) {
    let shape = match random.between(0, 6) {
        0..=2 => Shape::Line(line(random)),
        3 => Shape::Disc(disc(random)),
        4 => Shape::Ring(ring(random)),
        _ => Shape::Triangle(triangle(random)),
    };
    with_pixel(random, shape)
}

/// The same of a triangle.
pub fn triangle_and_pixel(random: &mut Random) -> (Shape, i16, i16) {
    let triangle = triangle(random);
    with_pixel(random, Shape::Triangle(triangle))
}

fn with_pixel(random: &mut Random, mut shape: Shape) -> (Shape, i16, i16) {
    let (mut x, mut y) = pixel_near(random, &shape);
    if random.one_in(16) {
        push_outside(random, &mut shape);
    }
    if random.one_in(16) {
        let outside = if random.flip() { &mut x } else { &mut y };
        *outside = random.pick(&OUTSIDE);
    }
    (shape, x, y)
}

pub fn line(random: &mut Random) -> Line {
    let (x0, y0) = (coordinate(random), coordinate(random));
    let (dx, dy) = match random.between(0, 7) {
        0 => (0, 0),
        1 => (random.between(-40, 40), 0),
        2 => (0, random.between(-40, 40)),
        3 => diagonal(random),
        4 => (random.between(-1, 1), random.between(-1, 1)),
        5 => (random.between(-12, 12), random.between(-12, 12)),
        6 => return longest_line(random),
        _ => long_spans(random, x0, y0),
    };
    let within = |value: i64| clamped(value.clamp(-4096, 4095));
    Line {
        exact: random.flip(),
        x0,
        y0,
        x1: within(i64::from(x0) + dx),
        y1: within(i64::from(y0) + dy),
    }
}

fn diagonal(random: &mut Random) -> (i64, i64) {
    let span = random.between(1, 60);
    (random.pick(&[span, -span]), random.pick(&[span, -span]))
}

/// A line from one limit of the coordinates to the other, along x or y.
pub(crate) fn longest_line(random: &mut Random) -> Line {
    let (low, high) = random.pick(&[(-4096, 4095), (4095, -4096)]);
    let (a, b) = (coordinate(random), coordinate(random));
    let (x0, y0, x1, y1) = if random.flip() {
        (low, a, high, b)
    } else {
        (a, low, b, high)
    };
    Line {
        exact: random.flip(),
        x0,
        y0,
        x1,
        y1,
    }
}

fn long_spans(random: &mut Random, x0: i16, y0: i16) -> (i64, i64) {
    let (x1, y1) = (coordinate(random), coordinate(random));
    (i64::from(x1) - i64::from(x0), i64::from(y1) - i64::from(y0))
}

fn radius(random: &mut Random) -> u16 {
    match random.between(0, 3) {
        0 => random.pick(&RADII),
        1 => random.between(1, 12) as u16,
        2 => random.between(1, 255) as u16,
        _ => random.between(256, 1023) as u16,
    }
}

pub fn disc(random: &mut Random) -> Disc {
    Disc {
        x: coordinate(random),
        y: coordinate(random),
        radius: radius(random),
        big: random.flip(),
    }
}

pub fn ring(random: &mut Random) -> Ring {
    let Disc { x, y, radius, big } = disc(random);
    let narrow = random.between(1, i64::from(radius.max(1))) as u16;
    let beyond = radius.saturating_add(1);
    let width = random.pick(&[0, 1, narrow, narrow, radius, beyond, u16::MAX]);
    Ring {
        x,
        y,
        radius,
        width,
        big,
    }
}

/// A triangle anywhere; about one in four is too wide, too high, or straight.
pub fn triangle(random: &mut Random) -> Triangle {
    let first = (coordinate(random).into(), coordinate(random).into());
    match random.between(0, 15) {
        0 => triangle_at(random, first, too_large),
        1..=3 => triangle_at(random, first, straight),
        _ => triangle_from(random, first),
    }
}

/// A triangle with a corner here, unless that brings it out of range: tiny, small, of any size, with
/// an upright and a level side, thin, or as large as can be.
pub(crate) fn triangle_from(random: &mut Random, first: (i64, i64)) -> Triangle {
    let ways = match random.between(0, 9) {
        0 | 1 => |random: &mut Random| within(random, 2),
        2..=4 => |random: &mut Random| within(random, 12),
        5 => right_angled,
        6 | 7 => thin,
        8 => largest,
        _ => |random: &mut Random| within(random, 63),
    };
    triangle_at(random, first, ways)
}

/// The ways from the first corner of a triangle to the second and to the third.
type Ways = [(i64, i64); 2];

/// The triangle with such ways from one of its corners.
fn triangle_at(
    random: &mut Random,
    (x, y): (i64, i64),
    ways: impl Fn(&mut Random) -> Ways,
) -> Triangle {
    let [(a, b), (c, d)] = ways(random);
    triangle_between(random, [(x, y), (x + a, y + b), (x + c, y + d)])
}

/// The triangle of these corners, brought into range and named in any order.
pub(crate) fn triangle_between(random: &mut Random, corners: [(i64, i64); 3]) -> Triangle {
    let first = random.between(0, 2) as usize;
    let (next, last) = random.pick(&[(1, 2), (2, 1)]);
    let named = [first, (first + next) % 3, (first + last) % 3].map(|index| corners[index]);
    let within = |value: i64| clamped(value.clamp(-4096, 4095));
    let [(x0, y0), (x1, y1), (x2, y2)] = named;
    triangle_of([x0, y0, x1, y1, x2, y2].map(within))
}

fn within(random: &mut Random, reach: i64) -> Ways {
    let mut step = || random.between(-reach, reach);
    [(step(), step()), (step(), step())]
}

fn right_angled(random: &mut Random) -> Ways {
    let mut leg = || {
        let leg = random.between(1, 127);
        let leg = random.pick(&[1, leg.min(9), leg, 127]);
        random.pick(&[leg, -leg])
    };
    let (across, down) = (leg(), leg());
    random.pick(&[
        [(across, 0), (0, down)],
        [(across, 0), (across, down)],
        [(across, 0), (0, down.signum())],
    ])
}

/// Two sides that leave in almost the same direction.
fn thin(random: &mut Random) -> Ways {
    let mut end = || random.between(-126, 126);
    let (across, down) = (end(), end());
    let along = random.between(1, 4);
    let nudge = (random.between(-1, 1), random.between(-1, 1));
    let short = (across / along + nudge.0, down / along + nudge.1);
    let level = (across, random.between(-1, 1));
    let upright = (random.between(-1, 1), down);
    random.pick(&[
        [(across, down), short],
        [(across, down), short],
        [level, (across / along, level.1.signum())],
        [upright, (upright.0.signum(), down / along)],
    ])
}

/// 127 wide or 127 high, or both.
fn largest(random: &mut Random) -> Ways {
    let mut any = || random.between(0, 127);
    let (wide, high) = (
        [(127, any()), (any(), any())],
        [(any(), 127), (any(), any())],
    );
    let both = [(127, any()), (any(), 127)];
    random.pick(&[wide, high, both])
}

/// 128 or more wide or high.
fn too_large(random: &mut Random) -> Ways {
    let far = random.between(128, 9000);
    let far = random.pick(&[128, 128, far]);
    let far = random.pick(&[far, -far]);
    let mut any = || random.between(-60, 60);
    let (a, b, c) = (any(), any(), any());
    random.pick(&[[(far, a), (b, c)], [(a, far), (b, c)], [(far, 0), (a, 0)]])
}

/// Corners that coincide, or of which one is on the straight line through the others.
fn straight(random: &mut Random) -> Ways {
    let mut step = || random.between(-20, 20);
    let (a, b) = (step(), step());
    let times = random.between(-5, 6);
    random.pick(&[
        [(a, b), (times * a, times * b)],
        [(0, 0), (a, b)],
        [(0, 0), (0, 0)],
    ])
}

/// Moves one coordinate of the shape out of range.
pub(crate) fn push_outside(random: &mut Random, shape: &mut Shape) {
    let coordinates: Vec<&mut i16> = match shape {
        Shape::Line(line) => vec![&mut line.x0, &mut line.y0, &mut line.x1, &mut line.y1],
        Shape::Disc(disc) => vec![&mut disc.x, &mut disc.y],
        Shape::Ring(ring) => vec![&mut ring.x, &mut ring.y],
        Shape::Triangle(t) => vec![
            &mut t.x0, &mut t.y0, &mut t.x1, &mut t.y1, &mut t.x2, &mut t.y2,
        ],
    };
    let chosen = random.between(0, coordinates.len() as i64 - 1);
    let outside = random.pick(&OUTSIDE);
    for (index, coordinate) in (0..).zip(coordinates) {
        if index == chosen {
            *coordinate = outside;
        }
    }
}

/// A pixel within a few steps of the shape; now and then any pixel at all.
fn pixel_near(random: &mut Random, shape: &Shape) -> (i16, i16) {
    if random.one_in(20) {
        return (coordinate(random), coordinate(random));
    }
    let (x, y) = match shape {
        Shape::Line(line) => on_line(random, line),
        Shape::Disc(disc) => on_circle(random, disc.x, disc.y, disc.radius),
        Shape::Ring(ring) => {
            let inner = ring.radius.saturating_sub(ring.width);
            let radius = random.pick(&[ring.radius, inner]);
            on_circle(random, ring.x, ring.y, radius)
        }
        Shape::Triangle(triangle) => in_triangle(random, triangle),
    };
    let (x, y) = (x + random.between(-2, 2), y + random.between(-2, 2));
    (clamped(x.clamp(-4096, 4095)), clamped(y.clamp(-4096, 4095)))
}

fn on_line(random: &mut Random, line: &Line) -> (i64, i64) {
    let (x0, y0) = (i64::from(line.x0), i64::from(line.y0));
    let (dx, dy) = (i64::from(line.x1) - x0, i64::from(line.y1) - y0);
    let longer = dx.abs().max(dy.abs());
    let step = match random.between(0, 3) {
        0 => random.pick(&[0, longer]),
        _ => random.between(0, longer),
    };
    let share = |span: i64| (span * step).checked_div(longer).unwrap_or(0);
    (x0 + share(dx), y0 + share(dy))
}

/// A point on the circle, or for one in four inside it.
pub(crate) fn on_circle(random: &mut Random, x: i16, y: i16, radius: u16) -> (i64, i64) {
    let radius = i64::from(radius.min(1100));
    let across = random.between(-radius, radius);
    let down = (radius * radius - across * across).isqrt();
    let down = match random.between(0, 3) {
        0 => random.between(-down, down),
        1 => down,
        _ => -down,
    };
    let (across, down) = if random.flip() {
        (across, down)
    } else {
        (down, across)
    };
    (i64::from(x) + across, i64::from(y) + down)
}

/// A point on a side of the triangle, a corner of it, or the middle between a side and a corner.
fn in_triangle(random: &mut Random, triangle: &Triangle) -> (i64, i64) {
    let corners = triangle.corners();
    let first = random.between(0, 2) as usize;
    let [(x0, y0), (x1, y1), (x2, y2)] = [0, 1, 2].map(|next: usize| corners[(first + next) % 3]);
    let side = Line {
        exact: true,
        x0,
        y0,
        x1,
        y1,
    };
    let (x, y) = on_line(random, &side);
    match random.one_in(3) {
        true => ((x + i64::from(x2)) / 2, (y + i64::from(y2)) / 2),
        false => (x, y),
    }
}
