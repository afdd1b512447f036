//! A triangle as one would first write it in Rust.
//!
//! The corners are sorted by y, so that two sides cross each row: the one from the lowest corner to
//! the highest, and one to or from the corner between them. A row has an edge about each of the two,
//! which is blended by areas, and is filled between the edges; where the edges overlap, both sides
//! count.

use crate::baseline::{Canvas, Ink};
use greystroke::Triangle;
use std::ops::Range;

#[derive(Clone, Copy, PartialEq, Eq, PartialOrd, Ord)]
struct Corner {
    y: i32,
    x: i32,
}

/// A side from its lower end upwards.
struct Side {
    from: Corner,
    rise: i32,
    run: i32,
}

impl Side {
    fn between(from: Corner, to: Corner) -> Side {
        Side {
            from,
            rise: to.y - from.y,
            run: to.x - from.x,
        }
    }

    fn in_row(&self, y: i32) -> Crossing {
        let floor = self.from.x * self.rise + self.run * (y - self.from.y);
        Crossing {
            rise: self.rise,
            low: floor.min(floor + self.run),
            high: floor.max(floor + self.run),
        }
    }
}

/// A side in one row: how far left and how far right it comes, in units of which `rise` make a
/// column.
struct Crossing {
    rise: i32,
    low: i32,
    high: i32,
}

impl Crossing {
    /// The columns that it passes through; an upright side passes between two.
    fn columns(&self) -> Range<i32> {
        self.low.div_euclid(self.rise)..-(-self.high).div_euclid(self.rise)
    }

    /// The number of parts that the areas of a pixel are counted in.
    fn parts(&self) -> i32 {
        2 * self.rise * (self.high - self.low)
    }

    /// How many parts of the pixel in a column lie left of the side.
    fn left_of(&self, x: i32) -> i32 {
        let strip = |p: i32| {
            let inside = p.clamp(0, self.rise);
            inside * (2 * p - inside)
        };
        strip(self.high - self.rise * x) - strip(self.low - self.rise * x)
    }
}

pub(crate) fn draw_triangle<I: Ink>(canvas: &mut Canvas<I>, triangle: Triangle) -> u64 {
    let [low, middle, high] = sorted(triangle);
    let long = Side::between(low, high);
    let height = (middle.y - low.y) * long.run;
    let long_is_left = height < (middle.x - low.x) * long.rise;
    let mut touched = 0;
    for (from, to) in [(low, middle), (middle, high)] {
        let short = Side::between(from, to);
        let (left, right) = if long_is_left {
            (&long, &short)
        } else {
            (&short, &long)
        };
        for y in from.y.max(canvas.top as i32)..to.y.min(canvas.bottom as i32) {
            touched += draw_row(canvas, y, &left.in_row(y), &right.in_row(y));
        }
    }
    touched
}

fn sorted(triangle: Triangle) -> [Corner; 3] {
    let corner = |x: i16, y: i16| Corner {
        y: y.into(),
        x: x.into(),
    };
    let mut corners = [
        corner(triangle.x0, triangle.y0),
        corner(triangle.x1, triangle.y1),
        corner(triangle.x2, triangle.y2),
    ];
    corners.sort_unstable();
    corners
}

/// Every pixel from the first column of the left side to the last of the right one is touched.
fn draw_row<I: Ink>(canvas: &mut Canvas<I>, y: i32, left: &Crossing, right: &Crossing) -> u64 {
    let (one, other) = (left.columns(), right.columns());
    let from = one.start.max(canvas.left as i32);
    let (bytes, ink) = canvas.stretch(y.into(), one.start.into(), other.end.into());
    let touched = bytes.len();
    // How many of the bytes are left of a column line.
    let before = |x: i32| (x.max(from) - from).min(touched as i32) as usize;
    let (inside, edge) = (one.end.min(other.start), one.end.max(other.start));
    let (bytes, right_edge) = bytes.split_at_mut(before(edge));
    let (left_edge, middle) = bytes.split_at_mut(before(inside));
    let (d, e) = (left.parts(), right.parts());
    blend(ink, left_edge, from, d, |x| d - left.left_of(x));
    if one.end <= other.start {
        middle.fill(ink.level());
    } else {
        blend(ink, middle, inside.max(from), d * e, |x| {
            right.left_of(x) * d - left.left_of(x) * e
        });
    }
    blend(ink, right_edge, edge.max(from), e, |x| right.left_of(x));
    touched as u64
}

/// Blends bytes from a column on, each by so many of d parts.
fn blend<I: Ink>(ink: &I, bytes: &mut [u8], from: i32, d: i32, n: impl Fn(i32) -> i32) {
    for (x, byte) in (from..).zip(bytes) {
        *byte = ink.blend(*byte, n(x) as u64, d as u64);
    }
}
