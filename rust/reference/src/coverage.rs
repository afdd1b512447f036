//! The coverage of one shape at one pixel: area rule, approximate rule and chord rule. That of a
//! triangle has a file of its own.

use crate::refusal::Refused;
use crate::shape::{coordinate_refusal, Line, Shape};
use crate::triangle::triangle_cover;

/// n over d, as the rules give them and never reduced.
#[derive(Clone, Copy, Debug, PartialEq, Eq)]
pub struct Fraction {
    pub n: u64,
    pub d: u64,
}

pub(crate) fn fraction(n: i128, d: i128) -> Fraction {
    let whole = |value: i128| u64::try_from(value).expect("coverage is neither negative nor huge");
    Fraction {
        n: whole(n),
        d: whole(d),
    }
}

/// The coverage query: 7 for the shape, then for the pixel, then 9, 10, 33, 11, 34, 35.
pub fn query(shape: &Shape, x: i16, y: i16) -> Result<Fraction, Refused> {
    let refusal = shape
        .coordinate_refusal()
        .or_else(|| coordinate_refusal(&[x, y]))
        .or_else(|| shape.form_refusal());
    match refusal {
        Some(refusal) => Err(refusal.at(0)),
        None => Ok(own_coverage(shape, x.into(), y.into())),
    }
}

/// The coverage a lawful shape is drawn with: approximate where the line asks for it.
pub fn own_coverage(shape: &Shape, x: i32, y: i32) -> Fraction {
    match shape {
        Shape::Line(line) if !line.exact => approximate_line(line, x, y),
        _ => exact_coverage(shape, x, y),
    }
}

/// The coverage of a lawful shape that decides touches: the area rule for every line.
pub fn exact_coverage(shape: &Shape, x: i32, y: i32) -> Fraction {
    match shape {
        Shape::Line(line) => exact_line(line, x, y),
        Shape::Disc(disc) => {
            let n = disc_cover(disc.radius, x, y, disc.x, disc.y);
            fraction(n, 512)
        }
        Shape::Ring(ring) => {
            let outer = disc_cover(ring.radius, x, y, ring.x, ring.y);
            let inner = disc_cover(ring.radius - ring.width, x, y, ring.x, ring.y);
            fraction(outer - inner, 512)
        }
        Shape::Triangle(triangle) => triangle_cover(triangle, x, y),
    }
}

/// A line in its own columns and rows: the longer span runs along the columns and rows rise.
pub struct Frame {
    /// The longer span.
    pub l: i128,
    /// The shorter span.
    pub s: i128,
    exchanged: bool,
    falls: bool,
    first: (i128, i128),
}

impl Frame {
    pub fn of(line: &Line) -> Frame {
        let (x0, y0) = (i128::from(line.x0), i128::from(line.y0));
        let (x1, y1) = (i128::from(line.x1), i128::from(line.y1));
        // With equal spans x counts as the longer one.
        let exchanged = (y1 - y0).abs() > (x1 - x0).abs();
        let turn = |x, y| if exchanged { (y, x) } else { (x, y) };
        let (one, other) = (turn(x0, y0), turn(x1, y1));
        let (first, last) = if one.0 < other.0 {
            (one, other)
        } else {
            (other, one)
        };
        Frame {
            l: last.0 - first.0,
            s: (last.1 - first.1).abs(),
            exchanged,
            falls: last.1 < first.1,
            first,
        }
    }

    /// Column and row of a pixel, counted from the first end.
    pub fn place(&self, x: i32, y: i32) -> (i128, i128) {
        let (x, y) = (i128::from(x), i128::from(y));
        let (x, y) = if self.exchanged { (y, x) } else { (x, y) };
        let (i, j) = (x - self.first.0, y - self.first.1);
        (i, if self.falls { -j - 1 } else { j })
    }
}

/// P(h): the square of a positive number, else 0.
fn square_above_zero(h: i128) -> i128 {
    if h > 0 {
        h * h
    } else {
        0
    }
}

/// F(i, j) for spans l and s.
fn area_below(l: i128, s: i128, i: i128, j: i128) -> i128 {
    let p = square_above_zero;
    let a = l + 2 * s * i - 2 * l * j;
    let b = a + 2 * s;
    p(b) - p(a) - p(b - 2 * l) + p(a - 2 * l)
}

fn exact_line(line: &Line, x: i32, y: i32) -> Fraction {
    let frame = Frame::of(line);
    let (l, s) = (frame.l, frame.s);
    let (i, j) = frame.place(x, y);
    let d = if s == 0 { 2 } else { 8 * l * s };
    if i < 0 || i >= l {
        fraction(0, d)
    } else if s == 0 {
        fraction(if j == 0 || j == -1 { 1 } else { 0 }, d)
    } else {
        fraction(area_below(l, s, i, j) - area_below(l, s, i, j + 1), d)
    }
}

fn approximate_line(line: &Line, x: i32, y: i32) -> Fraction {
    let frame = Frame::of(line);
    let (l, s) = (frame.l, frame.s);
    let (i, j) = frame.place(x, y);
    if i < 0 || i >= l {
        return fraction(0, 4 * l);
    }
    let q = (l + 2 * s * i) / (2 * l);
    let r = (l + 2 * s * i) % (2 * l);
    let t = r + 2 * s - 2 * l;
    let n = if t <= 0 {
        match j - q {
            0 => 2 * r + 2 * s,
            -1 => 4 * l - 2 * r - 2 * s,
            _ => 0,
        }
    } else {
        match j - q {
            1 => t,
            0 => 4 * l - 2 * s,
            -1 => 4 * l - 2 * r - 2 * s + t,
            _ => 0,
        }
    };
    fraction(n, 4 * l)
}

/// Y(k): the whole number nearest to 256 times the square root of radius² − k², and 0 beyond. Above
/// radius 256 it may lie on a row line that the circle passes, or does not reach.
pub fn height(radius: u16, k: i128) -> i128 {
    let radius = i128::from(radius);
    if k > radius {
        return 0;
    }
    // y is the nearest once twice the root lies below 2·y + 1; the first such y is wanted.
    let four_squares = (1 << 18) * (radius * radius - k * k);
    let reached = |y: i128| four_squares < (2 * y + 1) * (2 * y + 1);
    let (mut low, mut high) = (0, 256 * radius);
    while low < high {
        let middle = (low + high) / 2;
        if reached(middle) {
            high = middle;
        } else {
            low = middle + 1;
        }
    }
    low
}

/// The 512ths of a pixel that the disc covers.
fn disc_cover(radius: u16, x: i32, y: i32, centre_x: i16, centre_y: i16) -> i128 {
    if radius == 0 {
        return 0;
    }
    let fold = |c: i128| if c < 0 { -c - 1 } else { c };
    let across = fold(i128::from(x) - i128::from(centre_x));
    let down = fold(i128::from(y) - i128::from(centre_y));
    let (m, n) = (across.min(down), across.max(down));
    chord_cover(height(radius, m), height(radius, m + 1), n)
}

/// C(m) + C(m + 1), from the heights Y(m) and Y(m + 1).
pub fn chord_cover(one: i128, next: i128, n: i128) -> i128 {
    let inside = |height: i128| (height - 256 * n).clamp(0, 256);
    inside(one) + inside(next)
}

#[cfg(test)]
mod tests {
    use super::*;
    use crate::refusal::Refusal;
    use crate::shape::{Disc, Ring, LARGEST_RADIUS};

    #[test]
    fn heights_are_nearest_and_without_ties() {
        for radius in 1..=LARGEST_RADIUS {
            for k in 0..i128::from(radius) {
                let y = height(radius, k);
                let squares = (1 << 18) * (i128::from(radius).pow(2) - k * k);
                assert!((2 * y - 1).pow(2) < squares && squares < (2 * y + 1).pow(2));
            }
            assert_eq!(height(radius, i128::from(radius)), 0);
        }
    }

    #[test]
    fn a_column_of_a_line_adds_up_to_one() {
        for (x1, y1) in [(7, 3), (7, 7), (7, 0), (-5, 9), (1, -1), (-8, -3)] {
            for exact in [true, false] {
                let line = Line {
                    exact,
                    x0: 0,
                    y0: 0,
                    x1,
                    y1,
                };
                let steep = y1.abs() > x1.abs();
                let at = |i: i32, j: i32| if steep { (j, i) } else { (i, j) };
                let total = |i: i32| {
                    let covers = (-12..12).map(|j| at(i, j));
                    let covers = covers.map(|(x, y)| own_coverage(&Shape::Line(line), x, y));
                    covers.fold((0, 0), |sum, cover| (sum.0 + cover.n, cover.d))
                };
                let totals = (-12..12).map(total);
                let (whole, others): (Vec<_>, Vec<_>) = totals.partition(|(n, d)| n == d);
                assert_eq!(whole.len(), x1.unsigned_abs().max(y1.unsigned_abs()).into());
                assert!(others.iter().all(|(n, _)| *n == 0), "{line:?}: {others:?}");
            }
        }
    }

    #[test]
    fn refusals_come_in_order() {
        for big in [false, true] {
            let ring = |radius, width, x| {
                let (centre, y) = (0, 0);
                let ring = Shape::Ring(Ring {
                    x: centre,
                    y,
                    radius,
                    width,
                    big,
                });
                query(&ring, x, y).map_err(|refused| refused.number)
            };
            assert_eq!(ring(0, 0, 4096), Err(Refusal::Coordinate.number()));
            assert_eq!(ring(0, 0, 0), Err(Refusal::Radius.number()));
            assert_eq!(ring(1024, 0, 0), Err(Refusal::RadiusTooLarge.number()));
            assert_eq!(ring(u16::MAX, 1, 0), Err(Refusal::RadiusTooLarge.number()));
            assert_eq!(ring(1023, 1024, 0), Err(Refusal::RingWidth.number()));
            assert_eq!(ring(1023, 0, 0), Err(Refusal::RingWidth.number()));
            assert_eq!(ring(1023, 1023, 0), Ok(Fraction { n: 512, d: 512 }));
        }
    }

    fn disc_query(radius: u16, x: i16, y: i16) -> Fraction {
        let disc = Shape::Disc(Disc {
            x: 0,
            y: 0,
            radius,
            big: false,
        });
        query(&disc, x, y).expect("a lawful disc")
    }

    /// Next to its top a circle of radius 257 is below row line 257, and the height is on it.
    #[test]
    fn a_height_may_round_up_to_a_row_line() {
        assert_eq!(height(257, 1), 256 * 257);
        for (x, y) in [(0, 256), (-1, 256), (256, 0), (-257, -1)] {
            assert_eq!(disc_query(257, x, y), Fraction { n: 512, d: 512 });
        }
    }

    /// The circle passes row line 268: 273² − 52² = 268² + 1. The height is on that line.
    #[test]
    fn a_height_may_round_down_to_a_row_line() {
        assert_eq!(273_i128.pow(2) - 52_i128.pow(2), 268_i128.pow(2) + 1);
        assert_eq!(height(273, 52), 256 * 268);
        for (x, y) in [(52, 268), (-53, 268), (268, 52), (-269, -53)] {
            assert_eq!(disc_query(273, x, y), Fraction { n: 0, d: 512 });
        }
    }

    /// Up to radius 256 a height lies on a row line only where the circle does.
    #[test]
    fn heights_on_row_lines() {
        let on_a_line = |radius: u16| {
            let square = |k: i128| i128::from(radius).pow(2) - k * k;
            let heights = (0..i128::from(radius)).map(|k| (height(radius, k), square(k)));
            let mut on_lines = heights.filter(|(y, _)| y % 256 == 0);
            on_lines.all(|(y, square)| (y / 256).pow(2) == square)
        };
        assert!((1..=256).all(on_a_line));
        assert!((257..=LARGEST_RADIUS).any(|radius| !on_a_line(radius)));
    }
}
