//! The coverage of a triangle at one pixel: the triangle is cut to the pixel's square, and the area
//! of what is left is measured.

use crate::coverage::{fraction, Fraction};
use crate::shape::Triangle;

type Corner = (i128, i128);

/// The share of pixel (x, y) inside a lawful triangle.
pub fn triangle_cover(triangle: &Triangle, x: i32, y: i32) -> Fraction {
    let scale = scale(triangle);
    // The pixel's square is the one from (0, 0) to (scale, scale).
    let place = |(a, b): (i16, i16)| {
        let (a, b) = (i128::from(a), i128::from(b));
        (scale * (a - i128::from(x)), scale * (b - i128::from(y)))
    };
    let polygon = triangle.corners().map(place).to_vec();
    let polygon = cut(polygon, |(x, _)| x);
    let polygon = cut(polygon, |(x, _)| scale - x);
    let polygon = cut(polygon, |(_, y)| y);
    let polygon = cut(polygon, |(_, y)| scale - y);
    // Corners that follow each other are on one side of the triangle, or of the pixel: no product of
    // their coordinates has other parts than those of one side, or of two widths or two heights.
    fraction(exactly(twice_area(&polygon), scale), 2 * scale)
}

/// Magnified so much, every corner that the cutting makes is a whole number: a side crosses a column
/// line at a height of so many parts of its width, and a row line at so many of its height.
fn scale(triangle: &Triangle) -> i128 {
    let [a, b, c] = triangle.corners();
    let spans = [(a, b), (b, c), (c, a)].map(|((x0, y0), (x1, y1))| {
        let span = |from: i16, to: i16| (i128::from(to) - i128::from(from)).abs().max(1);
        span(x0, x1) * span(y0, y1)
    });
    spans.iter().product()
}

/// The part of a polygon where a number that changes evenly along each side is not below 0.
fn cut(polygon: Vec<Corner>, number: impl Fn(Corner) -> i128) -> Vec<Corner> {
    let mut kept = Vec::new();
    for (corner, next) in sides(&polygon) {
        let (here, there) = (number(corner), number(next));
        if here >= 0 {
            kept.push(corner);
        }
        if here.signum() * there.signum() < 0 {
            let crossing = |from: i128, to: i128| exactly(from * there - to * here, there - here);
            kept.push((crossing(corner.0, next.0), crossing(corner.1, next.1)));
        }
    }
    kept
}

/// Each corner of a polygon with the next.
fn sides(polygon: &[Corner]) -> impl Iterator<Item = (Corner, Corner)> + '_ {
    let next = polygon.iter().cycle().skip(1);
    polygon.iter().copied().zip(next.copied())
}

/// The sum over the corners of x times the next y less y times the next x, without its sign.
fn twice_area(polygon: &[Corner]) -> i128 {
    let products = sides(polygon).map(|((x0, y0), (x1, y1))| x0 * y1 - y0 * x1);
    products.sum::<i128>().abs()
}

/// A quotient that is a whole number.
fn exactly(n: i128, d: i128) -> i128 {
    assert_eq!(n % d, 0, "{n} is no multiple of {d}");
    n / d
}

#[cfg(test)]
mod tests {
    use super::*;

    fn triangle(corners: [i16; 6]) -> Triangle {
        let [x0, y0, x1, y1, x2, y2] = corners;
        Triangle {
            x0,
            y0,
            x1,
            y1,
            x2,
            y2,
        }
    }

    fn cover(corners: [i16; 6], x: i32, y: i32) -> (u64, u64) {
        let Fraction { n, d } = triangle_cover(&triangle(corners), x, y);
        (n, d)
    }

    /// Whether the quotient is n over d.
    fn is((a, b): (u64, u64), n: u64, d: u64) -> bool {
        a * d == n * b
    }

    /// The diagonal from (2, 0) to (0, 2) halves two pixels, covers one whole and misses one.
    #[test]
    fn half_a_square_of_four_pixels() {
        let half = [0, 0, 2, 0, 0, 2];
        assert!(is(cover(half, 0, 0), 1, 1));
        assert!(is(cover(half, 1, 0), 1, 2));
        assert!(is(cover(half, 0, 1), 1, 2));
        for (x, y) in [(1, 1), (-1, 0), (0, -1), (2, 0), (0, 2)] {
            assert_eq!(cover(half, x, y).0, 0);
        }
    }

    /// Two sides leave from a corner of the pixel, and each cuts off a sixth of it.
    #[test]
    fn a_pixel_that_two_sides_cross() {
        let wedge = [0, 0, 3, 1, 1, 3];
        assert!(is(cover(wedge, 0, 0), 4, 6));
        assert!(is(cover(wedge, 1, 1), 1, 1));
    }

    /// One row high, half a pixel's area in all, and alike in its two columns.
    #[test]
    fn three_sides_in_one_row() {
        let sliver = [0, 0, 2, 1, 1, 1];
        assert!(is(cover(sliver, 0, 0), 1, 4));
        assert!(is(cover(sliver, 1, 0), 1, 4));
    }

    /// The shares of all pixels add up to the triangle's own area, however its corners are named.
    #[test]
    fn shares_add_up_to_the_area() {
        for corners in [
            [0, 0, 127, 1, 1, 127],
            [-5, 3, 2, -4, 0, 9],
            [7, 7, 8, 7, 8, 8],
            [0, 0, 127, 126, 64, 63],
            [-3, 0, 9, 0, 4, -1],
        ] {
            let [x0, y0, x1, y1, x2, y2] = corners.map(i64::from);
            let twice = ((x1 - x0) * (y2 - y0) - (x2 - x0) * (y1 - y0)).unsigned_abs();
            let pixels = (-10..130).flat_map(|y| (-10..130).map(move |x| (x, y)));
            let covers: Vec<_> = pixels.map(|(x, y)| cover(corners, x, y)).collect();
            let d = covers[0].1;
            assert!(covers.iter().all(|cover| cover.1 == d && cover.0 <= d));
            let total: u64 = covers.iter().map(|cover| cover.0).sum();
            assert!(is((total, d), twice, 2), "{corners:?}");
            let [a, b, c, d, e, f] = corners;
            let turned = [[c, d, a, b, e, f], [e, f, a, b, c, d]];
            for (x, y) in [(0, 0), (1, 0), (7, 7), (63, 63)] {
                let one = cover(corners, x, y);
                assert!(turned.iter().all(|&other| cover(other, x, y) == one));
            }
        }
    }
}
