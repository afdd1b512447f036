//! A disc of radius 5: its heights, the chords between them, and what they cover of each pixel.

use crate::canvas::{Canvas, Point, INK, MARK};
use greystroke::{coverage, Disc, Shape};

const SCALE: usize = 64;
const DISC: Disc = Disc {
    x: 0,
    y: 0,
    radius: 5,
    big: false,
};
/// Up to here a height is at least as far from the centre as its lattice line is. The next height
/// is the corner that the exchange of x and y gives.
const LAST: i16 = 3;

pub fn picture() -> Vec<u8> {
    let mut canvas = Canvas::new((-6, -6), (6, 6), SCALE);
    let squares = canvas.squares();
    let covered = |x, y| coverage(Shape::Disc(DISC), x, y).expect("the disc is lawful");
    for &(x, y) in &squares {
        canvas.shade((x, y), covered(x, y));
    }
    canvas.lattice();
    canvas.rim((0.0, 0.0), f64::from(DISC.radius), 1.0, MARK);

    let corners = corners();
    canvas.outline(&corners, 1.5, INK);
    for corner in corners {
        canvas.dot(corner, 4.0, INK);
    }
    canvas.dot((0.0, 0.0), 3.0, MARK);

    for (x, y) in squares {
        let covered = covered(x, y);
        if 0 < covered.n && covered.n < covered.d {
            let outward = 2 * covered.n <= covered.d;
            canvas.text(free_place(x, y, outward), &covered.n.to_string(), INK);
        }
    }
    canvas.numbers();
    canvas.png()
}

/// Outside the circle where that leaves room for a number in the pixel, else inside.
fn free_place(x: i16, y: i16, outward: bool) -> Point {
    let (x, y) = (f64::from(x) + 0.5, f64::from(y) + 0.5);
    let (right, down) = if outward { (0.19, 0.3) } else { (-0.1, -0.1) };
    (x + right * x.signum(), y + down * y.signum())
}

/// The ends of the heights all around, each chord between two that follow.
fn corners() -> Vec<Point> {
    let mut side: Vec<Point> = (-LAST..=LAST).map(|k| (f64::from(k), height(k))).collect();
    let mut corners = Vec::new();
    for _ in 0..4 {
        corners.extend(&side);
        side = side.into_iter().map(|(x, y)| (y, -x)).collect();
    }
    corners
}

/// Y(k) over 256.
fn height(k: i16) -> f64 {
    let (radius, k) = (f64::from(DISC.radius), f64::from(k));
    (256.0 * (radius * radius - k * k).sqrt()).round() / 256.0
}
