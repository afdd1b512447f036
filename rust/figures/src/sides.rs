//! A triangle: what it covers of each pixel, and of one pixel the areas under the two sides that run
//! over its column.

use crate::canvas::{Canvas, Point, INK, MARK};
use greystroke::{coverage, Fraction, Shape, Triangle};

const SCALE: usize = 128;
const TRIANGLE: Triangle = Triangle {
    x0: 0,
    y0: 0,
    x1: 4,
    y1: 1,
    x2: 1,
    y2: 3,
};
const CORNERS: [Point; 3] = [(0.0, 0.0), (4.0, 1.0), (1.0, 3.0)];
/// The sides over column 0 are y = x/4 and y = 3·x, and cross its pixel in row 0.
const HATCHED: (i16, i16) = (0, 0);
const HATCHES: i16 = 16;

pub fn picture() -> Vec<u8> {
    let mut canvas = Canvas::new((-1, -1), (5, 4), SCALE);
    let squares = canvas.squares();
    let covered = |x, y| coverage(Shape::Triangle(TRIANGLE), x, y).expect("it is lawful");
    for &(x, y) in &squares {
        canvas.shade((x, y), covered(x, y));
    }
    canvas.lattice();
    for hatch in 0..HATCHES {
        let x = (f64::from(hatch) + 0.5) / f64::from(HATCHES);
        let (added, taken) = (x / 4.0, (3.0 * x).min(1.0));
        canvas.stroke((x, added), (x, taken), 1.0, MARK);
        canvas.stroke((x, 0.0), (x, added), 3.0, MARK);
    }
    canvas.outline(&CORNERS, 2.0, INK);
    for corner in CORNERS {
        canvas.dot(corner, 5.0, INK);
    }
    for (x, y) in squares {
        let covered = covered(x, y);
        if (x, y) != HATCHED && covered.n > 0 {
            canvas.text(free_place(x, y), &lowest_terms(covered), INK);
        }
    }
    canvas.numbers();
    canvas.png()
}

/// Only the quotient is laid down, so that the picture shows no n and d as they are answered.
fn lowest_terms(Fraction { n, d }: Fraction) -> String {
    let divisor = (1..=d.min(1000)).rev().find(|k| n % k == 0 && d % k == 0);
    let divisor = divisor.expect("1 divides all");
    match (n / divisor, d / divisor) {
        (1, 1) => "1".to_string(),
        (n, d) => format!("{n}/{d}"),
    }
}

/// The place in the pixel that is furthest from every side, of a few.
fn free_place(x: i16, y: i16) -> Point {
    let middle = (f64::from(x) + 0.5, f64::from(y) + 0.5);
    let steps = || (-2..=2).map(|step| f64::from(step) / 8.0);
    let places = steps().flat_map(|right| steps().map(move |down| (right, down)));
    let places = places.map(|(right, down)| (middle.0 + right, middle.1 + down));
    let room = |place: &Point| (0..3).map(|side| apart(*place, side)).fold(1.0, f64::min);
    let better = |best: Point, place| {
        if room(&place) > room(&best) {
            place
        } else {
            best
        }
    };
    places.fold(middle, better)
}

/// How far a point is from the straight line through a side.
fn apart((x, y): Point, side: usize) -> f64 {
    let ((x0, y0), (x1, y1)) = (CORNERS[side], CORNERS[(side + 1) % 3]);
    let (across, down) = (x1 - x0, y1 - y0);
    let area = (x - x0) * down - (y - y0) * across;
    area.abs() / (across * across + down * down).sqrt()
}
