//! A line of spans 3 and 2 in its frame: what its band covers of each pixel.

use crate::canvas::{Canvas, Point, INK, MARK};
use greystroke::{coverage, Line, Shape};

const SCALE: usize = 128;
const LINE: Line = Line {
    exact: true,
    x0: 0,
    y0: 0,
    x1: 3,
    y1: 2,
};
const START: Point = (0.0, 0.0);
const END: Point = (3.0, 2.0);
/// The segment moved half a step up and down, cut upright at its ends.
const BAND: [Point; 4] = [(0.0, -0.5), (3.0, 1.5), (3.0, 2.5), (0.0, 0.5)];

pub fn picture() -> Vec<u8> {
    let mut canvas = Canvas::new((-1, -1), (4, 3), SCALE);
    let squares = canvas.squares();
    let covered = |x, y| coverage(Shape::Line(LINE), x, y).expect("the line is lawful");
    for &(x, y) in &squares {
        canvas.shade((x, y), covered(x, y));
    }
    canvas.lattice();
    canvas.outline(&BAND, 2.0, INK);
    canvas.stroke(START, END, 3.0, MARK);
    canvas.dot(START, 6.0, MARK);
    canvas.dot(END, 6.0, MARK);
    for (x, y) in squares {
        let covered = covered(x, y);
        if covered.n > 0 {
            let share = format!("{}/{}", covered.n, covered.d);
            canvas.text(free_place(x, y), &share, INK);
        }
    }
    canvas.numbers();
    canvas.png()
}

/// Half way between the segment and the band's edge if that is in the pixel, else its middle:
/// where none of the three goes through a text.
fn free_place(x: i16, y: i16) -> Point {
    let middle = (f64::from(x) + 0.5, f64::from(y) + 0.5);
    let segment = middle.0 * END.1 / END.0;
    let beside = segment + 0.25 * (middle.1 - segment).signum();
    let inside = (beside - middle.1).abs() < 0.5;
    (middle.0, if inside { beside } else { middle.1 })
}
