//! Classes of inputs, and how often a run met each.

use reference::shape::{Line, Shape, Triangle};
use std::collections::BTreeMap;

/// Counts the inputs of each class, so that a test can show what its random inputs reached.
#[derive(Default)]
pub struct Tally {
    met: BTreeMap<String, u32>,
}

impl Tally {
    pub fn meet(&mut self, classes: Vec<String>) {
        for class in classes {
            *self.met.entry(class).or_default() += 1;
        }
    }

    /// Panics unless each of the classes was met at least so often.
    pub fn require(&self, wanted: Vec<String>, least: u32) {
        for class in wanted {
            let count = self.met.get(&class).copied().unwrap_or(0);
            assert!(count >= least, "only {count} inputs of class `{class}`");
        }
    }
}

pub fn kind(shape: &Shape) -> &'static str {
    match shape {
        Shape::Line(line) if line.exact => "exact",
        Shape::Line(_) => "approximate",
        Shape::Disc(_) => "disc",
        Shape::Ring(_) => "ring",
        Shape::Triangle(_) => "triangle",
    }
}

/// Whether one byte holds the radius, and how many bytes it would be written in.
pub fn bytes_class(radius: u16, big: bool) -> String {
    let radius = if radius > 255 { "above" } else { "up to" };
    let bytes = if big { "two bytes" } else { "one byte" };
    format!("of a radius {radius} 255 for {bytes}")
}

/// The spans of a line, with their signs.
pub fn signed_spans(line: &Line) -> (i64, i64) {
    let span = |from: i16, to: i16| i64::from(to) - i64::from(from);
    (span(line.x0, line.x1), span(line.y0, line.y1))
}

/// How a line lies: its spread, and the signs of its spans.
pub fn direction(line: &Line) -> String {
    let (dx, dy) = signed_spans(line);
    let spread = match dx.abs().min(dy.abs()) {
        0 => "s = 0",
        _ if dx.abs() == dy.abs() => "s = l",
        _ if dy.abs() > dx.abs() => "steep",
        _ => "flat",
    };
    format!("{spread} towards {} {}", dx.signum(), dy.signum())
}

/// Every direction that a lawful line can have.
pub fn directions() -> Vec<String> {
    let mut directions = Vec::new();
    for x in [-1, 0, 1] {
        for y in [-1, 0, 1].into_iter().filter(|y| (x, *y) != (0, 0)) {
            let spreads = if x * y == 0 {
                &["s = 0"][..]
            } else {
                &["s = l", "flat", "steep"]
            };
            directions.extend(spreads.iter().map(|s| format!("{s} towards {x} {y}")));
        }
    }
    directions
}

/// What the sides of a triangle are like, how large it is, and which way its corners go round.
pub const TRIANGLES: [&str; 9] = [
    "with an upright side",
    "with a level side",
    "of width 1",
    "of height 1",
    "of width 127",
    "of height 127",
    "of a small area",
    "turning one way",
    "turning the other way",
];

/// Those of them that a triangle is in.
pub fn triangle_classes(triangle: &Triangle) -> Vec<String> {
    let corners = triangle.corners();
    let [(x0, y0), (x1, y1), (x2, y2)] = corners.map(|(x, y)| (i32::from(x), i32::from(y)));
    let width = x0.max(x1).max(x2) - x0.min(x1).min(x2);
    let height = y0.max(y1).max(y2) - y0.min(y1).min(y2);
    let twice_area = (x1 - x0) * (y2 - y0) - (x2 - x0) * (y1 - y0);
    let met = [
        x0 == x1 || x1 == x2 || x2 == x0,
        y0 == y1 || y1 == y2 || y2 == y0,
        width == 1,
        height == 1,
        width == 127,
        height == 127,
        twice_area.abs() < width.max(height),
        twice_area > 0,
        twice_area < 0,
    ];
    let met = TRIANGLES.into_iter().zip(met).filter(|(_, met)| *met);
    met.map(|(class, _)| class.to_string()).collect()
}
