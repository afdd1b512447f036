//! A picture in lattice units, drawn on pixels with soft edges. It serves the figures only, and so
//! it may reckon in floating-point numbers.

use crate::font::{glyph, HEIGHT, WIDTH};
use crate::png::{png, Channels};
use greystroke::Fraction;

type Colour = [u8; 3];
pub type Point = (f64, f64);

const WHITE: Colour = [255, 255, 255];
const LATTICE: Colour = [196, 200, 206];
const COVERED: Colour = [122, 160, 212];
const AXIS: Colour = [110, 116, 126];
pub const INK: Colour = [24, 32, 48];
pub const MARK: Colour = [196, 40, 32];

/// Dots of a digit are squares of so many pixels.
const DOT: usize = 2;
/// Pixels around the lattice, where columns and rows are numbered.
const MARGIN: usize = 36;

pub struct Canvas {
    /// Lattice columns from `left` to `right`, rows from `top` to `bottom`.
    left: i16,
    top: i16,
    right: i16,
    bottom: i16,
    /// Pixels a lattice step.
    scale: usize,
    width: usize,
    pixels: Vec<Colour>,
}

impl Canvas {
    pub fn new((left, top): (i16, i16), (right, bottom): (i16, i16), scale: usize) -> Canvas {
        let steps = |from: i16, to: i16| usize::from(to.abs_diff(from));
        let width = steps(left, right) * scale + 2 * MARGIN;
        let height = steps(top, bottom) * scale + 2 * MARGIN;
        Canvas {
            left,
            top,
            right,
            bottom,
            scale,
            width,
            pixels: vec![WHITE; width * height],
        }
    }

    /// The lattice squares of the picture.
    pub fn squares(&self) -> Vec<(i16, i16)> {
        let row = |y| (self.left..self.right).map(move |x| (x, y));
        (self.top..self.bottom).flat_map(row).collect()
    }

    /// Shades a square by its coverage.
    pub fn shade(&mut self, (x, y): (i16, i16), Fraction { n, d }: Fraction) {
        let share = n as f64 / d as f64;
        let (column, row) = self.pixel((f64::from(x), f64::from(y)));
        for j in 0..self.scale {
            for i in 0..self.scale {
                self.mix(column as usize + i, row as usize + j, COVERED, share);
            }
        }
    }

    /// The lines through the corners.
    pub fn lattice(&mut self) {
        let (left, right) = (f64::from(self.left), f64::from(self.right));
        let (top, bottom) = (f64::from(self.top), f64::from(self.bottom));
        for x in self.left..=self.right {
            self.stroke((f64::from(x), top), (f64::from(x), bottom), 1.0, LATTICE);
        }
        for y in self.top..=self.bottom {
            self.stroke((left, f64::from(y)), (right, f64::from(y)), 1.0, LATTICE);
        }
    }

    /// The numbers of the columns above the lattice, those of the rows left of it.
    pub fn numbers(&mut self) {
        let off = MARGIN as f64 / 2.0 / self.scale as f64;
        let (left, top) = (f64::from(self.left) - off, f64::from(self.top) - off);
        for x in self.left..self.right {
            self.text((f64::from(x) + 0.5, top), &x.to_string(), AXIS);
        }
        for y in self.top..self.bottom {
            self.text((left, f64::from(y) + 0.5), &y.to_string(), AXIS);
        }
    }

    /// A segment of so many pixels' width.
    pub fn stroke(&mut self, from: Point, to: Point, width: f64, colour: Colour) {
        let (a, b) = (self.pixel(from), self.pixel(to));
        let (dx, dy) = (b.0 - a.0, b.1 - a.1);
        let length = distance(dx, dy);
        self.paint(colour, |x, y| {
            let along = ((x - a.0) * dx + (y - a.1) * dy) / (length * length);
            let along = along.clamp(0.0, 1.0);
            width / 2.0 - distance(x - a.0 - along * dx, y - a.1 - along * dy)
        });
    }

    pub fn outline(&mut self, corners: &[Point], width: f64, colour: Colour) {
        for (k, &corner) in corners.iter().enumerate() {
            self.stroke(corner, corners[(k + 1) % corners.len()], width, colour);
        }
    }

    /// A circle's rim of so many pixels' width.
    pub fn rim(&mut self, centre: Point, radius: f64, width: f64, colour: Colour) {
        let (cx, cy) = self.pixel(centre);
        let radius = radius * self.scale as f64;
        self.paint(colour, |x, y| {
            width / 2.0 - (distance(x - cx, y - cy) - radius).abs()
        });
    }

    /// A dot of so many pixels' radius.
    pub fn dot(&mut self, centre: Point, radius: f64, colour: Colour) {
        let (cx, cy) = self.pixel(centre);
        self.paint(colour, |x, y| radius - distance(x - cx, y - cy));
    }

    /// Digits about a point.
    pub fn text(&mut self, centre: Point, text: &str, colour: Colour) {
        let advance = (WIDTH + 1) * DOT;
        let length = text.len() * advance - DOT;
        let (cx, cy) = self.pixel(centre);
        let left = cx as usize - length / 2;
        let top = cy as usize - HEIGHT * DOT / 2;
        for (k, letter) in text.chars().enumerate() {
            for (j, row) in glyph(letter).into_iter().enumerate() {
                for i in (0..WIDTH).filter(|i| row >> (WIDTH - 1 - i) & 1 == 1) {
                    self.block(left + k * advance + i * DOT, top + j * DOT, colour);
                }
            }
        }
    }

    pub fn png(&self) -> Vec<u8> {
        png(self.width, Channels::Colour, &self.pixels.concat())
    }

    fn block(&mut self, left: usize, top: usize, colour: Colour) {
        for y in top..top + DOT {
            for x in left..left + DOT {
                self.mix(x, y, colour, 1.0);
            }
        }
    }

    /// Where a lattice point lies on the pixels, whose middles have whole numbers.
    fn pixel(&self, (x, y): Point) -> Point {
        let scale = self.scale as f64;
        (
            (x - f64::from(self.left)) * scale + MARGIN as f64,
            (y - f64::from(self.top)) * scale + MARGIN as f64,
        )
    }

    /// Paints where a depth, in pixels, is above -1/2, and whole from 1/2 on.
    fn paint(&mut self, colour: Colour, depth: impl Fn(f64, f64) -> f64) {
        for y in 0..self.pixels.len() / self.width {
            for x in 0..self.width {
                let share = depth(x as f64, y as f64) + 0.5;
                self.mix(x, y, colour, share.clamp(0.0, 1.0));
            }
        }
    }

    fn mix(&mut self, x: usize, y: usize, colour: Colour, share: f64) {
        let pixel = &mut self.pixels[y * self.width + x];
        for (channel, ink) in pixel.iter_mut().zip(colour) {
            let (old, new) = (f64::from(*channel), f64::from(ink));
            *channel = (old + (new - old) * share).round() as u8;
        }
    }
}

/// Of operations that every machine rounds alike, so that a figure is the same bytes everywhere.
fn distance(x: f64, y: f64) -> f64 {
    (x * x + y * y).sqrt()
}
