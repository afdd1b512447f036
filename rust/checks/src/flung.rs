//! Random pages, clips and lines, lawful or not. Most lines run out of the clip, past its corner or
//! beside it.

use crate::drawings::{clip, line, line_between, line_through, point_near, sides, spoil_clip};
use crate::random::Random;
use crate::rows::{starting_page, ShapeCall};
use crate::strokes::OUTSIDE;
use reference::page::page_length;
use reference::shape::{page_size_refusal, Clip, Line, Shape};

/// The size of a page, a clip and a line.
#[derive(Clone, Copy, Debug)]
pub struct LineCall {
    pub width: u16,
    pub height: u16,
    pub clip: Clip,
    pub line: Line,
}

impl LineCall {
    /// The line in these lights on a page that is long enough; none has to be where the size is
    /// unlawful.
    pub fn drawing(&self, lights: Vec<u16>) -> ShapeCall {
        let lawful = page_size_refusal(self.width, self.height).is_none();
        let pixels = page_length(self.width, self.height);
        ShapeCall {
            page: starting_page(if lawful { pixels } else { 0 }),
            width: self.width,
            height: self.height,
            lights,
            clip: self.clip,
            level: 200,
            shape: Shape::Line(self.line),
        }
    }
}

/// A size, a clip and a line; about one in five is turned down.
pub fn line_call(random: &mut Random) -> LineCall {
    let (width, height) = sides(random);
    let mut clip = match random.one_in(4) {
        true => strip(random, width, height),
        false => clip(random, width, height),
    };
    let mut line = line_about(random, &clip);
    if random.one_in(12) {
        spoil_clip(random, &mut clip, width, height);
    }
    if random.one_in(12) {
        spoil_line(random, &mut line);
    }
    LineCall {
        width,
        height,
        clip,
        line,
    }
}

/// A few rows over all columns of the page, or a few columns over all its rows.
fn strip(random: &mut Random, width: u16, height: u16) -> Clip {
    let whole = Clip::whole(width, height);
    let mut few = |side: u16| {
        let low = random.between(0, side.into()) as u16;
        let count = random.between(0, 3) as u16;
        (low, low.saturating_add(count).min(side))
    };
    let ((x0, x1), (y0, y1)) = (few(width), few(height));
    match random.flip() {
        true => Clip { x0, x1, ..whole },
        false => Clip { y0, y1, ..whole },
    }
}

/// A line made flat for the clip, or for the clip with x and y exchanged, and turned back.
fn line_about(random: &mut Random, clip: &Clip) -> Line {
    let &Clip { x0, y0, x1, y1 } = clip;
    if random.flip() {
        return flat_line_about(random, clip);
    }
    let exchanged = Clip {
        x0: y0,
        y0: x0,
        x1: y1,
        y1: x1,
    };
    let line = flat_line_about(random, &exchanged);
    Line {
        exact: line.exact,
        x0: line.y0,
        y0: line.x0,
        x1: line.y1,
        y1: line.x1,
    }
}

fn flat_line_about(random: &mut Random, clip: &Clip) -> Line {
    let near = point_near(random, clip);
    match random.between(0, 11) {
        0..=2 => {
            let far = (random.between(-4096, 4095), random.between(-4096, 4095));
            line_between(random, near, far)
        }
        3 | 4 => line_beside(random, clip),
        5 | 6 => line_to_corner(random, clip),
        7 => line_through(random, near),
        _ => line(random, near),
    }
}

/// A line along the clip's first row or its last, or a little off, level or slanted.
fn line_beside(random: &mut Random, clip: &Clip) -> Line {
    let off = random.between(0, 3);
    let y = random.pick(&[i64::from(clip.y0) - off, i64::from(clip.y1) + off]);
    let from = i64::from(clip.x0) - random.between(-4, 40);
    let end = i64::from(clip.x1) + random.between(-4, 40);
    let slight = random.between(-8, 8);
    let slant = random.pick(&[slight, slight, slight, end - from, from - end]);
    line_between(random, (from, y), (end, y + slant))
}

/// A line whose band has an edge through a corner where the clip's rows begin or end: its middle
/// is half a pixel above or below that corner.
fn line_to_corner(random: &mut Random, clip: &Clip) -> Line {
    let x = random.between(clip.x0.into(), clip.x1.into());
    let y = i64::from(random.pick(&[clip.y0, clip.y1]));
    let (across, down) = (random.between(1, 40), random.between(-20, 20));
    let first = (x - across, y - down);
    let last = (x + across, y + down + random.pick(&[-1, 1]));
    line_between(random, first, last)
}

/// Makes the ends coincide, in range or not, or moves one coordinate out of range.
fn spoil_line(random: &mut Random, line: &mut Line) {
    let outside = random.pick(&OUTSIDE);
    match random.between(0, 5) {
        0 => line.x0 = outside,
        1 => line.y0 = outside,
        2 => line.x1 = outside,
        3 => line.y1 = outside,
        4 => (line.x1, line.y1) = (line.x0, line.y0),
        _ => (line.x0, line.x1, line.y1) = (outside, outside, line.y0),
    }
}
