//! The drawing rules as one would first write them in Rust: what the benchmark measures against.
//!
//! A line takes the closed form of each column, with a division for q and r, a clip test for each
//! pixel and a division for each blend. A circle works out its heights by the processor's square
//! root and draws each row of its box: the inside filled, the edges left and right of the centre
//! from one coverage. Heights are in an array on the stack, a shorter one for the radii of one byte.
//! A triangle is drawn row by row between the two sides that cross the row (`baseline_triangle`).
//! In light each blend is a binary search over the middles between neighbouring lights, by cross
//! products.

use crate::baseline_triangle::draw_triangle;
use greystroke::{Clip, Disc, Lights, Line, Refusal, Ring, Shape, Size, Triangle};
use std::ops::Range;

/// What [`greystroke::draw_shape`] does with lights equal to codes, which need no look at them.
pub fn draw_shape(
    page: &mut [u8],
    size: Size,
    _codes: &Lights,
    clip: Clip,
    level: u8,
    shape: Shape,
) -> Result<u64, Refusal> {
    draw(page, size, clip, CodeInk { level }, shape)
}

/// What [`greystroke::draw_shape`] does with any lights.
pub fn draw_shape_in_light(
    page: &mut [u8],
    size: Size,
    lights: &Lights,
    clip: Clip,
    level: u8,
    shape: Shape,
) -> Result<u64, Refusal> {
    draw(page, size, clip, LightInk { lights, level }, shape)
}

fn draw<I: Ink>(
    page: &mut [u8],
    size: Size,
    clip: Clip,
    ink: I,
    shape: Shape,
) -> Result<u64, Refusal> {
    if let Some(refusal) = first_refusal(page.len(), size, clip, shape) {
        return Err(refusal);
    }
    Ok(paint(page, size, clip, ink, shape))
}

/// Draws what has no refusal.
pub(crate) fn paint<I: Ink>(page: &mut [u8], size: Size, clip: Clip, ink: I, shape: Shape) -> u64 {
    let mut canvas = Canvas {
        page,
        width: size.width.into(),
        left: clip.x0.into(),
        top: clip.y0.into(),
        right: clip.x1.into(),
        bottom: clip.y1.into(),
        ink,
    };
    match shape {
        Shape::Line(line) => draw_line(&mut canvas, line),
        Shape::Disc(Disc { x, y, radius, .. }) => draw_ring(&mut canvas, x, y, radius, 0),
        Shape::Ring(Ring {
            x,
            y,
            radius,
            width,
            ..
        }) => draw_ring(&mut canvas, x, y, radius, radius - width),
        Shape::Triangle(triangle) => draw_triangle(&mut canvas, triangle),
    }
}

fn first_refusal(length: usize, size: Size, clip: Clip, shape: Shape) -> Option<Refusal> {
    page_refusal(length, size)
        .or_else(|| clip_refusal(clip, size))
        .or_else(|| shape_refusal(shape))
}

pub(crate) fn page_refusal(length: usize, size: Size) -> Option<Refusal> {
    let Size { width, height } = size;
    let lawful_side = |side| (1..=1024).contains(&side);
    if !lawful_side(width) || !lawful_side(height) {
        Some(Refusal::PageSize)
    } else if length < usize::from(width) * usize::from(height) {
        Some(Refusal::PageTooShort)
    } else {
        None
    }
}

pub(crate) fn clip_refusal(clip: Clip, size: Size) -> Option<Refusal> {
    let lawful = clip.x0 <= clip.x1 && clip.x1 <= size.width;
    let lawful = lawful && clip.y0 <= clip.y1 && clip.y1 <= size.height;
    (!lawful).then_some(Refusal::Clip)
}

pub(crate) fn shape_refusal(shape: Shape) -> Option<Refusal> {
    let outside = |corners: &[i16]| corners.iter().any(|c| !(-4096..=4095).contains(c));
    let (far, form) = match shape {
        Shape::Line(l) => {
            let equal = (l.x0, l.y0) == (l.x1, l.y1);
            let form = equal.then_some(Refusal::EqualEnds);
            (outside(&[l.x0, l.y0, l.x1, l.y1]), form)
        }
        Shape::Disc(d) => (outside(&[d.x, d.y]), radius_refusal(d.radius)),
        Shape::Ring(r) => {
            let lawful = (1..=r.radius).contains(&r.width);
            let width = (!lawful).then_some(Refusal::RingWidth);
            (outside(&[r.x, r.y]), radius_refusal(r.radius).or(width))
        }
        Shape::Triangle(t) => {
            let corners = [t.x0, t.y0, t.x1, t.y1, t.x2, t.y2];
            (outside(&corners), triangle_refusal(t))
        }
    };
    if far {
        Some(Refusal::Coordinate)
    } else {
        form
    }
}

fn radius_refusal(radius: u16) -> Option<Refusal> {
    match radius {
        0 => Some(Refusal::Radius),
        1..=1023 => None,
        _ => Some(Refusal::RadiusTooLarge),
    }
}

fn triangle_refusal(t: Triangle) -> Option<Refusal> {
    let [x0, y0, x1, y1, x2, y2] = [t.x0, t.y0, t.x1, t.y1, t.x2, t.y2].map(i64::from);
    let width = x0.max(x1).max(x2) - x0.min(x1).min(x2);
    let height = y0.max(y1).max(y2) - y0.min(y1).min(y2);
    if width > 127 || height > 127 {
        Some(Refusal::TriangleSize)
    } else if (x1 - x0) * (y2 - y0) == (x2 - x0) * (y1 - y0) {
        Some(Refusal::StraightCorners)
    } else {
        None
    }
}

/// A level, and how a byte is blended with it.
pub(crate) trait Ink {
    fn level(&self) -> u8;

    fn blend(&self, old: u8, n: u64, d: u64) -> u8;

    /// The same with a coverage of n over 512.
    fn blend_512(&self, old: u8, n: u32) -> u8;
}

/// Codes are blended as they stand.
pub(crate) struct CodeInk {
    pub(crate) level: u8,
}

impl Ink for CodeInk {
    fn level(&self) -> u8 {
        self.level
    }

    fn blend(&self, old: u8, n: u64, d: u64) -> u8 {
        let sum = u64::from(old) * (d - n) + u64::from(self.level) * n;
        ((2 * sum + d) / (2 * d)) as u8
    }

    fn blend_512(&self, old: u8, n: u32) -> u8 {
        let sum = u32::from(old) * (512 - n) + u32::from(self.level) * n;
        ((sum + 256) / 512) as u8
    }
}

/// Codes are turned into light.
pub(crate) struct LightInk<'a> {
    pub(crate) lights: &'a Lights,
    pub(crate) level: u8,
}

impl Ink for LightInk<'_> {
    fn level(&self) -> u8 {
        self.level
    }

    /// The first code whose light is nearer than the next one's.
    fn blend(&self, old: u8, n: u64, d: u64) -> u8 {
        let lights = self.lights.as_slice();
        let light = |code: usize| u64::from(lights[code]);
        let blended = light(old.into()) * (d - n) + light(self.level.into()) * n;
        let (mut low, mut high) = (0, 255);
        while low < high {
            let code = (low + high) / 2;
            if 2 * blended < (light(code) + light(code + 1)) * d {
                high = code;
            } else {
                low = code + 1;
            }
        }
        low as u8
    }

    fn blend_512(&self, old: u8, n: u32) -> u8 {
        self.blend(old, n.into(), 512)
    }
}

/// A page with the clip and the ink in force.
pub(crate) struct Canvas<'a, I> {
    page: &'a mut [u8],
    width: i64,
    pub(crate) left: i64,
    pub(crate) top: i64,
    right: i64,
    pub(crate) bottom: i64,
    ink: I,
}

impl<I: Ink> Canvas<'_, I> {
    /// Blends one pixel, if the clip keeps it and something covers it; says how many were touched.
    fn touch(&mut self, x: i64, y: i64, n: u64, d: u64) -> u64 {
        let kept = self.left <= x && x < self.right && self.top <= y && y < self.bottom;
        if !kept || n == 0 {
            return 0;
        }
        let byte = &mut self.page[(y * self.width + x) as usize];
        *byte = self.ink.blend(*byte, n, d);
        1
    }

    /// The bytes of a row from one column to another, both brought into the clip, and the ink.
    pub(crate) fn stretch(&mut self, y: i64, from: i64, end: i64) -> (&mut [u8], &I) {
        let from = from.clamp(self.left, self.right);
        let end = end.clamp(from, self.right);
        let row = y * self.width;
        let bytes = &mut self.page[(row + from) as usize..(row + end) as usize];
        (bytes, &self.ink)
    }
}

/// A line in its own columns and rows: the longer span runs along the columns and rows rise.
struct Frame {
    l: i64,
    s: i64,
    exchanged: bool,
    falls: bool,
    first: (i64, i64),
}

impl Frame {
    fn of(line: Line) -> Frame {
        let (x0, y0) = (i64::from(line.x0), i64::from(line.y0));
        let (x1, y1) = (i64::from(line.x1), i64::from(line.y1));
        let exchanged = (y1 - y0).abs() > (x1 - x0).abs();
        let turn = |x, y| if exchanged { (y, x) } else { (x, y) };
        let (one, other) = (turn(x0, y0), turn(x1, y1));
        let rises = one.0 < other.0;
        let (first, last) = if rises { (one, other) } else { (other, one) };
        Frame {
            l: last.0 - first.0,
            s: (last.1 - first.1).abs(),
            exchanged,
            falls: last.1 < first.1,
            first,
        }
    }

    /// The pixel in column i and row j.
    fn pixel(&self, i: i64, j: i64) -> (i64, i64) {
        let along = self.first.0 + i;
        let across = self.first.1 + if self.falls { -j - 1 } else { j };
        if self.exchanged {
            (across, along)
        } else {
            (along, across)
        }
    }

    fn denominator(&self, exact: bool) -> u64 {
        let d = match exact {
            true if self.s == 0 => 2,
            true => 8 * self.l * self.s,
            false => 4 * self.l,
        };
        d as u64
    }

    /// What rows q + 1, q and q − 1 of a column with rest r have.
    fn rows(&self, exact: bool, r: i64) -> [u64; 3] {
        let (l, s) = (self.l, self.s);
        let t = (r + 2 * s - 2 * l).max(0);
        let rows = if !exact {
            [t, 2 * (r + s) - 2 * t, 4 * l + t - 2 * (r + s)]
        } else if s == 0 {
            [0, 1, 1]
        } else {
            let rise = 4 * s * (r + s);
            [t * t, rise - 2 * t * t, 8 * l * s + t * t - rise]
        };
        rows.map(|n| n as u64)
    }
}

fn draw_line<I: Ink>(canvas: &mut Canvas<I>, line: Line) -> u64 {
    let frame = Frame::of(line);
    let d = frame.denominator(line.exact);
    let (from, end) = if frame.exchanged {
        (canvas.top, canvas.bottom)
    } else {
        (canvas.left, canvas.right)
    };
    let mut touched = 0;
    for i in (from - frame.first.0).max(0)..(end - frame.first.0).min(frame.l) {
        let height = (frame.l + 2 * frame.s * i) as u64;
        let whole = 2 * frame.l as u64;
        let (q, r) = ((height / whole) as i64, (height % whole) as i64);
        for (j, n) in [q + 1, q, q - 1].into_iter().zip(frame.rows(line.exact, r)) {
            let (x, y) = frame.pixel(i, j);
            touched += canvas.touch(x, y, n, d);
        }
    }
    touched
}

/// The heights of one circle, 256 times as high: more than its radius, as those past it are 0.
struct Circle<const HEIGHTS: usize> {
    radius: usize,
    heights: [u32; HEIGHTS],
}

impl<const HEIGHTS: usize> Circle<HEIGHTS> {
    fn of(radius: u16) -> Circle<HEIGHTS> {
        let mut circle = Circle {
            radius: radius.into(),
            heights: [0; HEIGHTS],
        };
        let square = i64::from(radius) * i64::from(radius);
        for (k, height) in (0..i64::from(radius)).zip(&mut circle.heights) {
            *height = height_of(square - k * k);
        }
        circle
    }

    /// The 512ths covered at the distances `across` and `down` from the centre.
    fn cover(&self, across: usize, down: usize) -> u32 {
        let (m, n) = (across.min(down), across.max(down) as u32);
        let chord = |k: usize| self.heights[k].saturating_sub(256 * n).min(256);
        chord(m) + chord(m + 1)
    }

    /// How many pixels of a row, from the centre outwards, are whole, and how many are touched.
    fn widths(&self, down: usize) -> (usize, usize) {
        let mut whole = (self.heights[down + 1] / 256) as usize;
        while whole > 0 && self.cover(whole - 1, down) < 512 {
            whole -= 1;
        }
        let mut touched = self.heights[down].div_ceil(256) as usize;
        while self.cover(touched, down) > 0 {
            touched += 1;
        }
        (whole, touched)
    }
}

/// The whole number nearest to 256 times the square root: the processor's root, put right by test.
fn height_of(square: i64) -> u32 {
    let m = square << 18;
    let mut y = (256.0 * (square as f64).sqrt() + 0.5) as i64;
    while m < (2 * y - 1) * (2 * y - 1) {
        y -= 1;
    }
    while (2 * y + 1) * (2 * y + 1) < m {
        y += 1;
    }
    y as u32
}

/// The distance of a pixel from the centre along one axis.
fn apart(centre: i64, c: i64) -> usize {
    let distance = if c < centre {
        centre - c - 1
    } else {
        c - centre
    };
    distance as usize
}

fn draw_ring<I: Ink>(canvas: &mut Canvas<I>, x: i16, y: i16, radius: u16, hole: u16) -> u64 {
    let (x, y) = (i64::from(x), i64::from(y));
    let reach = i64::from(radius);
    let top = (y - reach).max(canvas.top);
    let bottom = (y + reach).min(canvas.bottom);
    if top >= bottom || x + reach <= canvas.left || canvas.right <= x - reach {
        return 0;
    }
    // It would take longer to clear a long array than to draw a small circle.
    match radius {
        0..=255 => draw_rows::<I, 257>(canvas, (x, y), top..bottom, radius, hole),
        _ => draw_rows::<I, 1025>(canvas, (x, y), top..bottom, radius, hole),
    }
}

fn draw_rows<I: Ink, const HEIGHTS: usize>(
    canvas: &mut Canvas<I>,
    (x, y): (i64, i64),
    rows: Range<i64>,
    radius: u16,
    hole: u16,
) -> u64 {
    let outer = Circle::<HEIGHTS>::of(radius);
    if hole == 0 {
        let rows = rows.map(|row| draw_disc_row(canvas, &outer, x, row, apart(y, row)));
        return rows.sum();
    }
    let inner = Circle::<HEIGHTS>::of(hole);
    let rows = rows.map(|row| draw_ring_row(canvas, &outer, &inner, x, row, apart(y, row)));
    rows.sum()
}

fn draw_disc_row<I: Ink, const HEIGHTS: usize>(
    canvas: &mut Canvas<I>,
    circle: &Circle<HEIGHTS>,
    x: i64,
    y: i64,
    down: usize,
) -> u64 {
    let (whole, end) = circle.widths(down);
    fill(canvas, y, x - whole as i64, x + whole as i64)
        + blend_edges(canvas, x, y, whole, end, |across| {
            circle.cover(across, down)
        })
}

/// A row past the hole needs no heights of the inner circle.
fn draw_ring_row<I: Ink, const HEIGHTS: usize>(
    canvas: &mut Canvas<I>,
    outer: &Circle<HEIGHTS>,
    inner: &Circle<HEIGHTS>,
    x: i64,
    y: i64,
    down: usize,
) -> u64 {
    if inner.radius <= down {
        return draw_disc_row(canvas, outer, x, y, down);
    }
    let cover = |across| outer.cover(across, down) - inner.cover(across, down);
    let (whole, end) = outer.widths(down);
    let (hole, edge) = inner.widths(down);
    let edge = edge.min(end);
    let whole = whole.max(edge);
    fill(canvas, y, x - whole as i64, x - edge as i64)
        + fill(canvas, y, x + edge as i64, x + whole as i64)
        + blend_edges(canvas, x, y, whole, end, cover)
        + blend_edges(canvas, x, y, hole, edge, cover)
}

fn fill<I: Ink>(canvas: &mut Canvas<I>, y: i64, from: i64, end: i64) -> u64 {
    let (bytes, ink) = canvas.stretch(y, from, end);
    bytes.fill(ink.level());
    bytes.len() as u64
}

/// Blends what lies `from` to `end` away from the centre: one coverage for the two sides of a row.
fn blend_edges<I: Ink>(
    canvas: &mut Canvas<I>,
    x: i64,
    y: i64,
    from: usize,
    end: usize,
    cover: impl Fn(usize) -> u32,
) -> u64 {
    let reach = end as i64;
    if x - reach < canvas.left || canvas.right < x + reach {
        let touches = (from..end).map(|across| {
            let n = cover(across).into();
            canvas.touch(x + across as i64, y, n, 512)
                + canvas.touch(x - across as i64 - 1, y, n, 512)
        });
        return touches.sum();
    }
    let (bytes, ink) = canvas.stretch(y, x - reach, x + reach);
    let (left, right) = bytes.split_at_mut(end);
    let sides = left[..end - from].iter_mut().rev().zip(&mut right[from..]);
    let mut touched = 0;
    for (across, (left, right)) in (from..end).zip(sides) {
        let n = cover(across);
        *left = ink.blend_512(*left, n);
        *right = ink.blend_512(*right, n);
        touched += if n > 0 { 2 } else { 0 };
    }
    touched
}
