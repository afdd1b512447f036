//! The shapes that can be asked about and drawn.

/// A line one pixel thick between two corners.
#[derive(Clone, Copy, Debug, PartialEq, Eq)]
pub struct Line {
    /// Exact areas if true, the cheaper approximation if false.
    pub exact: bool,
    pub x0: i16,
    pub y0: i16,
    pub x1: i16,
    pub y1: i16,
}

/// A filled circle, radius 1 to 1023.
#[derive(Clone, Copy, Debug, PartialEq, Eq)]
pub struct Disc {
    pub x: i16,
    pub y: i16,
    pub radius: u16,
    /// Written as kind 8, whose radius has two bytes; kind 5 has one byte, for a radius up to 255.
    /// Calls that draw or ask about the disc ignore it.
    pub big: bool,
}

/// A disc less the disc whose radius is smaller by the width; width 1 to the radius.
#[derive(Clone, Copy, Debug, PartialEq, Eq)]
pub struct Ring {
    pub x: i16,
    pub y: i16,
    pub radius: u16,
    pub width: u16,
    /// Written as kind 9, whose radius and width have two bytes each; kind 6 has one byte each, for a
    /// radius up to 255. Calls that draw or ask about the ring ignore it.
    pub big: bool,
}

/// A filled triangle between three corners that are not on one straight line, at most 127 wide and
/// at most 127 high. Their order does not matter to what it covers; a record keeps it.
#[derive(Clone, Copy, Debug, PartialEq, Eq)]
pub struct Triangle {
    pub x0: i16,
    pub y0: i16,
    pub x1: i16,
    pub y1: i16,
    pub x2: i16,
    pub y2: i16,
}

/// Any of the four.
#[derive(Clone, Copy, Debug, PartialEq, Eq)]
pub enum Shape {
    Line(Line),
    Disc(Disc),
    Ring(Ring),
    Triangle(Triangle),
}
