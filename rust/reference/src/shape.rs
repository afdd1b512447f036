//! Shapes, settings and records, what records are read and written against, and the first refusal
//! of each.

use crate::refusal::Refusal;

pub const LOWEST_COORDINATE: i16 = -4096;
pub const HIGHEST_COORDINATE: i16 = 4095;
pub const LARGEST_SIDE: u16 = 1024;
pub const LARGEST_RADIUS: u16 = 1023;
/// The largest radius of a record that has one byte for it.
const LARGEST_BYTE: u16 = 255;
pub const LATEST_VERSION: u16 = 2;
/// The greatest width and height of a triangle.
pub const LARGEST_TRIANGLE: u16 = 127;
/// Players are 0 to 7.
pub const PLAYERS: usize = 8;

#[derive(Clone, Copy, Debug, PartialEq, Eq)]
pub struct Line {
    pub exact: bool,
    pub x0: i16,
    pub y0: i16,
    pub x1: i16,
    pub y1: i16,
}

#[derive(Clone, Copy, Debug, PartialEq, Eq)]
pub struct Disc {
    pub x: i16,
    pub y: i16,
    pub radius: u16,
    /// Written as kind 8, whose radius has two bytes; kind 5 has one byte. Only records look at it.
    pub big: bool,
}

#[derive(Clone, Copy, Debug, PartialEq, Eq)]
pub struct Ring {
    pub x: i16,
    pub y: i16,
    pub radius: u16,
    pub width: u16,
    /// Written as kind 9, whose radius and width have two bytes each; kind 6 has one byte each. Only
    /// records look at it.
    pub big: bool,
}

#[derive(Clone, Copy, Debug, PartialEq, Eq)]
pub struct Triangle {
    pub x0: i16,
    pub y0: i16,
    pub x1: i16,
    pub y1: i16,
    pub x2: i16,
    pub y2: i16,
}

impl Triangle {
    /// In the order of its record.
    pub fn corners(&self) -> [(i16, i16); 3] {
        [(self.x0, self.y0), (self.x1, self.y1), (self.x2, self.y2)]
    }

    pub fn width(&self) -> u16 {
        extent([self.x0, self.x1, self.x2])
    }

    pub fn height(&self) -> u16 {
        extent([self.y0, self.y1, self.y2])
    }
}

/// The greatest number less the smallest.
fn extent(numbers: [i16; 3]) -> u16 {
    let [a, b, c] = numbers;
    a.max(b).max(c).abs_diff(a.min(b).min(c))
}

#[derive(Clone, Copy, Debug, PartialEq, Eq)]
pub enum Shape {
    Line(Line),
    Disc(Disc),
    Ring(Ring),
    Triangle(Triangle),
}

/// Keeps the pixels with x0 ≤ x < x1 and y0 ≤ y < y1.
#[derive(Clone, Copy, Debug, PartialEq, Eq)]
pub struct Clip {
    pub x0: u16,
    pub y0: u16,
    pub x1: u16,
    pub y1: u16,
}

#[derive(Clone, Copy, Debug, PartialEq, Eq)]
pub enum Setting {
    Clip(Clip),
    Level(u8),
    Player(u8),
}

#[derive(Clone, Copy, Debug, PartialEq, Eq)]
pub enum Record {
    End,
    Setting(Setting),
    Shape(Shape),
}

/// What records are read and written against: the version of their list, and the size of its page.
#[derive(Clone, Copy, Debug, PartialEq, Eq)]
pub struct Basis {
    pub version: u16,
    pub width: u16,
    pub height: u16,
}

impl Basis {
    /// 2, then 3.
    pub fn first_refusal(&self) -> Option<Refusal> {
        version_refusal(self.version).or_else(|| page_size_refusal(self.width, self.height))
    }
}

/// 2 unless the version is 1 or 2.
pub fn version_refusal(version: u16) -> Option<Refusal> {
    (!(1..=LATEST_VERSION).contains(&version)).then_some(Refusal::WrongVersion)
}

/// 3 unless both sides are from 1 to 1,024.
pub fn page_size_refusal(width: u16, height: u16) -> Option<Refusal> {
    let lawful = |side: u16| (1..=LARGEST_SIDE).contains(&side);
    (!lawful(width) || !lawful(height)).then_some(Refusal::PageSize)
}

/// 7 if any of the numbers is outside the range of coordinates.
pub fn coordinate_refusal(coordinates: &[i16]) -> Option<Refusal> {
    let lawful = |c: &i16| (LOWEST_COORDINATE..=HIGHEST_COORDINATE).contains(c);
    (!coordinates.iter().all(lawful)).then_some(Refusal::Coordinate)
}

/// 31 above the last player.
fn player_refusal(player: u8) -> Option<Refusal> {
    (usize::from(player) >= PLAYERS).then_some(Refusal::Player)
}

/// 10 for 0, then 33 above the largest.
fn radius_refusal(radius: u16, largest: u16) -> Option<Refusal> {
    if radius == 0 {
        Some(Refusal::Radius)
    } else {
        (radius > largest).then_some(Refusal::RadiusTooLarge)
    }
}

/// 11 unless the width is from 1 to the radius.
fn width_refusal(ring: &Ring) -> Option<Refusal> {
    (ring.width == 0 || ring.width > ring.radius).then_some(Refusal::RingWidth)
}

/// 34 if the width or the height is above 127.
fn size_refusal(triangle: &Triangle) -> Option<Refusal> {
    let larger = triangle.width().max(triangle.height());
    (larger > LARGEST_TRIANGLE).then_some(Refusal::TriangleSize)
}

/// 35 if the third corner is on the straight line through the first two: its way from the first is
/// as steep as that of the second, by cross products.
fn straight_refusal(triangle: &Triangle) -> Option<Refusal> {
    let way = |x: i16, y: i16| {
        let across = i64::from(x) - i64::from(triangle.x0);
        (across, i64::from(y) - i64::from(triangle.y0))
    };
    let (second, third) = (way(triangle.x1, triangle.y1), way(triangle.x2, triangle.y2));
    (second.0 * third.1 == third.0 * second.1).then_some(Refusal::StraightCorners)
}

impl Shape {
    /// The first of 7, 9, 10, 33, 11, 34, 35 that the shape's kind has and the shape earns in a call
    /// that draws it.
    pub fn first_refusal(&self) -> Option<Refusal> {
        self.coordinate_refusal().or_else(|| self.form_refusal())
    }

    /// The same of a record, which has one byte for a radius unless it is big.
    fn record_refusal(&self) -> Option<Refusal> {
        let largest = |big| if big { LARGEST_RADIUS } else { LARGEST_BYTE };
        self.coordinate_refusal()
            .or_else(|| self.form_refusal_by(largest))
    }

    /// 7 for a line's ends, a circle's centre or a triangle's corners.
    pub fn coordinate_refusal(&self) -> Option<Refusal> {
        match self {
            Shape::Line(line) => coordinate_refusal(&[line.x0, line.y0, line.x1, line.y1]),
            Shape::Disc(disc) => coordinate_refusal(&[disc.x, disc.y]),
            Shape::Ring(ring) => coordinate_refusal(&[ring.x, ring.y]),
            Shape::Triangle(triangle) => {
                let corners = triangle.corners().map(|(x, y)| [x, y]);
                coordinate_refusal(corners.as_flattened())
            }
        }
    }

    /// 9 for a line; 10, then 33 for a disc; 10, 33, then 11 for a ring; 34, then 35 for a triangle.
    pub fn form_refusal(&self) -> Option<Refusal> {
        self.form_refusal_by(|_| LARGEST_RADIUS)
    }

    /// The same with the largest radius of big shapes and of others.
    fn form_refusal_by(&self, largest: impl Fn(bool) -> u16) -> Option<Refusal> {
        match self {
            Shape::Line(line) => {
                ((line.x0, line.y0) == (line.x1, line.y1)).then_some(Refusal::EqualEnds)
            }
            Shape::Disc(disc) => radius_refusal(disc.radius, largest(disc.big)),
            Shape::Ring(ring) => {
                radius_refusal(ring.radius, largest(ring.big)).or_else(|| width_refusal(ring))
            }
            Shape::Triangle(triangle) => {
                size_refusal(triangle).or_else(|| straight_refusal(triangle))
            }
        }
    }
}

impl Clip {
    /// The clip that keeps every pixel of a page.
    pub fn whole(width: u16, height: u16) -> Clip {
        Clip {
            x0: 0,
            y0: 0,
            x1: width,
            y1: height,
        }
    }

    pub fn keeps(&self, x: u16, y: u16) -> bool {
        self.x0 <= x && x < self.x1 && self.y0 <= y && y < self.y1
    }

    /// How many pixels a lawful clip keeps.
    pub fn pixels(&self) -> u64 {
        u64::from(self.x1 - self.x0) * u64::from(self.y1 - self.y0)
    }

    /// 8 unless the corners are in order and on the page.
    pub fn first_refusal(&self, width: u16, height: u16) -> Option<Refusal> {
        let lawful = self.x0 <= self.x1 && self.x1 <= width && self.y0 <= self.y1;
        (!lawful || self.y1 > height).then_some(Refusal::Clip)
    }
}

impl Record {
    /// The first of 7, 8, 9, 10, 33, 11, 31, 34 and 35 that the record's kind has and its fields earn
    /// on this page.
    pub fn first_refusal(&self, width: u16, height: u16) -> Option<Refusal> {
        match self {
            Record::End | Record::Setting(Setting::Level(_)) => None,
            Record::Setting(Setting::Clip(clip)) => clip.first_refusal(width, height),
            Record::Setting(Setting::Player(player)) => player_refusal(*player),
            Record::Shape(shape) => shape.record_refusal(),
        }
    }
}
