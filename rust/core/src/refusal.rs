//! Why a call was turned down.

use std::error::Error;
use std::fmt::{self, Display, Formatter};

/// A refusal, with the number that the rules give it.
#[derive(Clone, Copy, Debug, PartialEq, Eq)]
pub enum Refusal {
    /// A list does not begin with the letters INK.
    WrongMark = 1,
    /// A version is neither 1 nor 2.
    WrongVersion = 2,
    /// The width or height of a page is outside 1 to 1024.
    PageSize = 3,
    /// A record is of a kind that the version of its list does not have.
    UnknownKind = 4,
    /// A list ends inside its header or a record, or where a record should begin.
    CutShort = 5,
    /// Bytes follow the end record.
    SurplusBytes = 6,
    /// A coordinate of the shape or the pixel is outside −4096 to 4095.
    Coordinate = 7,
    /// A clip's corners are out of order or off the page.
    Clip = 8,
    /// The two ends of a line are the same corner.
    EqualEnds = 9,
    /// A radius is 0.
    Radius = 10,
    /// A ring's width is 0 or above its radius.
    RingWidth = 11,
    /// A list has more than 65,536 bytes.
    ListTooLong = 12,
    /// The page has fewer bytes than pixels.
    PageTooShort = 21,
    /// The list being written has no room for what is to be written, or the place of a record is
    /// inside the header; or a squeezed list is longer than the bytes lent for it.
    NoRoom = 22,
    /// A player is above 7.
    Player = 31,
    /// Lights are not 256 in number, or not strictly rising.
    Lights = 32,
    /// A radius is above 1023, or above 255 in a record that has one byte for it.
    RadiusTooLarge = 33,
    /// A triangle is more than 127 wide or more than 127 high.
    TriangleSize = 34,
    /// The corners of a triangle are on one straight line.
    StraightCorners = 35,
}

impl Refusal {
    const ALL: [Refusal; 19] = [
        Refusal::WrongMark,
        Refusal::WrongVersion,
        Refusal::PageSize,
        Refusal::UnknownKind,
        Refusal::CutShort,
        Refusal::SurplusBytes,
        Refusal::Coordinate,
        Refusal::Clip,
        Refusal::EqualEnds,
        Refusal::Radius,
        Refusal::RingWidth,
        Refusal::ListTooLong,
        Refusal::PageTooShort,
        Refusal::NoRoom,
        Refusal::Player,
        Refusal::Lights,
        Refusal::RadiusTooLarge,
        Refusal::TriangleSize,
        Refusal::StraightCorners,
    ];

    pub fn number(self) -> u64 {
        self as u64
    }

    /// What was refused, in words.
    pub fn reason(self) -> &'static str {
        match self {
            Refusal::WrongMark => "the list does not begin with the letters INK",
            Refusal::WrongVersion => "the version is neither 1 nor 2",
            Refusal::PageSize => "the width or height of the page is outside 1 to 1,024",
            Refusal::UnknownKind => "the version of the list has no record of this kind",
            Refusal::CutShort => "the list is cut short",
            Refusal::SurplusBytes => "bytes follow the end record",
            Refusal::Coordinate => "a coordinate is outside -4,096 to 4,095",
            Refusal::Clip => "the clip is out of order or off the page",
            Refusal::EqualEnds => "the ends of the line coincide",
            Refusal::Radius => "the radius is 0",
            Refusal::RingWidth => "the width of the ring is 0 or above its radius",
            Refusal::ListTooLong => "the list has more than 65,536 bytes",
            Refusal::PageTooShort => "the page has fewer bytes than pixels",
            Refusal::NoRoom => {
                "too few bytes are left in the list being written, which has at most 65,536"
            }
            Refusal::Player => "the player is above 7",
            Refusal::Lights => "the lights are not 256 in number, or not strictly rising",
            Refusal::RadiusTooLarge => {
                "the radius is above 1,023, or above 255 in a record with one byte for it"
            }
            Refusal::TriangleSize => "the width or height of the triangle is above 127",
            Refusal::StraightCorners => "the corners of the triangle are on one straight line",
        }
    }

    pub(crate) fn from_number(number: u64) -> Option<Refusal> {
        Refusal::ALL
            .into_iter()
            .find(|refusal| refusal.number() == number)
    }
}

impl Display for Refusal {
    fn fmt(&self, formatter: &mut Formatter<'_>) -> fmt::Result {
        write!(formatter, "refused {}: {}", self.number(), self.reason())
    }
}

impl Error for Refusal {}
