//! What a call can turn down, with the numbers of the rules.

#[derive(Clone, Copy, Debug, PartialEq, Eq)]
pub enum Refusal {
    WrongMark = 1,
    WrongVersion = 2,
    PageSize = 3,
    UnknownKind = 4,
    CutShort = 5,
    SurplusBytes = 6,
    Coordinate = 7,
    Clip = 8,
    EqualEnds = 9,
    Radius = 10,
    RingWidth = 11,
    ListTooLong = 12,
    PageTooShort = 21,
    NoRoom = 22,
    Player = 31,
    Lights = 32,
    RadiusTooLarge = 33,
    TriangleSize = 34,
    StraightCorners = 35,
}

impl Refusal {
    pub fn number(self) -> u64 {
        self as u64
    }

    /// The refusal for this refusal found at byte `place` of a list.
    pub fn at(self, place: usize) -> Refused {
        Refused {
            number: self.number(),
            place,
        }
    }
}

/// The answer of a call that turned its input down. Only a whole list has a place other than 0.
#[derive(Clone, Copy, Debug, PartialEq, Eq)]
pub struct Refused {
    pub number: u64,
    pub place: usize,
}
