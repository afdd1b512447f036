//! Drawing lists: reading a record, checking a whole list, writing one.

use crate::boundary::{
    greystroke_check_without_page, greystroke_read_record, greystroke_write_clip,
    greystroke_write_end, greystroke_write_header, greystroke_write_level, greystroke_write_player,
    greystroke_write_shape, CheckAnswer, GivenBasis, ReadAnswer, WriteAnswer,
};
use crate::{raw, Clip, Disc, Lights, Line, Refusal, Ring, Shape, Size, Triangle};
use std::error::Error;
use std::fmt::{self, Debug, Display, Formatter};

/// The version to write: it has every kind of record. Lists of version 1, which have no
/// [`Setting::Player`], no big disc or ring and no triangle, are read and written too.
pub const LATEST_VERSION: u16 = 2;

/// What records are read and written against: the version of their list, and the size of its page.
#[derive(Clone, Copy, Debug, PartialEq, Eq)]
pub struct Basis {
    pub version: u16,
    pub size: Size,
}

/// What a list says of itself and its page.
#[derive(Clone, Copy, Debug, PartialEq, Eq)]
pub struct Header {
    pub version: u16,
    pub size: Size,
    pub background: u8,
}

impl Header {
    /// What the records behind this header are read and written against.
    pub fn basis(self) -> Basis {
        Basis {
            version: self.version,
            size: self.size,
        }
    }
}

/// What the check of a list tells of it.
#[derive(Clone, Copy, Debug, PartialEq, Eq)]
pub struct Checked {
    pub header: Header,
    /// The list never has more touches, those of all players together (R6.6 and R10.6 of
    /// docs/RULES.md).
    pub ceiling: u64,
}

/// In force for the shapes that follow, until the next of its kind.
#[derive(Clone, Copy, Debug, PartialEq, Eq)]
pub enum Setting {
    Clip(Clip),
    Level(u8),
    /// Who owns the shapes, 0 to 7.
    Player(u8),
}

/// One entry of a list.
#[derive(Clone, Copy, Debug, PartialEq, Eq)]
pub enum Record {
    End,
    Setting(Setting),
    Shape(Shape),
}

/// Why a whole list was turned down, and at which of its bytes.
#[derive(Clone, Copy, Debug, PartialEq, Eq)]
pub struct ListRefusal {
    pub refusal: Refusal,
    pub place: usize,
}

impl Display for ListRefusal {
    fn fmt(&self, formatter: &mut Formatter<'_>) -> fmt::Result {
        write!(formatter, "{} at byte {}", self.refusal, self.place)
    }
}

impl Error for ListRefusal {}

/// The record at the front of some bytes, in a list of this version and page, and the bytes past
/// it.
///
/// # Errors
///
/// The first that applies of [`Refusal::WrongVersion`], [`Refusal::PageSize`],
/// [`Refusal::CutShort`] where there is no byte, [`Refusal::UnknownKind`], [`Refusal::CutShort`],
/// and then what the record itself earns of [`Refusal::Coordinate`], [`Refusal::Clip`],
/// [`Refusal::EqualEnds`], [`Refusal::Radius`], [`Refusal::RadiusTooLarge`],
/// [`Refusal::RingWidth`], [`Refusal::Player`], [`Refusal::TriangleSize`] and
/// [`Refusal::StraightCorners`].
///
/// ```
/// use greystroke::{read_record, Basis, Disc, Record, Refusal, Setting, Shape, Size};
///
/// let size = Size { width: 4, height: 3 };
/// let basis = Basis { version: 2, size };
/// let player = Record::Setting(Setting::Player(5));
/// assert_eq!(read_record(&[7, 5, 0], basis), Ok((player, &[0][..])));
/// assert_eq!(read_record(&[7], basis), Err(Refusal::CutShort));
/// assert_eq!(read_record(&[7, 8], basis), Err(Refusal::Player));
///
/// // Of two records with the same disc, each is told by `big` from the other.
/// let disc = |big| Record::Shape(Shape::Disc(Disc { x: 1, y: 2, radius: 3, big }));
/// assert_eq!(read_record(&[5, 1, 0, 2, 0, 3], basis), Ok((disc(false), &[][..])));
/// assert_eq!(read_record(&[8, 1, 0, 2, 0, 3, 0], basis), Ok((disc(true), &[][..])));
/// assert_eq!(read_record(&[8, 1, 0, 2, 0, 0, 4], basis), Err(Refusal::RadiusTooLarge));
///
/// let older = Basis { version: 1, size };
/// assert_eq!(read_record(&[7, 5, 0], older), Err(Refusal::UnknownKind));
/// ```
pub fn read_record(bytes: &[u8], basis: Basis) -> Result<(Record, &[u8]), Refusal> {
    // SAFETY: the bytes are a slice, and all else are plain numbers by value.
    let answer = unsafe { greystroke_read_record(bytes.as_ptr(), bytes.len(), basis.into()) };
    accepted_call(answer.refusal, answer.place)?;
    Ok((record_of(&answer), &bytes[answer.size..]))
}

/// Tries a whole list for a page of so many bytes and these lights.
///
/// # Errors
///
/// The first refusal of the list and its place: 0 for the header's, else the first byte of the
/// record, the list's length where a record is missing, or the first surplus byte.
///
/// ```
/// use greystroke::{check_list, Checked, Header, Lights, ListRefusal, Refusal, Size};
///
/// // Four columns and three rows of level 9, and a disc of radius 1 about corner (1, 1).
/// let list = *b"INK\x02\x00\x04\x00\x03\x00\x09\x05\x01\x00\x01\x00\x01\x00";
/// let lights = Lights::codes();
/// let size = Size { width: 4, height: 3 };
/// let header = Header { version: 2, size, background: 9 };
/// assert_eq!(check_list(&list, 12, &lights), Ok(Checked { header, ceiling: 4 }));
///
/// let missing_end = ListRefusal { refusal: Refusal::CutShort, place: 16 };
/// assert_eq!(check_list(&list[..16], 12, &lights), Err(missing_end));
/// ```
pub fn check_list(
    list: &[u8],
    page_length: usize,
    lights: &Lights,
) -> Result<Checked, ListRefusal> {
    raw::check_list(list, page_length, lights.as_slice())
}

/// Tries a whole list before there is a page or lights for it.
///
/// # Errors
///
/// Those of [`check_list`] but [`Refusal::PageTooShort`], in their order and at their places.
///
/// ```
/// use greystroke::{check_list, check_without_page, Lights, ListRefusal, Refusal};
///
/// let list = *b"INK\x02\x00\x04\x00\x03\x00\x09\x05\x01\x00\x01\x00\x01\x00";
/// let checked = check_without_page(&list);
/// assert_eq!(checked.map(|checked| checked.ceiling), Ok(4));
/// assert_eq!(checked, check_list(&list, 12, &Lights::codes()));
///
/// let refused = |refusal, place| Err(ListRefusal { refusal, place });
/// let cut = &list[..13];
/// assert_eq!(check_list(cut, 11, &Lights::codes()), refused(Refusal::PageTooShort, 0));
/// assert_eq!(check_without_page(cut), refused(Refusal::CutShort, 10));
/// ```
pub fn check_without_page(list: &[u8]) -> Result<Checked, ListRefusal> {
    // SAFETY: the list is a slice.
    checked(unsafe { greystroke_check_without_page(list.as_ptr(), list.len()) })
}

/// A list being written into lent bytes, the place reached, and what records are written against.
/// Any place and any basis may be set: what does not fit them is refused.
///
/// ```
/// use greystroke::{check_without_page, Header, Record, Refusal, Setting, Size, Writer};
/// use greystroke::LATEST_VERSION;
///
/// let size = Size { width: 4, height: 3 };
/// let header = Header { version: LATEST_VERSION, size, background: 9 };
/// let mut list = [0xAA; 13];
/// let mut writer = Writer::new(&mut list);
/// assert_eq!(writer.write_header(header), Ok(()));
/// assert_eq!(writer.write_record(Record::Setting(Setting::Player(8))), Err(Refusal::Player));
/// assert_eq!(writer.write_record(Record::Setting(Setting::Player(7))), Ok(()));
/// assert_eq!(writer.write_record(Record::End), Ok(()));
/// assert_eq!(writer.write_record(Record::End), Err(Refusal::NoRoom));
/// assert_eq!(writer.place, 13);
/// assert_eq!(check_without_page(&list).map(|checked| checked.header), Ok(header));
/// ```
#[derive(Debug)]
pub struct Writer<'a> {
    pub list: &'a mut [u8],
    pub place: usize,
    pub basis: Basis,
}

impl<'a> Writer<'a> {
    /// A writer of a list that has no header yet.
    pub fn new(list: &'a mut [u8]) -> Writer<'a> {
        let size = Size {
            width: 0,
            height: 0,
        };
        Writer {
            list,
            place: 0,
            basis: Basis { version: 0, size },
        }
    }

    /// Writes a header to the front of the list; the place is then past it.
    ///
    /// # Errors
    ///
    /// [`Refusal::WrongVersion`] and [`Refusal::PageSize`] of the header, then
    /// [`Refusal::NoRoom`]. Nothing is changed then.
    pub fn write_header(&mut self, header: Header) -> Result<(), Refusal> {
        let (list, length) = (self.list.as_mut_ptr(), self.list.len());
        let (held, basis) = (self.basis.into(), header.basis().into());
        // SAFETY: the list is a slice of its own, and all else are plain numbers by value.
        let answer = unsafe {
            greystroke_write_header(list, length, self.place, held, basis, header.background)
        };
        self.take(answer)
    }

    /// Writes a record to the place reached.
    ///
    /// # Errors
    ///
    /// The first that applies of [`Refusal::WrongVersion`] and [`Refusal::PageSize`] of the basis
    /// held, [`Refusal::UnknownKind`], what the record itself earns of [`Refusal::Coordinate`],
    /// [`Refusal::Clip`], [`Refusal::EqualEnds`], [`Refusal::Radius`], [`Refusal::RadiusTooLarge`]
    /// (also of a radius above 255 that is not `big`), [`Refusal::RingWidth`], [`Refusal::Player`],
    /// [`Refusal::TriangleSize`] and [`Refusal::StraightCorners`], and [`Refusal::NoRoom`]. Nothing
    /// is changed then.
    pub fn write_record(&mut self, record: Record) -> Result<(), Refusal> {
        let (list, length) = (self.list.as_mut_ptr(), self.list.len());
        let (place, basis) = (self.place, self.basis.into());
        // SAFETY: the list is a slice of its own, and all else are plain numbers by value.
        let answer = unsafe {
            match record {
                Record::End => greystroke_write_end(list, length, place, basis),
                Record::Setting(Setting::Clip(clip)) => {
                    greystroke_write_clip(list, length, place, basis, clip.into())
                }
                Record::Setting(Setting::Level(level)) => {
                    greystroke_write_level(list, length, place, basis, level)
                }
                Record::Setting(Setting::Player(player)) => {
                    greystroke_write_player(list, length, place, basis, player)
                }
                Record::Shape(shape) => {
                    greystroke_write_shape(list, length, place, basis, shape.into())
                }
            }
        };
        self.take(answer)
    }

    /// The library answers what the writer holds from now on whole, unchanged after a refusal.
    fn take(&mut self, answer: WriteAnswer) -> Result<(), Refusal> {
        self.place = answer.next;
        self.basis = basis_of(answer.basis);
        accepted_call(answer.refusal, answer.place)
    }
}

/// Nothing, or the refusal of a call on a whole list.
#[inline]
pub(crate) fn accepted_list(number: u32, place: usize) -> Result<(), ListRefusal> {
    match number {
        0 => Ok(()),
        _ => Err(ListRefusal {
            refusal: Refusal::from_number(number.into()).expect("a refusal has its number"),
            place,
        }),
    }
}

/// What either check of a list answers.
pub(crate) fn checked(answer: CheckAnswer) -> Result<Checked, ListRefusal> {
    accepted_list(answer.refusal, answer.place)?;
    let Basis { version, size } = basis_of(answer.basis);
    Ok(Checked {
        header: Header {
            version,
            size,
            background: answer.background,
        },
        ceiling: answer.ceiling,
    })
}

/// Nothing, or the refusal of any other call. Its place is 0: a library that tells another is not
/// the one that this wrapper was written for.
#[inline]
pub(crate) fn accepted_call(number: u32, place: usize) -> Result<(), Refusal> {
    assert_eq!(place, 0, "refusal {number} of a call has another place");
    accepted_list(number, place).map_err(|refused| refused.refusal)
}

fn basis_of(basis: GivenBasis) -> Basis {
    Basis {
        version: narrow(basis.version),
        size: size_of(basis.w, basis.h),
    }
}

pub(crate) fn size_of(w: u32, h: u32) -> Size {
    Size {
        width: narrow(w),
        height: narrow(h),
    }
}

/// A field of an answer, which crosses wider than it is.
fn narrow<W: Copy + Debug, N: TryFrom<W>>(wide: W) -> N {
    let narrowed = N::try_from(wide).ok();
    narrowed.unwrap_or_else(|| panic!("{wide:?} is too wide for its field"))
}

fn record_of(answer: &ReadAnswer) -> Record {
    let [a, b, c, d, ..] = answer.numbers;
    match answer.kind {
        0 => Record::End,
        1 => Record::Setting(Setting::Clip(Clip {
            x0: narrow(a),
            y0: narrow(b),
            x1: narrow(c),
            y1: narrow(d),
        })),
        2 => Record::Setting(Setting::Level(narrow(a))),
        7 => Record::Setting(Setting::Player(narrow(a))),
        _ => Record::Shape(shape_of(answer)),
    }
}

fn shape_of(answer: &ReadAnswer) -> Shape {
    let [a, b, c, d, e, f] = answer.numbers;
    match answer.kind {
        kind @ (3 | 4) => Shape::Line(Line {
            exact: kind == 3,
            x0: narrow(a),
            y0: narrow(b),
            x1: narrow(c),
            y1: narrow(d),
        }),
        kind @ (5 | 8) => Shape::Disc(Disc {
            x: narrow(a),
            y: narrow(b),
            radius: narrow(c),
            big: kind == 8,
        }),
        kind @ (6 | 9) => Shape::Ring(Ring {
            x: narrow(a),
            y: narrow(b),
            radius: narrow(c),
            width: narrow(d),
            big: kind == 9,
        }),
        10 => Shape::Triangle(Triangle {
            x0: narrow(a),
            y0: narrow(b),
            x1: narrow(c),
            y1: narrow(d),
            x2: narrow(e),
            y2: narrow(f),
        }),
        kind => panic!("the library read a record of kind {kind}"),
    }
}
