//! The functions of the static library. Nothing checks these declarations against its source.
//!
//! Each answer begins with the refusal, 0 for none, and its place. After a refusal the further
//! fields are 0, but for those of [`WriteAnswer`].

use crate::{Basis, Clip, Disc, Line, Ring, Shape, Triangle, PLAYERS};

/// A shape: its kind byte in a list, and its numbers in the order of the record's fields.
#[repr(C)]
#[derive(Clone, Copy)]
pub struct GivenShape {
    pub kind: u32,
    pub numbers: [i32; 6],
}

#[repr(C)]
#[derive(Clone, Copy)]
pub struct GivenClip {
    pub x0: u32,
    pub y0: u32,
    pub x1: u32,
    pub y1: u32,
}

/// What records are read and written against.
#[repr(C)]
#[derive(Clone, Copy)]
pub struct GivenBasis {
    pub version: u32,
    pub w: u32,
    pub h: u32,
}

impl From<Shape> for GivenShape {
    fn from(shape: Shape) -> GivenShape {
        let (kind, numbers) = match shape {
            Shape::Line(Line {
                exact,
                x0,
                y0,
                x1,
                y1,
            }) => (
                if exact { 3 } else { 4 },
                [x0, y0, x1, y1, 0, 0].map(i32::from),
            ),
            Shape::Disc(Disc { x, y, radius, big }) => (
                if big { 8 } else { 5 },
                [x.into(), y.into(), radius.into(), 0, 0, 0],
            ),
            Shape::Ring(Ring {
                x,
                y,
                radius,
                width,
                big,
            }) => (
                if big { 9 } else { 6 },
                [x.into(), y.into(), radius.into(), width.into(), 0, 0],
            ),
            Shape::Triangle(Triangle {
                x0,
                y0,
                x1,
                y1,
                x2,
                y2,
            }) => (10, [x0, y0, x1, y1, x2, y2].map(i32::from)),
        };
        GivenShape { kind, numbers }
    }
}

impl From<Clip> for GivenClip {
    fn from(clip: Clip) -> GivenClip {
        GivenClip {
            x0: clip.x0.into(),
            y0: clip.y0.into(),
            x1: clip.x1.into(),
            y1: clip.y1.into(),
        }
    }
}

impl From<Basis> for GivenBasis {
    fn from(basis: Basis) -> GivenBasis {
        GivenBasis {
            version: basis.version.into(),
            w: basis.size.width.into(),
            h: basis.size.height.into(),
        }
    }
}

/// A fraction n over d.
#[repr(C)]
pub struct CoverageAnswer {
    pub refusal: u32,
    pub place: usize,
    pub n: u64,
    pub d: u64,
}

/// The number of touched pixels.
#[repr(C)]
pub struct DrawAnswer {
    pub refusal: u32,
    pub place: usize,
    pub touched: u64,
}

/// Whether the line has a last column, 1 or 0, and which; 0 where it has none.
#[repr(C)]
pub struct ColumnAnswer {
    pub refusal: u32,
    pub place: usize,
    pub found: u32,
    pub column: u64,
}

/// A record: how many bytes it has, its kind byte, and its numbers in order.
#[repr(C)]
pub struct ReadAnswer {
    pub refusal: u32,
    pub place: usize,
    pub size: usize,
    pub kind: u32,
    pub numbers: [i32; 6],
}

/// A list's header, and the ceiling of its touches.
#[repr(C)]
pub struct CheckAnswer {
    pub refusal: u32,
    pub place: usize,
    pub basis: GivenBasis,
    pub background: u8,
    pub ceiling: u64,
}

/// How many bytes the squeezed list has.
#[repr(C)]
pub struct SqueezeAnswer {
    pub refusal: u32,
    pub place: usize,
    pub length: usize,
}

/// The page's size and how many touches each player made.
#[repr(C)]
pub struct ListAnswer {
    pub refusal: u32,
    pub place: usize,
    pub w: u32,
    pub h: u32,
    pub touched: [u64; PLAYERS],
}

/// Where the next record goes and what it is written against, from now on; after a refusal as they
/// were given.
#[repr(C)]
pub struct WriteAnswer {
    pub refusal: u32,
    pub place: usize,
    pub next: usize,
    pub basis: GivenBasis,
}

// The queries take plain numbers by value and have no precondition, so they are safe to call.
extern "C" {
    pub fn greystroke_coverage(shape: GivenShape, x: i32, y: i32) -> CoverageAnswer;
    pub fn greystroke_last_column(
        w: u32,
        h: u32,
        clip: GivenClip,
        shape: GivenShape,
    ) -> ColumnAnswer;
}

// A page, a list and lights are each lent as their first element and their length. Safe to call if
// the page is a slice that nothing else reads or writes meanwhile, and lights and list are slices
// that nothing writes meanwhile; the page may overlap neither. Any lights, size, clip and shape may
// go with it.
extern "C" {
    pub fn greystroke_draw_shape(
        page: *mut u8,
        page_length: usize,
        w: u32,
        h: u32,
        lights: *const u16,
        lights_length: usize,
        clip: GivenClip,
        level: u8,
        shape: GivenShape,
    ) -> DrawAnswer;
    pub fn greystroke_draw_list(
        page: *mut u8,
        page_length: usize,
        lights: *const u16,
        lights_length: usize,
        list: *const u8,
        list_length: usize,
    ) -> ListAnswer;
}

// Safe to call if lights and list are slices that nothing writes meanwhile.
extern "C" {
    pub fn greystroke_read_record(
        list: *const u8,
        list_length: usize,
        basis: GivenBasis,
    ) -> ReadAnswer;
    pub fn greystroke_check_list(
        list: *const u8,
        list_length: usize,
        page_length: usize,
        lights: *const u16,
        lights_length: usize,
    ) -> CheckAnswer;
    pub fn greystroke_check_without_page(list: *const u8, list_length: usize) -> CheckAnswer;
}

// Safe to call if the squeezed list is a slice that nothing else reads or writes meanwhile, and the
// list is a slice that nothing writes meanwhile; the two may not overlap.
extern "C" {
    pub fn greystroke_squeeze_list(
        squeezed: *mut u8,
        squeezed_length: usize,
        list: *const u8,
        list_length: usize,
    ) -> SqueezeAnswer;
}

// Safe to call if the list is a slice that nothing else reads or writes meanwhile; any place and
// any basis may go with it. A header is handed the basis that the writer holds, then its own.
extern "C" {
    pub fn greystroke_write_header(
        list: *mut u8,
        list_length: usize,
        place: usize,
        held: GivenBasis,
        basis: GivenBasis,
        background: u8,
    ) -> WriteAnswer;
    pub fn greystroke_write_end(
        list: *mut u8,
        list_length: usize,
        place: usize,
        basis: GivenBasis,
    ) -> WriteAnswer;
    pub fn greystroke_write_clip(
        list: *mut u8,
        list_length: usize,
        place: usize,
        basis: GivenBasis,
        clip: GivenClip,
    ) -> WriteAnswer;
    pub fn greystroke_write_level(
        list: *mut u8,
        list_length: usize,
        place: usize,
        basis: GivenBasis,
        level: u8,
    ) -> WriteAnswer;
    pub fn greystroke_write_player(
        list: *mut u8,
        list_length: usize,
        place: usize,
        basis: GivenBasis,
        player: u8,
    ) -> WriteAnswer;
    pub fn greystroke_write_shape(
        list: *mut u8,
        list_length: usize,
        place: usize,
        basis: GivenBasis,
        shape: GivenShape,
    ) -> WriteAnswer;
}
