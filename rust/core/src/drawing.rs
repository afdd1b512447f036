//! One shape on a lent page.

use crate::{raw, Lights, Refusal, Shape};

/// The sides of a page, 1 to 1024 each. Pixel (x, y) is byte y · width + x.
#[derive(Clone, Copy, Debug, PartialEq, Eq)]
pub struct Size {
    pub width: u16,
    pub height: u16,
}

/// Keeps the pixels with x0 ≤ x < x1 and y0 ≤ y < y1.
#[derive(Clone, Copy, Debug, PartialEq, Eq)]
pub struct Clip {
    pub x0: u16,
    pub y0: u16,
    pub x1: u16,
    pub y1: u16,
}

impl Clip {
    /// The clip that keeps every pixel of a page.
    pub fn whole(size: Size) -> Clip {
        Clip {
            x0: 0,
            y0: 0,
            x1: size.width,
            y1: size.height,
        }
    }
}

/// Blends a shape at a level, in light, into the pixels of a page that the clip keeps, and counts
/// the pixels that the shape touches. Bytes of the page past its last pixel are left alone.
///
/// # Errors
///
/// The first that applies of [`Refusal::PageSize`], [`Refusal::PageTooShort`], [`Refusal::Clip`],
/// [`Refusal::Coordinate`], [`Refusal::EqualEnds`], [`Refusal::Radius`],
/// [`Refusal::RadiusTooLarge`], [`Refusal::RingWidth`], [`Refusal::TriangleSize`] and
/// [`Refusal::StraightCorners`]. The page is then as it was.
///
/// ```
/// use greystroke::{draw_shape, Clip, Lights, Line, Refusal, Shape, Size};
///
/// let size = Size { width: 4, height: 3 };
/// let line = Shape::Line(Line { exact: true, x0: 1, y0: 1, x1: 3, y1: 2 });
/// let draw = |page: &mut [u8], lights, clip| draw_shape(page, size, lights, clip, 255, line);
///
/// let (whole, codes) = (Clip::whole(size), Lights::codes());
/// let mut page = [0; 12];
/// assert_eq!(draw(&mut page, &codes, whole), Ok(4));
/// assert_eq!(page, [0, 64, 0, 0, 0, 191, 191, 0, 0, 0, 64, 0]);
///
/// // A screen whose light grows as the square needs higher codes for a share of its white.
/// let squares: Vec<u16> = (0..256).map(|k| k * k + k).collect();
/// let squares = Lights::new(&squares)?;
/// let mut page = [0; 12];
/// assert_eq!(draw(&mut page, &squares, whole), Ok(4));
/// assert_eq!(page, [0, 127, 0, 0, 0, 221, 221, 0, 0, 0, 127, 0]);
///
/// let off_the_page = Clip { x0: 0, y0: 0, x1: 5, y1: 3 };
/// assert_eq!(draw(&mut page, &codes, off_the_page), Err(Refusal::Clip));
/// # Ok::<(), Refusal>(())
/// ```
pub fn draw_shape(
    page: &mut [u8],
    size: Size,
    lights: &Lights,
    clip: Clip,
    level: u8,
    shape: Shape,
) -> Result<u64, Refusal> {
    raw::draw_shape(page, size, lights.as_slice(), clip, level, shape)
}
