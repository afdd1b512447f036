//! The coverage query.

use crate::boundary::greystroke_coverage;
use crate::list::accepted_call;
use crate::{Refusal, Shape};

/// A covered share, n over d, not reduced. d is above 0 also where n is 0, and at most 2^47.
#[derive(Clone, Copy, Debug, PartialEq, Eq)]
pub struct Fraction {
    pub n: u64,
    pub d: u64,
}

/// The share of pixel (x, y) that the shape covers.
///
/// # Errors
///
/// The first that applies of [`Refusal::Coordinate`], [`Refusal::EqualEnds`],
/// [`Refusal::Radius`], [`Refusal::RadiusTooLarge`], [`Refusal::RingWidth`],
/// [`Refusal::TriangleSize`] and [`Refusal::StraightCorners`].
///
/// ```
/// use greystroke::{coverage, Disc, Fraction, Refusal, Shape, Triangle};
///
/// let disc = |radius| Shape::Disc(Disc { x: 0, y: 0, radius, big: false });
/// assert_eq!(coverage(disc(2), 0, 1), Ok(Fraction { n: 443, d: 512 }));
/// assert_eq!(coverage(disc(1023), 0, 1022), Ok(Fraction { n: 512, d: 512 }));
/// assert_eq!(coverage(disc(0), 0, 1), Err(Refusal::Radius));
/// assert_eq!(coverage(disc(1024), 0, 1), Err(Refusal::RadiusTooLarge));
///
/// // Of a triangle only the quotient is laid down: half of the pixel is inside this one.
/// let flag = |x2| Shape::Triangle(Triangle { x0: 0, y0: 0, x1: 0, y1: 4, x2, y2: 2 });
/// let Fraction { n, d } = coverage(flag(2), 0, 0)?;
/// assert_eq!(2 * n, d);
/// assert_eq!(coverage(flag(128), 0, 0), Err(Refusal::TriangleSize));
/// assert_eq!(coverage(flag(0), 0, 0), Err(Refusal::StraightCorners));
/// # Ok::<(), Refusal>(())
/// ```
pub fn coverage(shape: Shape, x: i16, y: i16) -> Result<Fraction, Refusal> {
    // SAFETY: plain numbers by value to a function without precondition.
    let answer = unsafe { greystroke_coverage(shape.into(), x.into(), y.into()) };
    accepted_call(answer.refusal, answer.place)?;
    Ok(Fraction {
        n: answer.n,
        d: answer.d,
    })
}
