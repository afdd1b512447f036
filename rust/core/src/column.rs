//! How far a line goes under a clip.

use crate::boundary::greystroke_last_column;
use crate::list::accepted_call;
use crate::{Clip, Line, Refusal, Shape, Size};

/// The last column of a line in which it touches a pixel that the clip keeps, on a page of this
/// size, or none. Columns are counted from 0 along the longer span, which is x where the spans are
/// equal, from the end where that coordinate is the lower.
///
/// # Errors
///
/// The first that applies of [`Refusal::PageSize`], [`Refusal::Clip`], [`Refusal::Coordinate`] and
/// [`Refusal::EqualEnds`].
///
/// ```
/// use greystroke::{last_column, Clip, Line, Refusal, Size};
///
/// let size = Size { width: 9, height: 4 };
/// let clip = Clip::whole(size);
/// let line = |x0, y0, x1, y1| Line { exact: true, x0, y0, x1, y1 };
/// // Cut by the page's last column, then by its last row.
/// assert_eq!(last_column(size, clip, line(3, 1, 4003, 3)), Ok(Some(5)));
/// assert_eq!(last_column(size, clip, line(0, 1, 4000, 4001)), Ok(Some(3)));
/// // Counted from the end with the lower x, whichever comes first.
/// assert_eq!(last_column(size, clip, line(8, 2, -1000, 2)), Ok(Some(1007)));
/// assert_eq!(last_column(size, clip, line(0, 5, 9, 5)), Ok(None));
/// assert_eq!(last_column(size, clip, line(2, 2, 2, 2)), Err(Refusal::EqualEnds));
/// ```
pub fn last_column(size: Size, clip: Clip, line: Line) -> Result<Option<u64>, Refusal> {
    let (w, h) = (size.width.into(), size.height.into());
    // SAFETY: plain numbers by value to a function without precondition.
    let answer = unsafe { greystroke_last_column(w, h, clip.into(), Shape::Line(line).into()) };
    accepted_call(answer.refusal, answer.place)?;
    match (answer.found, answer.column) {
        (0, 0) => Ok(None),
        (1, column) => Ok(Some(column)),
        (found, column) => panic!("the library found {found} columns, {column}"),
    }
}
