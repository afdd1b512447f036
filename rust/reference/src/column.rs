//! The last column of a line in which it touches a pixel.

use crate::coverage::Frame;
use crate::page::touches;
use crate::refusal::Refused;
use crate::shape::{page_size_refusal, Clip, Line, Shape};
use std::collections::BTreeSet;

/// The last of the touched columns, or none. Tried 3, 8, 7, 9.
pub fn last_column(
    width: u16,
    height: u16,
    clip: &Clip,
    line: &Line,
) -> Result<Option<u64>, Refused> {
    let refusal = page_size_refusal(width, height)
        .or_else(|| clip.first_refusal(width, height))
        .or_else(|| Shape::Line(*line).first_refusal());
    match refusal {
        Some(refusal) => Err(refusal.at(0)),
        None => Ok(touched_columns(clip, line).last().copied()),
    }
}

/// The columns of a lawful line that hold a touched pixel inside the clip.
pub fn touched_columns(clip: &Clip, line: &Line) -> BTreeSet<u64> {
    let pixels = (clip.y0..clip.y1).flat_map(|y| (clip.x0..clip.x1).map(move |x| (x, y)));
    let touched = pixels.filter(|&(x, y)| touches(&Shape::Line(*line), x, y));
    touched
        .map(|(x, y)| {
            let (column, _) = Frame::of(line).place(x.into(), y.into());
            u64::try_from(column).expect("no column before 0 is touched")
        })
        .collect()
}

#[cfg(test)]
mod tests {
    use super::*;

    type Answer = Result<Option<u64>, u64>;

    const WHOLE: [u16; 4] = [0, 0, 9, 4];

    /// On a page of 9 by 4, by the exact and by the approximate line, from either end.
    fn asked([x0, y0, x1, y1]: [u16; 4], one: (i16, i16), other: (i16, i16)) -> Answer {
        let clip = Clip { x0, y0, x1, y1 };
        let ways = [(true, one, other), (false, one, other), (true, other, one)];
        let answers = ways.map(|(exact, (x0, y0), (x1, y1))| {
            let line = Line {
                exact,
                x0,
                y0,
                x1,
                y1,
            };
            last_column(9, 4, &clip, &line).map_err(|refused| refused.number)
        });
        assert!(answers.iter().all(|answer| *answer == answers[0]));
        answers[0]
    }

    /// In column i the band about (0,0)-(8,4) goes from i/2 - 1/2 to i/2 + 1.
    #[test]
    fn a_row_is_left_where_the_band_is_past_it() {
        let line = |clip| asked(clip, (0, 0), (8, 4));
        assert_eq!(line(WHOLE), Ok(Some(7)));
        assert_eq!(line([0, 0, 9, 3]), Ok(Some(6)));
        assert_eq!(line([0, 0, 9, 1]), Ok(Some(2)));
        assert_eq!(line([0, 0, 2, 1]), Ok(Some(1)));
        // Column 2 ends at height 2 and does not enter row 2; column 3 does.
        assert_eq!(line([0, 2, 3, 3]), Ok(None));
        assert_eq!(line([0, 2, 4, 3]), Ok(Some(3)));
    }

    /// The same band mirrored: from 4 - i/2 - 1 to 4 - i/2 + 1/2.
    #[test]
    fn a_falling_line_leaves_rows_upwards() {
        let line = |clip| asked(clip, (0, 4), (8, 0));
        assert_eq!(line(WHOLE), Ok(Some(7)));
        assert_eq!(line([0, 3, 9, 4]), Ok(Some(2)));
        assert_eq!(line([0, 1, 3, 2]), Ok(None));
        assert_eq!(line([0, 1, 4, 2]), Ok(Some(3)));
    }

    /// Columns run along y from the end at -88. At row line 2 the segment is at 4 1/2 and the band
    /// at 4 to 5: above it enters pixels of x = 5, and below those of x = 3.
    #[test]
    fn a_steep_line_counts_columns_downwards() {
        let line = |clip| asked(clip, (4, 92), (5, -88));
        assert_eq!(line(WHOLE), Ok(Some(91)));
        assert_eq!(line([0, 0, 9, 3]), Ok(Some(90)));
        assert_eq!(line([5, 0, 6, 4]), Ok(Some(89)));
        assert_eq!(line([3, 0, 4, 2]), Ok(None));
        assert_eq!(line([3, 0, 4, 3]), Ok(Some(90)));
    }

    #[test]
    fn a_level_line_touches_two_rows_in_all_its_columns() {
        let line = |y, clip| asked(clip, (-20, y), (5, y));
        for y in [0, 4] {
            assert_eq!(line(y, WHOLE), Ok(Some(24)));
        }
        for y in [-1, 5] {
            assert_eq!(line(y, WHOLE), Ok(None));
        }
        assert_eq!(line(2, [0, 1, 9, 3]), Ok(Some(24)));
        assert_eq!(line(2, [0, 0, 3, 2]), Ok(Some(22)));
        assert_eq!(line(2, [5, 0, 9, 4]), Ok(None));
        assert_eq!(line(2, [3, 1, 3, 3]), Ok(None));
    }

    #[test]
    fn refusals_come_in_order() {
        let ask = |width, x1, first, last| {
            let clip = Clip {
                x0: 1,
                y0: 0,
                x1,
                y1: 4,
            };
            let line = Line {
                exact: true,
                x0: first,
                y0: 0,
                x1: last,
                y1: 0,
            };
            last_column(width, 4, &clip, &line).map_err(|refused| refused.number)
        };
        assert_eq!(ask(0, 0, 4096, 4096), Err(3));
        assert_eq!(ask(9, 0, 4096, 4096), Err(8));
        assert_eq!(ask(9, 9, 4096, 4096), Err(7));
        assert_eq!(ask(9, 9, 4095, 4095), Err(9));
        assert_eq!(ask(9, 9, 4095, 4094), Ok(None));
    }
}
