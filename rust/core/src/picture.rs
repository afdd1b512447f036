//! A whole list on a lent page.

use crate::{raw, Lights, ListRefusal, Size};

/// Players are 0 to 7.
pub const PLAYERS: usize = 8;

/// What a list drew: the size of its page, and for each player how many pixels the player's shapes
/// touched, each counted once for every shape that touched it.
#[derive(Clone, Copy, Debug, PartialEq, Eq)]
pub struct Picture {
    pub size: Size,
    pub touched: [u64; PLAYERS],
}

/// Fills a page with the list's background and draws every shape of the list in order, in light.
/// Bytes of the page past its last pixel are left alone. How far the light of a byte, or of a zone,
/// may be from the exact blend is read from the list (R10.4 and R10.5 of docs/RULES.md).
///
/// # Errors
///
/// What [`crate::check_list`] says of the list and a page of this length. The page is then as it
/// was.
///
/// ```
/// use greystroke::{draw_list, Lights, ListRefusal, Picture, Refusal, Size};
///
/// // Three columns and two rows of level 9, and a disc of player 2: radius 1, corner (1, 1).
/// let list = *b"INK\x02\x00\x03\x00\x02\x00\x09\x07\x02\x05\x01\x00\x01\x00\x01\x00";
/// let lights = Lights::codes();
/// let mut page = [7; 8];
/// let size = Size { width: 3, height: 2 };
/// let touched = [0, 0, 4, 0, 0, 0, 0, 0];
/// assert_eq!(draw_list(&mut page, &lights, &list), Ok(Picture { size, touched }));
/// assert_eq!(page, [132, 132, 9, 132, 132, 9, 7, 7]);
///
/// let too_short = ListRefusal { refusal: Refusal::PageTooShort, place: 0 };
/// assert_eq!(draw_list(&mut page[..5], &lights, &list), Err(too_short));
/// ```
pub fn draw_list(page: &mut [u8], lights: &Lights, list: &[u8]) -> Result<Picture, ListRefusal> {
    raw::draw_list(page, lights.as_slice(), list)
}
