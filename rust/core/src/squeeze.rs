//! Drawing lists without the settings that change nothing.

use crate::boundary::greystroke_squeeze_list;
use crate::list::accepted_list;
use crate::ListRefusal;

/// Writes a list without the settings that change nothing, and hands back how many bytes it then
/// has, never more than before. Bytes past them keep their contents.
///
/// Before each shape there are only those settings whose value differs from the one at the shape
/// before, at the first shape from the start value, in the order clip, level, player; behind the
/// last shape there is none. All else is as it is in the list, byte for byte. So the squeezed list
/// draws the same page with the same counts (R7.8 and R10.7 of docs/RULES.md).
///
/// # Errors
///
/// Those of [`check_without_page`](crate::check_without_page), in their order and at their places,
/// then [`Refusal::NoRoom`](crate::Refusal::NoRoom) at place 0 where the bytes lent are too few.
/// Nothing is changed then.
///
/// ```
/// use greystroke::{squeeze_list, ListRefusal, Refusal};
///
/// // A player, the level that a list starts with, a disc, and a level that no shape is drawn at.
/// let header = *b"INK\x02\x00\x04\x00\x03\x00\x09";
/// let (player, disc, end) = ([7, 3], [5, 1, 0, 1, 0, 1], [0]);
/// let list = [&header[..], &player, &[2, 255], &disc, &[2, 9], &end].concat();
/// let mut bytes = [0xAA; 23];
/// assert_eq!(squeeze_list(&mut bytes, &list), Ok(19));
/// assert_eq!(bytes[..19], [&header[..], &player, &disc, &end].concat());
/// assert_eq!(bytes[19..], [0xAA; 4]);
///
/// let refused = |refusal, place| Err(ListRefusal { refusal, place });
/// assert_eq!(squeeze_list(&mut bytes[..18], &list), refused(Refusal::NoRoom, 0));
/// assert_eq!(squeeze_list(&mut [], &list[..22]), refused(Refusal::CutShort, 22));
/// ```
pub fn squeeze_list(squeezed: &mut [u8], list: &[u8]) -> Result<usize, ListRefusal> {
    // SAFETY: both are slices, and the one to write, being borrowed alone, is apart from the list.
    let answer = unsafe {
        greystroke_squeeze_list(
            squeezed.as_mut_ptr(),
            squeezed.len(),
            list.as_ptr(),
            list.len(),
        )
    };
    accepted_list(answer.refusal, answer.place)?;
    Ok(answer.length)
}
