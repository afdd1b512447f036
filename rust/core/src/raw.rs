//! The calls that are lent lights, with lights that nobody has tried: the library itself refuses
//! those that are unfit, in its order. Where lights are tried once, by [`Lights`](crate::Lights),
//! the calls of the same names outside of this module serve.

use crate::boundary::{greystroke_check_list, greystroke_draw_list, greystroke_draw_shape};
use crate::list::{accepted_call, accepted_list, checked, size_of};
use crate::{Checked, Clip, ListRefusal, Picture, Refusal, Shape, Size};

/// What [`crate::draw_shape`] does.
///
/// # Errors
///
/// [`Refusal::Lights`] right after [`Refusal::PageTooShort`]; all else as there.
#[inline]
pub fn draw_shape(
    page: &mut [u8],
    size: Size,
    lights: &[u16],
    clip: Clip,
    level: u8,
    shape: Shape,
) -> Result<u64, Refusal> {
    // SAFETY: page and lights are slices, the page, being borrowed alone, is apart from the lights,
    // and all else are plain numbers by value.
    let answer = unsafe {
        greystroke_draw_shape(
            page.as_mut_ptr(),
            page.len(),
            size.width.into(),
            size.height.into(),
            lights.as_ptr(),
            lights.len(),
            clip.into(),
            level,
            shape.into(),
        )
    };
    accepted_call(answer.refusal, answer.place)?;
    Ok(answer.touched)
}

/// What [`crate::draw_list`] does.
///
/// # Errors
///
/// [`Refusal::Lights`] right after [`Refusal::PageTooShort`], at place 0; all else as there.
pub fn draw_list(page: &mut [u8], lights: &[u16], list: &[u8]) -> Result<Picture, ListRefusal> {
    // SAFETY: page, lights and list are slices, and the page, being borrowed alone, is apart from
    // the others.
    let answer = unsafe {
        greystroke_draw_list(
            page.as_mut_ptr(),
            page.len(),
            lights.as_ptr(),
            lights.len(),
            list.as_ptr(),
            list.len(),
        )
    };
    accepted_list(answer.refusal, answer.place)?;
    Ok(Picture {
        size: size_of(answer.w, answer.h),
        touched: answer.touched,
    })
}

/// What [`crate::check_list`] does.
///
/// # Errors
///
/// [`Refusal::Lights`] right after [`Refusal::PageTooShort`], at place 0; all else as there.
///
/// ```
/// use greystroke::{raw, ListRefusal, Refusal};
///
/// let list = *b"INK\x02\x00\x04\x00\x03\x00\x09\x00";
/// let refused = |refusal| Err(ListRefusal { refusal, place: 0 });
/// assert_eq!(raw::check_list(&list, 11, &[]), refused(Refusal::PageTooShort));
/// assert_eq!(raw::check_list(&list, 12, &[]), refused(Refusal::Lights));
/// // Lights come before every record: this list has no end.
/// assert_eq!(raw::check_list(&list[..10], 12, &[9; 256]), refused(Refusal::Lights));
/// ```
pub fn check_list(list: &[u8], page_length: usize, lights: &[u16]) -> Result<Checked, ListRefusal> {
    // SAFETY: list and lights are slices, and the page's length is a plain number by value.
    checked(unsafe {
        greystroke_check_list(
            list.as_ptr(),
            list.len(),
            page_length,
            lights.as_ptr(),
            lights.len(),
        )
    })
}
