//! The reference's drawing on the page that a call gives.

use crate::rows::ShapeCall;
use reference::page;
use reference::refusal::Refused;

pub fn draw_shape(call: &mut ShapeCall) -> Result<u64, Refused> {
    page::draw_shape(
        &mut call.page,
        call.width,
        call.height,
        &call.lights,
        &call.clip,
        call.level,
        &call.shape,
    )
}
