//! The baseline's drawing on the page that a call gives. Its lights are fit: they are not looked at
//! where they are equal to codes.

use crate::baseline;
use crate::library::{library_clip, library_shape, library_size, without_place};
use crate::rows::ShapeCall;
use greystroke::Lights;
use reference::refusal::Refused;

pub fn draw_shape(call: &mut ShapeCall) -> Result<u64, Refused> {
    let size = library_size(call.width, call.height);
    let (clip, shape) = (library_clip(&call.clip), library_shape(&call.shape));
    let (page, level) = (&mut call.page, call.level);
    let lights = Lights::new(&call.lights).expect("fit lights");
    let draw = match lights == Lights::codes() {
        true => baseline::draw_shape,
        false => baseline::draw_shape_in_light,
    };
    draw(page, size, &lights, clip, level, shape).map_err(without_place)
}
