//! A zone of a page: what its pixels have of light, exact blend and bound, added.

use crate::exact::{bound, exact_blend, touches_at, BigFraction};
use crate::lights::light;
use crate::list::Accepted;

pub struct Zone {
    pub light: BigFraction,
    pub exact: BigFraction,
    pub margin: BigFraction,
}

/// These pixels of the page that an accepted list has left.
pub fn zone(lights: &[u16], accepted: &Accepted, page: &[u8], pixels: &[(u16, u16)]) -> Zone {
    let width = usize::from(accepted.header.width);
    let byte = |&(x, y): &(u16, u16)| page[usize::from(y) * width + usize::from(x)];
    let touches = |&(x, y): &(u16, u16)| touches_at(accepted, x, y);
    let background = accepted.header.background;
    Zone {
        light: sum(pixels, |at| BigFraction::new(light(lights, byte(at)), 1)),
        exact: sum(pixels, |at| exact_blend(lights, background, &touches(at))),
        margin: sum(pixels, |at| bound(lights, &touches(at))),
    }
}

fn sum(pixels: &[(u16, u16)], of: impl Fn(&(u16, u16)) -> BigFraction) -> BigFraction {
    let start = BigFraction::new(0, 1);
    pixels.iter().fold(start, |sum, at| sum.plus(&of(at)))
}
