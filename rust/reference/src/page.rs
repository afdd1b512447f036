//! Blending, and one shape on a lent page.

use crate::coverage::{exact_coverage, own_coverage, Fraction};
use crate::lights::{light, lights_refusal};
use crate::refusal::{Refusal, Refused};
use crate::shape::{page_size_refusal, Clip, Shape};

/// The byte `old` after a blend towards `level`: both are turned into light and blended by the
/// coverage, and of all codes the one nearest in light is taken, of two as near the higher.
pub fn blend(lights: &[u16], old: u8, level: u8, cover: Fraction) -> u8 {
    let Fraction { n, d } = cover;
    // Everything is d times as large, so that nothing is rounded.
    let blended = light(lights, old) * (d - n) + light(lights, level) * n;
    let distance = |code: &u8| blended.abs_diff(light(lights, *code) * d);
    // The first of the nearest, going down.
    let nearest = (0..=255).rev().min_by_key(distance);
    nearest.expect("there are codes")
}

/// Pixels of a page of this size, as far as a slice is concerned.
pub fn page_length(width: u16, height: u16) -> usize {
    usize::from(width) * usize::from(height)
}

/// Draws one shape and counts the touched pixels. Tried 3, 21, 32, 8, 7, 9, 10, 33, 11,
/// 34, 35.
pub fn draw_shape(
    page: &mut [u8],
    width: u16,
    height: u16,
    lights: &[u16],
    clip: &Clip,
    level: u8,
    shape: &Shape,
) -> Result<u64, Refused> {
    let too_short = || (page.len() < page_length(width, height)).then_some(Refusal::PageTooShort);
    let refusal = page_size_refusal(width, height)
        .or_else(too_short)
        .or_else(|| lights_refusal(lights))
        .or_else(|| clip.first_refusal(width, height))
        .or_else(|| shape.first_refusal());
    match refusal {
        Some(refusal) => Err(refusal.at(0)),
        None => Ok(paint(page, width, lights, clip, level, shape)),
    }
}

/// Blends a lawful shape into the page and counts the pixels it touches.
pub fn paint(
    page: &mut [u8],
    width: u16,
    lights: &[u16],
    clip: &Clip,
    level: u8,
    shape: &Shape,
) -> u64 {
    let mut touched = 0;
    for y in clip.y0..clip.y1 {
        for x in clip.x0..clip.x1 {
            if touches(shape, x, y) {
                let byte = &mut page[usize::from(y) * usize::from(width) + usize::from(x)];
                *byte = blend(
                    lights,
                    *byte,
                    level,
                    own_coverage(shape, x.into(), y.into()),
                );
                touched += 1;
            }
        }
    }
    touched
}

/// A touch is decided by the exact coverage, for an approximate line too.
pub fn touches(shape: &Shape, x: u16, y: u16) -> bool {
    exact_coverage(shape, x.into(), y.into()).n > 0
}

#[cfg(test)]
mod tests {
    use super::*;
    use crate::lights::codes;

    const HALF: Fraction = Fraction { n: 1, d: 2 };

    #[test]
    fn halves_go_up_from_either_side() {
        assert_eq!(blend(&codes(), 0, 255, HALF), 128);
        assert_eq!(blend(&codes(), 255, 0, HALF), 128);
        assert_eq!(blend(&codes(), 9, 9, HALF), 9);
    }

    /// With lights equal to codes the light itself is rounded, halves up.
    #[test]
    fn codes_as_lights_round_the_blend() {
        for (n, d) in [
            (0, 1),
            (1, 2),
            (1, 8),
            (9, 48),
            (38, 48),
            (187, 512),
            (512, 512),
        ] {
            for (old, level) in (0..=255).flat_map(|old| (0..=255).map(move |level| (old, level))) {
                let sum = u64::from(old) * (d - n) + u64::from(level) * n;
                let rounded = (2 * sum + d) / (2 * d);
                let found = blend(&codes(), old, level, Fraction { n, d });
                assert_eq!(u64::from(found), rounded, "{old} and {level} by {n}/{d}");
            }
        }
    }

    /// Light 1 is ten times as far from light 2 as from light 0.
    #[test]
    fn the_nearest_is_so_in_light_and_not_in_codes() {
        let mut lights = codes();
        for light in &mut lights[2..] {
            *light += 9;
        }
        assert_eq!(blend(&lights, 1, 2, HALF), 2);
        let below_half = Fraction { n: 499, d: 1000 };
        assert_eq!(blend(&lights, 1, 2, below_half), 1);
        // Half way from light 0 to light 13, and to light 11.
        assert_eq!(blend(&lights, 0, 4, HALF), 2);
        assert_eq!(blend(&lights, 2, 0, HALF), 1);
    }
}
