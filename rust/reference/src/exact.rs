//! The exact blend of a pixel in light and the bound on the distance of a byte's light from it, as
//! fractions.

use crate::coverage::{exact_coverage, own_coverage, Fraction, Frame};
use crate::lights::{light, span, widest_gap};
use crate::list::Accepted;
use crate::natural::Natural;
use crate::page::{blend, touches};
use crate::shape::Shape;
use std::cmp::Ordering;

/// A fraction whose two numbers grow with every touch of a pixel.
#[derive(Clone, Debug)]
pub struct BigFraction {
    pub numerator: Natural,
    pub denominator: Natural,
}

impl BigFraction {
    pub fn new(numerator: u64, denominator: u64) -> BigFraction {
        BigFraction {
            numerator: Natural::from(numerator),
            denominator: Natural::from(denominator),
        }
    }

    pub fn plus(&self, other: &BigFraction) -> BigFraction {
        let left = self.numerator.times(&other.denominator);
        let right = other.numerator.times(&self.denominator);
        BigFraction {
            numerator: left.plus(&right),
            denominator: self.denominator.times(&other.denominator),
        }
    }

    /// By cross products.
    pub fn compare(&self, other: &BigFraction) -> Ordering {
        let left = self.numerator.times(&other.denominator);
        left.compare(&other.numerator.times(&self.denominator))
    }

    /// Whether the two are at most so far apart.
    pub fn within(&self, other: &BigFraction, bound: &BigFraction) -> bool {
        let left = self.numerator.times(&other.denominator);
        let right = other.numerator.times(&self.denominator);
        let distance = BigFraction {
            numerator: match left.compare(&right) {
                Ordering::Less => right.minus(&left),
                _ => left.minus(&right),
            },
            denominator: self.denominator.times(&other.denominator),
        };
        distance.compare(bound) != Ordering::Greater
    }
}

/// One shape that touches one pixel.
#[derive(Clone, Copy, Debug)]
pub struct Touch {
    pub level: u8,
    pub player: u8,
    pub own: Fraction,
    pub exact: Fraction,
    /// How far the two coverages may be apart: s over 4·l for an approximate line, else nothing.
    pub apart: Fraction,
}

impl Touch {
    /// Whether the shape covers the pixel whole, by its exact coverage.
    pub fn covers(&self) -> bool {
        self.exact.n == self.exact.d
    }
}

/// The shapes of an accepted list that touch a pixel, in the list's order.
pub fn touches_at(accepted: &Accepted, x: u16, y: u16) -> Vec<Touch> {
    let drawings = accepted.drawings.iter();
    let touching =
        drawings.filter(|drawing| drawing.clip.keeps(x, y) && touches(&drawing.shape, x, y));
    touching
        .map(|drawing| Touch {
            level: drawing.level,
            player: drawing.player,
            own: own_coverage(&drawing.shape, x.into(), y.into()),
            exact: exact_coverage(&drawing.shape, x.into(), y.into()),
            apart: apart(&drawing.shape),
        })
        .collect()
}

fn apart(shape: &Shape) -> Fraction {
    match shape {
        Shape::Line(line) if !line.exact => {
            let frame = Frame::of(line);
            Fraction {
                n: u64::try_from(frame.s).expect("a span is not negative"),
                d: u64::try_from(4 * frame.l).expect("a span is not negative"),
            }
        }
        _ => Fraction { n: 0, d: 1 },
    }
}

/// The byte after blends by each touch's own coverage, each of which ends in a code.
pub fn byte_after(lights: &[u16], background: u8, touches: &[Touch]) -> u8 {
    let step = |byte, touch: &Touch| blend(lights, byte, touch.level, touch.own);
    touches.iter().fold(background, step)
}

/// The light after blends by exact coverages, from the background's light on, never rounded.
pub fn exact_blend(lights: &[u16], background: u8, touches: &[Touch]) -> BigFraction {
    let start = BigFraction::new(light(lights, background), 1);
    touches.iter().fold(start, |e, touch| {
        let Fraction { n, d } = touch.exact;
        let kept = e.numerator.times(&Natural::from(d - n));
        let added = e
            .denominator
            .times(&Natural::from(light(lights, touch.level) * n));
        BigFraction {
            numerator: kept.plus(&added),
            denominator: e.denominator.times(&Natural::from(d)),
        }
    })
}

/// Half the widest gap for each touch, and the span times what its coverage may be off.
pub fn margins(lights: &[u16], touches: &[Touch]) -> BigFraction {
    let (gap, span) = (widest_gap(lights), span(lights));
    let start = BigFraction::new(0, 1);
    touches.iter().fold(start, |sum, touch| {
        let off = BigFraction::new(span * touch.apart.n, touch.apart.d);
        sum.plus(&BigFraction::new(gap, 2)).plus(&off)
    })
}

/// The touches after the last that covers the pixel whole; all of them where none does.
pub fn since_cover(touches: &[Touch]) -> &[Touch] {
    let last = touches.iter().rposition(Touch::covers);
    &touches[last.map_or(0, |last| last + 1)..]
}

/// The margins of the touches that count.
pub fn bound(lights: &[u16], touches: &[Touch]) -> BigFraction {
    margins(lights, since_cover(touches))
}

/// Whether the distance of the byte's light from the exact blend is at most the bound.
pub fn within(lights: &[u16], byte: u8, exact: &BigFraction, bound: &BigFraction) -> bool {
    BigFraction::new(light(lights, byte), 1).within(exact, bound)
}

#[cfg(test)]
mod tests {
    use super::*;
    use crate::lights::codes;

    fn half_touch(level: u8) -> Touch {
        let half = Fraction { n: 1, d: 2 };
        Touch {
            level,
            player: 0,
            own: half,
            exact: half,
            apart: Fraction { n: 0, d: 1 },
        }
    }

    #[test]
    fn one_rounded_half_reaches_the_bound() {
        let (lights, touches) = (codes(), [half_touch(255)]);
        let exact = exact_blend(&lights, 0, &touches);
        let bound = bound(&lights, &touches);
        assert_eq!(byte_after(&lights, 0, &touches), 128);
        let fits = |byte| within(&lights, byte, &exact, &bound);
        assert_eq!([126, 127, 128, 129].map(fits), [false, true, true, false]);
    }

    /// A tie in the middle of the widest gap, and of a narrower one.
    #[test]
    fn the_widest_gap_counts_and_not_the_own_one() {
        let mut lights = codes();
        for light in &mut lights[7..] {
            *light += 9;
        }
        let touches = |level| [half_touch(level)];
        let fits = |byte, old, level| {
            let exact = exact_blend(&lights, old, &touches(level));
            within(&lights, byte, &exact, &bound(&lights, &touches(level)))
        };
        assert_eq!(byte_after(&lights, 6, &touches(7)), 7);
        assert_eq!(
            [5, 6, 7, 8].map(|byte| fits(byte, 6, 7)),
            [false, true, true, false]
        );
        // The bound is 5 there too, and the exact blend is 5 1/2 below the light of code 26.
        assert_eq!(byte_after(&lights, 20, &touches(21)), 21);
        assert_eq!([25, 26].map(|byte| fits(byte, 20, 21)), [true, false]);
    }

    /// A touch whose coverage is n over 512.
    fn touch(n: u64, level: u8) -> Touch {
        let coverage = Fraction { n, d: 512 };
        Touch {
            own: coverage,
            exact: coverage,
            ..half_touch(level)
        }
    }

    #[test]
    fn only_touches_after_the_last_whole_cover_count() {
        let counted = |shares: &[u64]| {
            let touches: Vec<Touch> = shares.iter().map(|&n| touch(n, 9)).collect();
            since_cover(&touches).len()
        };
        assert_eq!(counted(&[]), 0);
        assert_eq!(counted(&[1, 511, 256]), 3);
        assert_eq!(counted(&[1, 511, 512]), 0);
        assert_eq!(counted(&[512, 1, 511]), 2);
        assert_eq!(counted(&[512, 1, 512, 2, 3, 4]), 3);
        assert_eq!(counted(&[512, 512]), 0);
    }

    #[test]
    fn right_after_a_whole_cover_only_the_level_fits() {
        let lights = codes();
        let fits = |shares: &[u64]| {
            let touches: Vec<Touch> = shares.iter().map(|&n| touch(n, 77)).collect();
            let exact = exact_blend(&lights, 3, &touches);
            [76, 77, 78].map(|byte| within(&lights, byte, &exact, &bound(&lights, &touches)))
        };
        assert_eq!(fits(&[256, 1, 512]), [false, true, false]);
        // 511 of 512 leave 77 too, but not the exact blend: the bound has to stay.
        assert_eq!(fits(&[511]), [false, true, false]);
        let exact = exact_blend(&lights, 3, &[touch(511, 77)]);
        assert!(!within(&lights, 77, &exact, &BigFraction::new(0, 1)));
    }

    #[test]
    fn without_a_touch_only_the_background_fits() {
        let lights = codes();
        let exact = exact_blend(&lights, 9, &[]);
        let fits = |byte| within(&lights, byte, &exact, &bound(&lights, &[]));
        assert_eq!([8, 9, 10].map(fits), [false, true, false]);
    }
}
