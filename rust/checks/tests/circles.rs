//! Discs and rings of every radius: the library's coverage and its drawing against the reference's
//! heights, which are worked out once for each radius.

use checks::library;
use checks::rows::ShapeCall;
use reference::coverage::{chord_cover, height, Fraction};
use reference::lights::codes;
use reference::page::{blend, page_length};
use reference::shape::{Clip, Disc, Ring, Shape, LARGEST_RADIUS, LARGEST_SIDE};

const SIDE: usize = LARGEST_SIDE as usize;

/// A disc by the pixels at the distances m and n from its centre, m at most n: an eighth of it.
struct Octant {
    heights: Vec<i128>,
}

impl Octant {
    fn of(radius: u16) -> Octant {
        let distances = 0..i128::from(radius);
        Octant {
            heights: distances.map(|k| height(radius, k)).collect(),
        }
    }

    /// The 512ths that the disc covers of a pixel.
    fn cover(&self, m: usize, n: usize) -> usize {
        let height = |k: usize| self.heights.get(k).copied().unwrap_or(0);
        chord_cover(height(m), height(m + 1), n as i128) as usize
    }

    /// The row that a height ends in.
    fn row(&self, k: usize) -> usize {
        self.heights
            .get(k)
            .map_or(0, |&height| height as usize / 256)
    }
}

/// Asks about the pixels of the octant that the edge may cross, and one on either side of them.
#[test]
fn every_radius_is_asked_about_along_its_edge() {
    for radius in 1..=LARGEST_RADIUS {
        let octant = Octant::of(radius);
        let shape = Shape::Disc(Disc {
            x: 0,
            y: 0,
            radius,
            big: radius.is_multiple_of(2),
        });
        for m in 0..usize::from(radius) {
            let inside = octant.row(m + 1).saturating_sub(1);
            for n in m.max(inside)..=octant.row(m) + 1 {
                let found = library::coverage(&shape, m as i16, n as i16);
                let n_512 = octant.cover(m, n) as u64;
                let expected = Fraction { n: n_512, d: 512 };
                assert_eq!(found, Ok(expected), "radius {radius} at {m} {n}");
            }
        }
    }
}

/// Draws white on black about corners of the largest page, which has a quarter of each shape.
struct Corners {
    call: ShapeCall,
    /// The byte that each of the 513 coverages leaves.
    shades: Vec<u8>,
}

impl Corners {
    fn new(shape: Shape) -> Corners {
        let shade = |n| blend(&codes(), 0, 255, Fraction { n, d: 512 });
        Corners {
            call: ShapeCall {
                page: vec![0; page_length(LARGEST_SIDE, LARGEST_SIDE)],
                width: LARGEST_SIDE,
                height: LARGEST_SIDE,
                lights: codes(),
                clip: Clip::whole(LARGEST_SIDE, LARGEST_SIDE),
                level: 255,
                shape,
            },
            shades: (0..=512).map(shade).collect(),
        }
    }

    /// Compares the bytes of an octant, and the count of the quarter.
    fn assert_drawn(&mut self, shape: Shape, radius: u16, cover: impl Fn(usize, usize) -> usize) {
        let (right, bottom) = far_sides(radius);
        let from = |far: bool, distance: usize| if far { SIDE - 1 - distance } else { distance };
        self.call.shape = shape;
        self.call.page.fill(0);
        let found = library::draw_shape(&mut self.call);
        let mut touched = 0;
        for n in 0..=usize::from(radius) {
            let row = &self.call.page[from(bottom, n) * SIDE..][..SIDE];
            for m in 0..=n {
                let cover = cover(m, n);
                let byte = row[from(right, m)];
                assert_eq!(byte, self.shades[cover], "{shape:?} at {m} {n}");
                // Its mirror image across the diagonal is another pixel.
                touched += u64::from(cover > 0) * if m == n { 1 } else { 2 };
            }
        }
        assert_eq!(found, Ok(touched), "{shape:?}");
    }
}

/// Whether a shape of this radius stands at the right and at the bottom of the page.
fn far_sides(radius: u16) -> (bool, bool) {
    (radius % 2 == 1, radius / 2 % 2 == 1)
}

fn corner(radius: u16) -> (i16, i16) {
    let (right, bottom) = far_sides(radius);
    let side = |far| if far { LARGEST_SIDE as i16 } else { 0 };
    (side(right), side(bottom))
}

fn disc(radius: u16) -> Shape {
    let ((x, y), big) = (corner(radius), radius.is_multiple_of(3));
    Shape::Disc(Disc { x, y, radius, big })
}

#[test]
fn a_disc_of_every_radius_is_drawn() {
    let mut corners = Corners::new(disc(1));
    for radius in 1..=LARGEST_RADIUS {
        let octant = Octant::of(radius);
        corners.assert_drawn(disc(radius), radius, |m, n| octant.cover(m, n));
    }
}

#[test]
fn a_ring_of_every_radius_is_drawn() {
    let mut corners = Corners::new(disc(1));
    for radius in 1..=LARGEST_RADIUS {
        let (x, y) = corner(radius);
        let widths = [1, radius / 4 + 1, radius];
        let width = widths[usize::from(radius) % 3];
        let ring = Shape::Ring(Ring {
            x,
            y,
            radius,
            width,
            big: radius.is_multiple_of(5),
        });
        let (outer, inner) = (Octant::of(radius), Octant::of(radius - width));
        let cover = |m, n| outer.cover(m, n) - inner.cover(m, n);
        corners.assert_drawn(ring, radius, cover);
    }
}
