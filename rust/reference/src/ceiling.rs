//! The ceiling of a list's touches, told without drawing it.

use crate::list::Drawing;
use crate::shape::{Clip, Disc, Ring, Shape};

/// The sum over the shapes of an accepted list, each under the clip in force.
pub fn list_ceiling(drawings: &[Drawing]) -> u64 {
    let ceiling = |drawing: &Drawing| shape_ceiling(&drawing.shape, &drawing.clip);
    drawings.iter().map(ceiling).sum()
}

/// Three times the longer span of a line, four times the radius squared of a disc or a ring, width
/// times height of a triangle; none counts more than the pixels of the clip.
pub fn shape_ceiling(shape: &Shape, clip: &Clip) -> u64 {
    let count = match *shape {
        Shape::Line(line) => {
            let (across, down) = (line.x0.abs_diff(line.x1), line.y0.abs_diff(line.y1));
            3 * u64::from(across.max(down))
        }
        Shape::Disc(Disc { radius, .. }) | Shape::Ring(Ring { radius, .. }) => {
            4 * u64::from(radius) * u64::from(radius)
        }
        Shape::Triangle(triangle) => u64::from(triangle.width()) * u64::from(triangle.height()),
    };
    count.min(clip.pixels())
}

#[cfg(test)]
mod tests {
    use super::*;
    use crate::shape::{Line, Triangle};

    const PAGE: Clip = Clip {
        x0: 0,
        y0: 0,
        x1: 1024,
        y1: 1024,
    };

    fn line(x1: i16, y1: i16) -> Shape {
        Shape::Line(Line {
            exact: false,
            x0: 4,
            y0: -7,
            x1,
            y1,
        })
    }

    fn triangle(x2: i16, y2: i16) -> Shape {
        Shape::Triangle(Triangle {
            x0: 5,
            y0: -3,
            x1: 9,
            y1: 2,
            x2,
            y2,
        })
    }

    #[test]
    fn each_shape_counts_by_its_size() {
        for (shape, ceiling) in [
            (line(14, -7), 30),
            (line(4, -17), 30),
            (line(-6, 2), 30),
            (line(-6, 3), 30),
            (line(-6, 13), 60),
            (triangle(7, 0), 20),
            (triangle(0, 0), 45),
            (triangle(20, -30), 480),
        ] {
            assert_eq!(shape_ceiling(&shape, &PAGE), ceiling, "{shape:?}");
        }
        let (x, y, big) = (-4096, 4095, true);
        for (radius, ceiling) in [(1, 4), (9, 324), (511, 1_044_484)] {
            let disc = Shape::Disc(Disc { x, y, radius, big });
            assert_eq!(shape_ceiling(&disc, &PAGE), ceiling);
            for width in [1, radius] {
                let ring = Shape::Ring(Ring {
                    x,
                    y,
                    radius,
                    width,
                    big,
                });
                assert_eq!(shape_ceiling(&ring, &PAGE), ceiling);
            }
        }
    }

    #[test]
    fn none_counts_more_than_the_clip_keeps() {
        let clip = |x1, y1| Clip {
            x0: 3,
            y0: 4,
            x1,
            y1,
        };
        for (clip, ceiling) in [
            (clip(9, 9), 30),
            (clip(8, 9), 25),
            (clip(4, 5), 1),
            (clip(3, 9), 0),
            (clip(9, 4), 0),
        ] {
            assert_eq!(shape_ceiling(&line(14, -7), &clip), ceiling);
            assert_eq!(shape_ceiling(&triangle(20, -30), &clip), clip.pixels());
        }
    }
}
