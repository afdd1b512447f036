//! Lines, discs, rings and triangles on a grey page, drawn and measured by the proved library.
//!
//! A shape is given in lattice corners from −4096 to 4095; pixel (x, y) is the square between
//! the corners (x, y) and (x + 1, y + 1). [`draw_shape`] blends a shape into a lent page, one byte
//! a pixel, by the [`Lights`] of the screen that will show it. [`coverage`] tells the share of one
//! pixel that a shape covers, as a fraction that is not reduced, and [`last_column`] how far a line
//! goes before it leaves a clip for good. A drawing list holds many shapes as bytes: [`Writer`]
//! makes one, [`read_record`] reads it record by record, [`check_list`] tries it whole and tells the
//! ceiling of its touches, [`check_without_page`] does so before there is a page, [`squeeze_list`]
//! leaves out its settings that change nothing, and [`draw_list`] draws it and counts what each
//! player's shapes touch.
//!
//! ```
//! use greystroke::{coverage, draw_shape, Clip, Fraction, Lights, Line, Refusal, Shape, Size};
//!
//! let line = Shape::Line(Line { exact: true, x0: 0, y0: 0, x1: 2, y1: 1 });
//! assert_eq!(coverage(line, 0, 0), Ok(Fraction { n: 12, d: 16 }));
//! assert_eq!(coverage(line, 4096, 0), Err(Refusal::Coordinate));
//!
//! let size = Size { width: 2, height: 2 };
//! let (lights, clip) = (Lights::codes(), Clip::whole(size));
//! let mut page = [0; 4];
//! assert_eq!(draw_shape(&mut page, size, &lights, clip, 16, line), Ok(3));
//! assert_eq!(page, [12, 12, 0, 4]);
//! ```

mod boundary;
mod column;
mod coverage;
mod drawing;
mod lights;
mod list;
mod picture;
pub mod raw;
mod refusal;
mod shape;
mod squeeze;

pub use column::last_column;
pub use coverage::{coverage, Fraction};
pub use drawing::{draw_shape, Clip, Size};
pub use lights::Lights;
pub use list::{
    check_list, check_without_page, read_record, Basis, Checked, Header, ListRefusal, Record,
    Setting, Writer, LATEST_VERSION,
};
pub use picture::{draw_list, Picture, PLAYERS};
pub use refusal::Refusal;
pub use shape::{Disc, Line, Ring, Shape, Triangle};
pub use squeeze::squeeze_list;
