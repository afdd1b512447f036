//! The library's calls on the reference's types, so that answers can be compared.
//!
//! Fit lights are tried once and lent as such; unfit ones are lent raw, for the library to refuse.

use crate::notation::Writable;
use crate::rows::{ShapeCall, Writing};
use greystroke::{raw, Lights};
use reference::coverage::Fraction;
use reference::format::Header;
use reference::list::{Checked, Drawn};
use reference::refusal::Refused;
use reference::shape::{Basis, Clip, Disc, Line, Record, Ring, Setting, Shape, Triangle};

pub fn coverage(shape: &Shape, x: i16, y: i16) -> Result<Fraction, Refused> {
    match greystroke::coverage(library_shape(shape), x, y) {
        Ok(cover) => Ok(Fraction {
            n: cover.n,
            d: cover.d,
        }),
        Err(refusal) => Err(without_place(refusal)),
    }
}

pub fn last_column(
    width: u16,
    height: u16,
    clip: &Clip,
    line: &Line,
) -> Result<Option<u64>, Refused> {
    let (size, clip) = (library_size(width, height), library_clip(clip));
    greystroke::last_column(size, clip, library_line(line)).map_err(without_place)
}

pub fn draw_shape(call: &mut ShapeCall) -> Result<u64, Refused> {
    let size = library_size(call.width, call.height);
    let clip = library_clip(&call.clip);
    let shape = library_shape(&call.shape);
    let (page, level) = (&mut call.page, call.level);
    let outcome = match Lights::new(&call.lights) {
        Ok(lights) => greystroke::draw_shape(page, size, &lights, clip, level, shape),
        Err(_) => raw::draw_shape(page, size, &call.lights, clip, level, shape),
    };
    outcome.map_err(without_place)
}

/// The record and the bytes past it; with a refusal all that was lent.
pub fn read_record(bytes: &[u8], basis: Basis) -> (Result<Record, Refused>, &[u8]) {
    match greystroke::read_record(bytes, library_basis(basis)) {
        Ok((record, rest)) => (Ok(reference_record(record)), rest),
        Err(refusal) => (Err(without_place(refusal)), bytes),
    }
}

pub fn check_list(list: &[u8], page_length: usize, lights: &[u16]) -> Result<Checked, Refused> {
    let outcome = match Lights::new(lights) {
        Ok(lights) => greystroke::check_list(list, page_length, &lights),
        Err(_) => raw::check_list(list, page_length, lights),
    };
    reference_checked(outcome)
}

pub fn check_without_page(list: &[u8]) -> Result<Checked, Refused> {
    reference_checked(greystroke::check_without_page(list))
}

/// What a check of a list answered, the library's or one that answers alike.
pub fn reference_checked(
    outcome: Result<greystroke::Checked, greystroke::ListRefusal>,
) -> Result<Checked, Refused> {
    match outcome {
        Ok(greystroke::Checked { header, ceiling }) => Ok(Checked {
            header: Header {
                version: header.version,
                width: header.size.width,
                height: header.size.height,
                background: header.background,
            },
            ceiling,
        }),
        Err(refusal) => Err(with_place(refusal)),
    }
}

pub fn squeeze_list(squeezed: &mut [u8], list: &[u8]) -> Result<usize, Refused> {
    greystroke::squeeze_list(squeezed, list).map_err(with_place)
}

pub fn draw_list(list: &[u8], page: &mut [u8], lights: &[u16]) -> Result<Drawn, Refused> {
    let outcome = match Lights::new(lights) {
        Ok(lights) => greystroke::draw_list(page, &lights, list),
        Err(_) => raw::draw_list(page, lights, list),
    };
    match outcome {
        Ok(picture) => Ok(Drawn {
            width: picture.size.width,
            height: picture.size.height,
            touched: picture.touched,
        }),
        Err(refusal) => Err(with_place(refusal)),
    }
}

pub fn write(writing: &mut Writing, what: &Writable) -> Result<(), Refused> {
    let mut writer = greystroke::Writer {
        list: &mut writing.list,
        place: writing.place,
        basis: library_basis(writing.basis),
    };
    let outcome = match what {
        Writable::Header(header) => writer.write_header(greystroke::Header {
            version: header.version,
            size: library_size(header.width, header.height),
            background: header.background,
        }),
        Writable::Record(record) => writer.write_record(library_record(record)),
    };
    (writing.place, writing.basis) = (writer.place, reference_basis(writer.basis));
    outcome.map_err(without_place)
}

/// The refusal of a call on a whole list.
pub fn with_place(refused: greystroke::ListRefusal) -> Refused {
    Refused {
        number: refused.refusal.number(),
        place: refused.place,
    }
}

/// Calls other than those on a whole list refuse at place 0; `greystroke` panics where the library
/// tells another.
pub(crate) fn without_place(refusal: greystroke::Refusal) -> Refused {
    Refused {
        number: refusal.number(),
        place: 0,
    }
}

pub(crate) fn library_size(width: u16, height: u16) -> greystroke::Size {
    greystroke::Size { width, height }
}

fn library_basis(basis: Basis) -> greystroke::Basis {
    greystroke::Basis {
        version: basis.version,
        size: library_size(basis.width, basis.height),
    }
}

fn reference_basis(basis: greystroke::Basis) -> Basis {
    Basis {
        version: basis.version,
        width: basis.size.width,
        height: basis.size.height,
    }
}

pub(crate) fn library_clip(clip: &Clip) -> greystroke::Clip {
    let &Clip { x0, y0, x1, y1 } = clip;
    greystroke::Clip { x0, y0, x1, y1 }
}

fn library_record(record: &Record) -> greystroke::Record {
    match record {
        Record::End => greystroke::Record::End,
        Record::Setting(Setting::Clip(clip)) => {
            greystroke::Record::Setting(greystroke::Setting::Clip(library_clip(clip)))
        }
        Record::Setting(Setting::Level(level)) => {
            greystroke::Record::Setting(greystroke::Setting::Level(*level))
        }
        Record::Setting(Setting::Player(player)) => {
            greystroke::Record::Setting(greystroke::Setting::Player(*player))
        }
        Record::Shape(shape) => greystroke::Record::Shape(library_shape(shape)),
    }
}

fn reference_record(record: greystroke::Record) -> Record {
    match record {
        greystroke::Record::End => Record::End,
        greystroke::Record::Setting(greystroke::Setting::Clip(clip)) => {
            let greystroke::Clip { x0, y0, x1, y1 } = clip;
            Record::Setting(Setting::Clip(Clip { x0, y0, x1, y1 }))
        }
        greystroke::Record::Setting(greystroke::Setting::Level(level)) => {
            Record::Setting(Setting::Level(level))
        }
        greystroke::Record::Setting(greystroke::Setting::Player(player)) => {
            Record::Setting(Setting::Player(player))
        }
        greystroke::Record::Shape(shape) => Record::Shape(reference_shape(shape)),
    }
}

fn reference_shape(shape: greystroke::Shape) -> Shape {
    match shape {
        greystroke::Shape::Line(line) => Shape::Line(Line {
            exact: line.exact,
            x0: line.x0,
            y0: line.y0,
            x1: line.x1,
            y1: line.y1,
        }),
        greystroke::Shape::Disc(disc) => Shape::Disc(Disc {
            x: disc.x,
            y: disc.y,
            radius: disc.radius,
            big: disc.big,
        }),
        greystroke::Shape::Ring(ring) => Shape::Ring(Ring {
            x: ring.x,
            y: ring.y,
            radius: ring.radius,
            width: ring.width,
            big: ring.big,
        }),
        greystroke::Shape::Triangle(triangle) => Shape::Triangle(Triangle {
            x0: triangle.x0,
            y0: triangle.y0,
            x1: triangle.x1,
            y1: triangle.y1,
            x2: triangle.x2,
            y2: triangle.y2,
        }),
    }
}

fn library_line(line: &Line) -> greystroke::Line {
    let &Line {
        exact,
        x0,
        y0,
        x1,
        y1,
    } = line;
    greystroke::Line {
        exact,
        x0,
        y0,
        x1,
        y1,
    }
}

pub(crate) fn library_shape(shape: &Shape) -> greystroke::Shape {
    match *shape {
        Shape::Line(line) => greystroke::Shape::Line(library_line(&line)),
        Shape::Disc(disc) => greystroke::Shape::Disc(greystroke::Disc {
            x: disc.x,
            y: disc.y,
            radius: disc.radius,
            big: disc.big,
        }),
        Shape::Ring(ring) => greystroke::Shape::Ring(greystroke::Ring {
            x: ring.x,
            y: ring.y,
            radius: ring.radius,
            width: ring.width,
            big: ring.big,
        }),
        Shape::Triangle(triangle) => greystroke::Shape::Triangle(greystroke::Triangle {
            x0: triangle.x0,
            y0: triangle.y0,
            x1: triangle.x1,
            y1: triangle.y1,
            x2: triangle.x2,
            y2: triangle.y2,
        }),
    }
}
