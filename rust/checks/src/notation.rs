//! Shapes, clips and records as the tables write them.

use reference::format::Header;
use reference::shape::{Clip, Disc, Line, Record, Ring, Setting, Shape, Triangle};
use std::fmt::Display;
use std::str::FromStr;

/// What the writer is asked for.
#[derive(Clone, Copy, Debug)]
pub enum Writable {
    Header(Header),
    Record(Record),
}

/// Numbers parted by blanks, exactly `N` of them.
pub fn numbers<T: FromStr, const N: usize>(text: &str) -> [T; N] {
    let parse = |word: &str| word.parse().ok();
    let parsed: Option<Vec<T>> = text.split_whitespace().map(parse).collect();
    let array = parsed.and_then(|list| list.try_into().ok());
    array.unwrap_or_else(|| panic!("{N} numbers in range expected, not `{text}`"))
}

/// The first word, and what follows it.
fn keyword(text: &str) -> (&str, &str) {
    let text = text.trim();
    text.split_once(' ').unwrap_or((text, ""))
}

pub fn parse_shape(text: &str) -> Shape {
    let (kind, fields) = keyword(text);
    match kind {
        "exact" | "approx" => {
            let [x0, y0, x1, y1] = numbers(fields);
            let exact = kind == "exact";
            Shape::Line(Line {
                exact,
                x0,
                y0,
                x1,
                y1,
            })
        }
        "disc" | "bigdisc" => parse_disc(fields, kind == "bigdisc"),
        "ring" | "bigring" => parse_ring(fields, kind == "bigring"),
        "triangle" => Shape::Triangle(triangle_of(numbers(fields))),
        _ => panic!("no shape is called `{kind}`"),
    }
}

pub fn parse_line(text: &str) -> Line {
    match parse_shape(text) {
        Shape::Line(line) => line,
        shape => panic!("{shape:?} is no line"),
    }
}

fn parse_disc(fields: &str, big: bool) -> Shape {
    let [x, y, radius]: [i32; 3] = numbers(fields);
    Shape::Disc(Disc {
        x: narrow(x),
        y: narrow(y),
        radius: narrow(radius),
        big,
    })
}

fn parse_ring(fields: &str, big: bool) -> Shape {
    let [x, y, radius, width]: [i32; 4] = numbers(fields);
    Shape::Ring(Ring {
        x: narrow(x),
        y: narrow(y),
        radius: narrow(radius),
        width: narrow(width),
        big,
    })
}

/// The triangle of three corners, x before y.
pub fn triangle_of([x0, y0, x1, y1, x2, y2]: [i16; 6]) -> Triangle {
    Triangle {
        x0,
        y0,
        x1,
        y1,
        x2,
        y2,
    }
}

/// Coordinates are signed and radii are not, and a length is wider than a side, so a mixed row is
/// parsed wide first.
pub fn narrow<W: Copy + Display, N: TryFrom<W>>(value: W) -> N {
    let narrowed = N::try_from(value).ok();
    narrowed.unwrap_or_else(|| panic!("{value} does not fit its field"))
}

pub fn parse_clip(text: &str) -> Clip {
    let [x0, y0, x1, y1] = numbers(text);
    Clip { x0, y0, x1, y1 }
}

pub fn parse_writable(text: &str) -> Writable {
    let (kind, fields) = keyword(text);
    match kind {
        "header" => {
            let [version, width, height, background]: [u16; 4] = numbers(fields);
            Writable::Header(Header {
                version,
                width,
                height,
                background: narrow(background),
            })
        }
        "end" => Writable::Record(Record::End),
        "clip" => Writable::Record(Record::Setting(Setting::Clip(parse_clip(fields)))),
        "level" => {
            let [level] = numbers(fields);
            Writable::Record(Record::Setting(Setting::Level(level)))
        }
        "player" => {
            let [player] = numbers(fields);
            Writable::Record(Record::Setting(Setting::Player(player)))
        }
        _ => Writable::Record(Record::Shape(parse_shape(text))),
    }
}

pub fn show_record(record: &Record) -> String {
    match record {
        Record::End => "end".to_string(),
        Record::Setting(Setting::Clip(c)) => format!("clip {} {} {} {}", c.x0, c.y0, c.x1, c.y1),
        Record::Setting(Setting::Level(level)) => format!("level {level}"),
        Record::Setting(Setting::Player(player)) => format!("player {player}"),
        Record::Shape(shape) => show_shape(shape),
    }
}

fn show_shape(shape: &Shape) -> String {
    match shape {
        Shape::Line(line) => {
            let kind = if line.exact { "exact" } else { "approx" };
            format!("{kind} {} {} {} {}", line.x0, line.y0, line.x1, line.y1)
        }
        Shape::Disc(disc) => {
            let kind = if disc.big { "bigdisc" } else { "disc" };
            format!("{kind} {} {} {}", disc.x, disc.y, disc.radius)
        }
        Shape::Ring(ring) => {
            let kind = if ring.big { "bigring" } else { "ring" };
            format!(
                "{kind} {} {} {} {}",
                ring.x, ring.y, ring.radius, ring.width
            )
        }
        Shape::Triangle(t) => {
            let (x0, y0, x1, y1, x2, y2) = (t.x0, t.y0, t.x1, t.y1, t.x2, t.y2);
            format!("triangle {x0} {y0} {x1} {y1} {x2} {y2}")
        }
    }
}
