//! The words of a line, and what they stand for.

use greystroke::{
    Clip, Disc, Header, Line, ListRefusal, Record, Ring, Setting, Shape, Size, Triangle,
    LATEST_VERSION,
};
use std::str::FromStr;

// Words in capitals stand for numbers; the others stand as they are.
pub const PAGE: &str = "page W H BACKGROUND";
const PAGE_OF_VERSION: &str = "page W H BACKGROUND version VERSION";
pub const RECORD: &str = "a record (clip, level, player, exact, approximate, disc, ring, \
    bigdisc, bigring, triangle or end)";
const CLIP: &str = "clip X Y X Y";
const LEVEL: &str = "level LEVEL";
const PLAYER: &str = "player PLAYER";
const EXACT: &str = "exact X Y X Y";
const APPROXIMATE: &str = "approximate X Y X Y";
const DISC: &str = "disc X Y RADIUS";
const RING: &str = "ring X Y RADIUS WIDTH";
const BIG_DISC: &str = "bigdisc X Y RADIUS";
const BIG_RING: &str = "bigring X Y RADIUS WIDTH";
const TRIANGLE: &str = "triangle X Y X Y X Y";
const END: &str = "end";

/// What a line should have been, where it is something else.
#[derive(Clone, Debug, PartialEq, Eq)]
pub struct Unexpected {
    pub expected: &'static str,
    /// A field and the number that does not fit it, where that is the reason.
    pub unfit: Option<(&'static str, String)>,
}

/// The header that a first line stands for, of the latest version unless it tells another.
pub fn header_of(words: &[&str]) -> Result<Header, Unexpected> {
    let told = words.contains(&"version");
    let mut fields = Fields::of(words, if told { PAGE_OF_VERSION } else { PAGE })?;
    let (width, height) = (fields.next()?, fields.next()?);
    let background = fields.next()?;
    let version = if told { fields.next()? } else { LATEST_VERSION };
    Ok(Header {
        version,
        size: Size { width, height },
        background,
    })
}

/// The record that a later line stands for.
pub fn record_of(words: &[&str]) -> Result<Record, Unexpected> {
    match words.first().copied() {
        Some("end") => Fields::of(words, END).map(|_| Record::End),
        Some("clip") => clip_of(words).map(|clip| Record::Setting(Setting::Clip(clip))),
        Some("level") => {
            let level = Fields::of(words, LEVEL)?.next()?;
            Ok(Record::Setting(Setting::Level(level)))
        }
        Some("player") => {
            let player = Fields::of(words, PLAYER)?.next()?;
            Ok(Record::Setting(Setting::Player(player)))
        }
        Some("exact") => line_of(words, EXACT, true),
        Some("approximate") => line_of(words, APPROXIMATE, false),
        Some("disc") => disc_of(words, DISC, false),
        Some("ring") => ring_of(words, RING, false),
        Some("bigdisc") => disc_of(words, BIG_DISC, true),
        Some("bigring") => ring_of(words, BIG_RING, true),
        Some("triangle") => triangle_of(words),
        _ => Err(unexpected(RECORD)),
    }
}

fn clip_of(words: &[&str]) -> Result<Clip, Unexpected> {
    let mut fields = Fields::of(words, CLIP)?;
    Ok(Clip {
        x0: fields.next()?,
        y0: fields.next()?,
        x1: fields.next()?,
        y1: fields.next()?,
    })
}

fn line_of(words: &[&str], form: &'static str, exact: bool) -> Result<Record, Unexpected> {
    let mut fields = Fields::of(words, form)?;
    Ok(Record::Shape(Shape::Line(Line {
        exact,
        x0: fields.next()?,
        y0: fields.next()?,
        x1: fields.next()?,
        y1: fields.next()?,
    })))
}

fn disc_of(words: &[&str], form: &'static str, big: bool) -> Result<Record, Unexpected> {
    let mut fields = Fields::of(words, form)?;
    Ok(Record::Shape(Shape::Disc(Disc {
        x: fields.next()?,
        y: fields.next()?,
        radius: fields.next()?,
        big,
    })))
}

fn ring_of(words: &[&str], form: &'static str, big: bool) -> Result<Record, Unexpected> {
    let mut fields = Fields::of(words, form)?;
    Ok(Record::Shape(Shape::Ring(Ring {
        x: fields.next()?,
        y: fields.next()?,
        radius: fields.next()?,
        width: fields.next()?,
        big,
    })))
}

fn triangle_of(words: &[&str]) -> Result<Record, Unexpected> {
    let mut fields = Fields::of(words, TRIANGLE)?;
    Ok(Record::Shape(Shape::Triangle(Triangle {
        x0: fields.next()?,
        y0: fields.next()?,
        x1: fields.next()?,
        y1: fields.next()?,
        x2: fields.next()?,
        y2: fields.next()?,
    })))
}

/// The numbers of a line, taken one after the other beside the names of their fields.
struct Fields<'a> {
    form: &'static str,
    left: Vec<(&'static str, &'a str)>,
}

impl<'a> Fields<'a> {
    /// The words of the form, with a number for each of its fields.
    fn of(words: &[&'a str], form: &'static str) -> Result<Fields<'a>, Unexpected> {
        let names: Vec<&str> = form.split_whitespace().collect();
        let fits = |(name, word): (&&str, &&str)| match is_field(name) {
            true => is_number(word),
            false => name == word,
        };
        if words.len() != names.len() || !names.iter().zip(words).all(fits) {
            return Err(unexpected(form));
        }
        let mut left: Vec<_> = names.into_iter().zip(words.iter().copied()).collect();
        left.retain(|(name, _)| is_field(name));
        left.reverse();
        Ok(Fields { form, left })
    }

    fn next<T: FromStr>(&mut self) -> Result<T, Unexpected> {
        let (name, word) = self.left.pop().expect("a field is taken once");
        word.parse().map_err(|_| Unexpected {
            expected: self.form,
            unfit: Some((name, word.to_string())),
        })
    }
}

fn unexpected(expected: &'static str) -> Unexpected {
    Unexpected {
        expected,
        unfit: None,
    }
}

fn is_field(name: &str) -> bool {
    name.bytes().all(|byte| byte.is_ascii_uppercase())
}

/// Digits, with a minus in front or not.
fn is_number(word: &str) -> bool {
    let digits = word.strip_prefix('-').unwrap_or(word);
    !digits.is_empty() && digits.bytes().all(|byte| byte.is_ascii_digit())
}

/// The version is told where it is not the one that a text has without it.
pub fn header_words(header: Header) -> String {
    let Size { width, height } = header.size;
    let page = format!("page {width} {height} {}", header.background);
    match header.version {
        LATEST_VERSION => page,
        version => format!("{page} version {version}"),
    }
}

/// What is told of a refused list.
pub fn refusal_words(refused: ListRefusal) -> String {
    let ListRefusal { refusal, place } = refused;
    let (number, reason) = (refusal.number(), refusal.reason());
    format!("refused {number} at {place}: {reason}")
}

pub fn record_words(record: Record) -> String {
    match record {
        Record::End => "end".to_string(),
        Record::Setting(Setting::Clip(Clip { x0, y0, x1, y1 })) => {
            format!("clip {x0} {y0} {x1} {y1}")
        }
        Record::Setting(Setting::Level(level)) => format!("level {level}"),
        Record::Setting(Setting::Player(player)) => format!("player {player}"),
        Record::Shape(Shape::Line(line)) => line_words(line),
        Record::Shape(Shape::Disc(disc)) => disc_words(disc),
        Record::Shape(Shape::Ring(ring)) => ring_words(ring),
        Record::Shape(Shape::Triangle(triangle)) => triangle_words(triangle),
    }
}

fn line_words(line: Line) -> String {
    let rule = if line.exact { "exact" } else { "approximate" };
    format!("{rule} {} {} {} {}", line.x0, line.y0, line.x1, line.y1)
}

fn disc_words(disc: Disc) -> String {
    let kind = if disc.big { "bigdisc" } else { "disc" };
    format!("{kind} {} {} {}", disc.x, disc.y, disc.radius)
}

fn ring_words(ring: Ring) -> String {
    let kind = if ring.big { "bigring" } else { "ring" };
    format!(
        "{kind} {} {} {} {}",
        ring.x, ring.y, ring.radius, ring.width
    )
}

fn triangle_words(triangle: Triangle) -> String {
    let Triangle {
        x0,
        y0,
        x1,
        y1,
        x2,
        y2,
    } = triangle;
    format!("triangle {x0} {y0} {x1} {y1} {x2} {y2}")
}
