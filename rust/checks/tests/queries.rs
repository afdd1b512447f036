//! Coverage queries: the library against the reference on random shapes, and on the stored rows.

use checks::answers::{agree, texts_agree};
use checks::calls::answer;
use checks::cases::rows;
use checks::classes::{
    bytes_class, direction, directions, kind, signed_spans, triangle_classes, Tally, TRIANGLES,
};
use checks::library;
use checks::random::Random;
use checks::strokes::shape_and_pixel;
use reference::coverage::{query, Fraction};
use reference::refusal::Refused;
use reference::shape::{Line, Shape};

const QUERIES: u32 = 400_000;
/// Every class of input has to come up at least this often.
const LEAST: u32 = 100;

type Answer = Result<Fraction, Refused>;

/// Classes that a run must meet. Lines meet theirs once exact and once approximate.
fn wanted() -> Vec<String> {
    let mut wanted: Vec<String> = [7, 9, 10, 33, 11, 34, 35]
        .map(|n| format!("refused {n}"))
        .into();
    let refused = [
        "line end",
        "centre",
        "corner",
        "pixel",
        "pixel before 9",
        "pixel before 34",
        "pixel before 35",
    ];
    wanted.extend(refused.map(|what| format!("refused 7: {what}")));
    let values = [0, 1, 2, 254, 255, 256, 257, 1022, 1023, 1024, 65535];
    wanted.extend(values.map(|value| format!("disc of radius {value}")));
    let widths = ["0", "1", "the radius", "one more than the radius"];
    wanted.extend(widths.map(|width| format!("ring of width {width}")));
    for kind in ["disc", "ring"] {
        wanted.push(format!("{kind} whole"));
        wanted.extend([10, 33].map(|n| format!("{kind} refused {n}")));
        for (radius, big) in [(255, false), (255, true), (1023, false), (1023, true)] {
            wanted.push(format!("{kind} {}, in part", bytes_class(radius, big)));
        }
    }
    wanted.extend([10, 33].map(|n| format!("refused {n} before 11")));
    for kind in ["exact", "approximate", "disc", "ring", "triangle"] {
        wanted.extend(["uncovered", "covered", "at the last pixel"].map(|c| format!("{kind} {c}")));
    }
    let triangles = TRIANGLES.into_iter().chain(["whole", "in part"]);
    wanted.extend(triangles.map(|class| format!("triangle {class}")));
    for kind in ["exact", "approximate"] {
        let classes = ["l = 1", "two rows", "three rows", "t = 0", "longest span"];
        wanted.extend(classes.map(|class| format!("{kind} {class}")));
        wanted.extend(directions().iter().map(|way| format!("{kind} {way}")));
    }
    wanted
}

fn classes(shape: &Shape, x: i16, y: i16, answer: &Answer) -> Vec<String> {
    match answer {
        Err(refusal) => refusal_classes(shape, x, y, refusal),
        Ok(cover) => {
            let kind = kind(shape);
            let mut classes = lawful_classes(shape, x, y);
            classes.push(if cover.n > 0 { "covered" } else { "uncovered" }.to_string());
            if cover.n == cover.d {
                classes.push("whole".to_string());
            } else if cover.n > 0 {
                classes.push(match bytes_of(shape) {
                    Some(class) => format!("{class}, in part"),
                    None => "in part".to_string(),
                });
            }
            if [x, y].iter().any(|c| [-4096, 4095].contains(c)) && cover.n > 0 {
                classes.push("at the last pixel".to_string());
            }
            let named = classes.into_iter().map(|class| format!("{kind} {class}"));
            named.collect()
        }
    }
}

fn refusal_classes(shape: &Shape, x: i16, y: i16, refusal: &Refused) -> Vec<String> {
    let mut classes = vec![format!("refused {}", refusal.number)];
    if refusal.number == 7 {
        let pixel = [x, y].iter().any(|c| !(-4096..=4095).contains(c));
        let form = shape.form_refusal().map(|refusal| refusal.number());
        let what = match (shape, form) {
            (_, Some(next)) if shape.coordinate_refusal().is_none() => {
                format!("pixel before {next}")
            }
            _ if shape.coordinate_refusal().is_none() && pixel => "pixel".to_string(),
            (Shape::Line(_), _) => "line end".to_string(),
            (Shape::Triangle(_), _) => "corner".to_string(),
            _ => "centre".to_string(),
        };
        classes.push(format!("refused 7: {what}"));
    } else {
        let kind = kind(shape);
        classes.push(format!("{kind} refused {}", refusal.number));
        classes.extend(circle_class(shape).map(|class| format!("{kind} {class}")));
    }
    if let Shape::Ring(ring) = shape {
        if !(1..=ring.radius).contains(&ring.width) {
            classes.push(format!("refused {} before 11", refusal.number));
        }
    }
    classes
}

fn lawful_classes(shape: &Shape, x: i16, y: i16) -> Vec<String> {
    match shape {
        Shape::Line(line) => line_classes(line, x, y),
        Shape::Triangle(triangle) => triangle_classes(triangle),
        _ => circle_class(shape).into_iter().collect(),
    }
}

fn circle_class(shape: &Shape) -> Option<String> {
    match shape {
        Shape::Line(_) | Shape::Triangle(_) => None,
        Shape::Disc(disc) => Some(format!("of radius {}", disc.radius)),
        Shape::Ring(ring) if ring.width == ring.radius => Some("of width the radius".to_string()),
        Shape::Ring(ring) if ring.width.checked_sub(1) == Some(ring.radius) => {
            Some("of width one more than the radius".to_string())
        }
        Shape::Ring(ring) => Some(format!("of width {}", ring.width)),
    }
}

fn bytes_of(shape: &Shape) -> Option<String> {
    match shape {
        Shape::Line(_) | Shape::Triangle(_) => None,
        Shape::Disc(disc) => Some(bytes_class(disc.radius, disc.big)),
        Shape::Ring(ring) => Some(bytes_class(ring.radius, ring.big)),
    }
}

fn line_classes(line: &Line, x: i16, y: i16) -> Vec<String> {
    let (dx, dy) = signed_spans(line);
    let (l, s) = (dx.abs().max(dy.abs()), dx.abs().min(dy.abs()));
    let mut classes = vec![direction(line)];
    if l == 1 {
        classes.push("l = 1".to_string());
    }
    if l == 8191 {
        classes.push("longest span".to_string());
    }
    let column = match dy.abs() > dx.abs() {
        true => i64::from(y) - i64::from(line.y0.min(line.y1)),
        false => i64::from(x) - i64::from(line.x0.min(line.x1)),
    };
    if (0..l).contains(&column) {
        let t = (l + 2 * s * column) % (2 * l) + 2 * s - 2 * l;
        let rows = match t.signum() {
            1 => "three rows",
            0 => "t = 0",
            _ => "two rows",
        };
        classes.push(rows.to_string());
    }
    classes
}

#[test]
fn random_queries_agree() {
    let mut random = Random::new(1);
    let mut tally = Tally::default();
    for _ in 0..QUERIES {
        let (shape, x, y) = shape_and_pixel(&mut random);
        let expected = query(&shape, x, y);
        let found = library::coverage(&shape, x, y);
        let told = format!("{shape:?} at {x} {y}: {found:?} for {expected:?}");
        assert!(agree(&shape, &found, &expected), "{told}");
        tally.meet(classes(&shape, x, y, &expected));
    }
    tally.require(wanted(), LEAST);
}

#[test]
fn stored_rows_agree() {
    let rows = rows("queries");
    for row in &rows {
        let found = answer(&format!("queries {}", row.call));
        let told = format!("{}: {found} for {}", row.call, row.answer);
        assert!(texts_agree(&row.call, &found, &row.answer), "{told}");
    }
    assert_eq!(rows.len(), 679);
}
