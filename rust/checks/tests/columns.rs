//! The last column of a line under a clip, and the drawing that ends there: the library against the
//! reference on random lines, on every line of a small square, and on the stored rows.

use checks::calls::answer;
use checks::cases::rows;
use checks::classes::{direction, directions, kind, Tally};
use checks::flung::{line_call, LineCall};
use checks::lights::named;
use checks::random::Random;
use checks::{library, reference_page};
use reference::column::{last_column, touched_columns};
use reference::coverage::Frame;
use reference::refusal::Refused;
use reference::shape::{page_size_refusal, Clip, Line, Shape};
use std::ops::Range;

const CALLS: u32 = 80_000;
/// Every class of input has to come up at least this often.
const LEAST: u32 = 30;

type Answer = Result<Option<u64>, Refused>;

/// Classes that a run must meet.
fn wanted() -> Vec<String> {
    let mut wanted: Vec<String> = [3, 8, 7, 9].map(|n| format!("refused {n}")).into();
    let pairs = [(3, 8), (3, 7), (3, 9), (8, 7), (8, 9), (7, 9)];
    wanted.extend(pairs.map(|(first, next)| format!("refused {first} before {next}")));
    let sides = ["W is 0", "W is 1025", "H is 0", "H is 1025"];
    wanted.extend(sides.map(String::from));
    for kind in ["exact", "approximate"] {
        wanted.extend(wanted_of(kind));
    }
    wanted
}

/// Classes that exact and approximate lines must meet alike.
fn wanted_of(kind: &str) -> Vec<String> {
    let mut wanted: Vec<String> = [
        "under an empty clip",
        "in columns that never meet the clip",
        "from its first column",
        "from the clip's first column",
        "to its last column",
        "to the clip's last column",
        "in one column alone",
        "l = 1",
        "longest span",
        "on 1024 columns",
        "on 1024 rows",
    ]
    .map(|class| format!("{kind} {class}"))
    .into();
    for way in directions() {
        let mut classes = vec!["found", "beside the clip"];
        if !way.starts_with("s = 0") {
            classes.extend(["past a corner", "from the clip's first row"]);
            classes.push("to the clip's last row");
        }
        // Where s = l, t is l in every column.
        if way.starts_with("flat") || way.starts_with("steep") {
            classes.extend(["t = 0 before the first", "t = 0 in the last"]);
        }
        wanted.extend(classes.iter().map(|class| format!("{kind} {way} {class}")));
    }
    wanted
}

/// Classes of a call, by its answer.
fn classes(call: &LineCall, answer: &Answer) -> Vec<String> {
    let classes = match answer {
        Err(refusal) => return refusal_classes(call, refusal),
        Ok(None) => vec![missed_class(call)],
        Ok(Some(last)) => found_classes(call, *last),
    };
    let kind = kind(&Shape::Line(call.line));
    let named = classes.iter().map(|class| format!("{kind} {class}"));
    named.collect()
}

/// The refusal, and the refusals that it came before.
fn refusal_classes(call: &LineCall, refusal: &Refused) -> Vec<String> {
    let (width, height) = (call.width, call.height);
    let first = refusal.number;
    let mut classes = vec![format!("refused {first}")];
    let shape = Shape::Line(call.line);
    let later = [
        call.clip.first_refusal(width, height),
        shape.coordinate_refusal(),
        shape.form_refusal(),
    ];
    let later = later.into_iter().flatten().map(|refusal| refusal.number());
    classes.extend(later.map(|next| format!("refused {first} before {next}")));
    if page_size_refusal(width, height).is_some() {
        classes.extend([format!("W is {width}"), format!("H is {height}")]);
    }
    classes
}

/// The line's columns that are columns of the clip too, or rows of it where y is the longer.
fn kept_columns(call: &LineCall) -> Range<i128> {
    let (frame, Clip { x0, y0, x1, y1 }) = (Frame::of(&call.line), call.clip);
    let (from, _) = frame.place(x0.into(), y0.into());
    let (end, _) = frame.place(x1.into(), y1.into());
    from.max(0)..end.min(frame.l)
}

/// Why a line touches nothing.
fn missed_class(call: &LineCall) -> String {
    let (frame, Clip { x0, y0, x1, y1 }) = (Frame::of(&call.line), call.clip);
    if x0 == x1 || y0 == y1 {
        return "under an empty clip".to_string();
    }
    if kept_columns(call).is_empty() {
        return "in columns that never meet the clip".to_string();
    }
    let (_, one) = frame.place(x0.into(), y0.into());
    let (_, other) = frame.place(i32::from(x1) - 1, i32::from(y1) - 1);
    // From its first end to its last the line is in rows -1 to s.
    let rows_meet = one.min(other) <= frame.s && -1 <= one.max(other);
    let why = if rows_meet {
        "past a corner"
    } else {
        "beside the clip"
    };
    format!("{} {why}", direction(&call.line))
}

fn found_classes(call: &LineCall, last: u64) -> Vec<String> {
    let mut classes = end_classes(call, last.into());
    classes.push(format!("{} found", direction(&call.line)));
    match Frame::of(&call.line).l {
        1 => classes.push("l = 1".to_string()),
        8191 => classes.push("longest span".to_string()),
        _ => {}
    }
    if call.width == 1024 {
        classes.push("on 1024 columns".to_string());
    }
    if call.height == 1024 {
        classes.push("on 1024 rows".to_string());
    }
    classes
}

/// What the first touched column is, and what the last.
fn end_classes(call: &LineCall, last: i128) -> Vec<String> {
    let (frame, kept, way) = (
        Frame::of(&call.line),
        kept_columns(call),
        direction(&call.line),
    );
    let columns = touched_columns(&call.clip, &call.line);
    let first = i128::from(*columns.first().expect("a column was found"));
    let mut classes = vec![
        match first {
            0 => "from its first column".to_string(),
            _ if first == kept.start => "from the clip's first column".to_string(),
            _ => format!("{way} from the clip's first row"),
        },
        match last + 1 {
            next if next == frame.l => "to its last column".to_string(),
            next if next == kept.end => "to the clip's last column".to_string(),
            _ => format!("{way} to the clip's last row"),
        },
    ];
    if first == last {
        classes.push("in one column alone".to_string());
    }
    // Where t is 0, an edge of the band leaves the column just at a corner: the clip's row begins
    // there and is not yet touched, or it ends there and is not touched any more.
    let t = |i: i128| (frame.l + 2 * frame.s * i) % (2 * frame.l) + 2 * frame.s - 2 * frame.l;
    if kept.start < first && t(first - 1) == 0 {
        classes.push(format!("{way} t = 0 before the first"));
    }
    if last + 1 < kept.end && t(last) == 0 {
        classes.push(format!("{way} t = 0 in the last"));
    }
    classes
}

/// The last column and the drawing, each by the reference and by the library, which must agree.
fn agreed(call: &LineCall) -> Answer {
    let LineCall {
        width,
        height,
        clip,
        line,
    } = call;
    let expected = last_column(*width, *height, clip, line);
    let found = library::last_column(*width, *height, clip, line);
    assert_eq!(found, expected, "{call:?}");

    for lights in ["codes", "gamma"] {
        let drawn = drawn_alike(call, named(lights));
        // A page that is long enough is refused alike, and touched where a column is found.
        assert_eq!(
            drawn,
            found.map(|last| last.is_some()),
            "{lights}: {call:?}"
        );
    }
    expected
}

/// Whether the drawing, by the reference and by the library alike, touches anything.
fn drawn_alike(call: &LineCall, lights: Vec<u16>) -> Result<bool, Refused> {
    let mut expected = call.drawing(lights);
    let mut found = expected.clone();
    let expected_count = reference_page::draw_shape(&mut expected);
    let found_count = library::draw_shape(&mut found);
    assert_eq!(found_count, expected_count, "{call:?}");
    assert!(found.page == expected.page, "{call:?}");
    found_count.map(|touched| touched > 0)
}

#[test]
fn random_lines_agree() {
    let mut random = Random::new(13);
    let mut tally = Tally::default();
    for _ in 0..CALLS {
        let call = line_call(&mut random);
        let answer = agreed(&call);
        tally.meet(classes(&call, &answer));
    }
    tally.require(wanted(), LEAST);
}

/// Every line between two corners of a square about a small page, under the whole page and under
/// less of it: each way to start and to end at a side of a clip, in all directions.
#[test]
fn every_small_line_agrees() {
    let (width, height) = (4, 3);
    let clips = [
        (0, 0, 4, 3),
        (1, 0, 3, 2),
        (2, 1, 3, 2),
        (0, 1, 4, 2),
        (3, 0, 4, 3),
        (1, 1, 3, 1),
    ];
    let clips = clips.map(|(x0, y0, x1, y1)| Clip { x0, y0, x1, y1 });
    let corners: Vec<(i16, i16)> = (-5..=8)
        .flat_map(|x| (-5..=8).map(move |y| (x, y)))
        .collect();
    let ends = |one| corners.iter().map(move |other| (one, *other));
    for ((x0, y0), (x1, y1)) in corners.iter().flat_map(|one| ends(*one)) {
        for (exact, clip) in clips
            .iter()
            .flat_map(|clip| [(true, *clip), (false, *clip)])
        {
            let line = Line {
                exact,
                x0,
                y0,
                x1,
                y1,
            };
            let answer = agreed(&LineCall {
                width,
                height,
                clip,
                line,
            });
            assert_eq!(answer.is_err(), (x0, y0) == (x1, y1));
        }
    }
}

#[test]
fn stored_rows_agree() {
    let rows = rows("columns");
    for row in &rows {
        let found = answer(&format!("columns {}", row.call));
        assert_eq!(found, row.answer, "{}", row.call);
    }
    assert_eq!(rows.len(), 354);
}
