//! One shape on a page: the library against the reference on random drawings in many lights, on the
//! stored rows, and on the reference strokes of document 01 that concern drawing.

use checks::calls::answer;
use checks::cases::rows;
use checks::classes::{
    bytes_class, direction, directions, kind, signed_spans, triangle_classes, Tally, TRIANGLES,
};
use checks::drawings::drawing;
use checks::lights::{fit_lights, named, rising_lights, spoil_lights, FIT, UNFIT};
use checks::notation::triangle_of;
use checks::random::Random;
use checks::rows::ShapeCall;
use checks::{library, reference_page};
use greystroke::Lights;
use reference::coverage::{exact_coverage, height, query, Fraction};
use reference::lights::lights_refusal;
use reference::page::{blend, page_length};
use reference::refusal::Refused;
use reference::shape::{page_size_refusal, Clip, Disc, Line, Ring, Shape};

const DRAWS: u32 = 60_000;
/// Every class of input has to come up at least this often.
const LEAST: u32 = 30;

type Answer = Result<u64, Refused>;

/// Refusals that a run must meet.
fn wanted_refusals() -> Vec<String> {
    let refusals = [3, 21, 32, 8, 7, 9, 10, 33, 11, 34, 35];
    let mut wanted: Vec<String> = refusals.map(|n| format!("refused {n}")).into();
    let pairs = [
        (3, 8),
        (3, 9),
        (21, 8),
        (21, 7),
        (8, 7),
        (8, 9),
        (8, 10),
        (8, 33),
        (8, 34),
        (8, 35),
        (7, 34),
    ];
    let of_lights = [
        (3, 32),
        (21, 32),
        (32, 8),
        (32, 7),
        (32, 9),
        (32, 10),
        (32, 33),
        (32, 34),
        (32, 35),
    ];
    let pairs = pairs.into_iter().chain(of_lights);
    wanted.extend(pairs.map(|(first, next)| format!("refused {first} before {next}")));
    let sides = ["W is 0", "W is 1025", "H is 0", "H is 1025"];
    wanted.extend(sides.map(String::from));
    wanted.extend(["refused 21: no byte", "refused 21: one byte short"].map(String::from));
    wanted
}

/// Classes that a run must meet.
fn wanted() -> Vec<String> {
    let mut wanted = wanted_refusals();
    wanted.extend(["empty clip", "empty clip at the last corner"].map(String::from));
    for kind in ["exact", "approximate", "disc", "ring", "triangle"] {
        let drawn = [
            "touches nothing",
            "touches the clip's one pixel",
            "under a whole clip",
            "on a surplus page",
            "on 1024 columns",
            "on 1024 rows",
            "at level 0",
            "at level 255",
            "cut at the left",
            "cut at the right",
            "cut at the top",
            "cut at the bottom",
            "cut nowhere",
            "leaves touched bytes",
        ];
        wanted.extend(drawn.map(|class| format!("{kind} {class}")));
        let lights = FIT.into_iter().chain(["random"]);
        wanted.extend(lights.map(|name| format!("{kind} in lights {name}")));
    }
    for kind in ["exact", "approximate"] {
        wanted.extend(directions().iter().map(|way| format!("{kind} {way}")));
        let spans = ["l = 1", "longest span", "with both ends far off"];
        wanted.extend(spans.map(|class| format!("{kind} {class}")));
    }
    for kind in ["disc", "ring"] {
        let radii = [1, 254, 255, 256, 257, 1022, 1023];
        wanted.extend(radii.map(|radius| format!("{kind} of radius {radius}")));
        let sizes = [(255, false), (255, true), (1023, false), (1023, true)];
        wanted.extend(sizes.map(|(radius, big)| format!("{kind} {}", bytes_class(radius, big))));
    }
    wanted.extend(["disc", "triangle"].map(|kind| format!("{kind} of whole pixels")));
    wanted.extend(TRIANGLES.map(|class| format!("triangle {class}")));
    wanted.extend(["width 1", "width the radius", "a hole"].map(|what| format!("ring of {what}")));
    wanted
}

/// Classes of a drawing, by the name of its lights, the call before and after, and its answer.
fn classes(lights: &str, before: &ShapeCall, after: &ShapeCall, answer: &Answer) -> Vec<String> {
    let touched = match answer {
        Err(refusal) => return refusal_classes(before, refusal),
        Ok(touched) => *touched,
    };
    let Clip { x0, y0, x1, y1 } = before.clip;
    let mut classes = Vec::new();
    if x0 == x1 || y0 == y1 {
        classes.push("empty clip".to_string());
        if (x0, y0) == (before.width, before.height) {
            classes.push("empty clip at the last corner".to_string());
        }
    }
    let kind = kind(&before.shape);
    if touched == 0 {
        classes.push(format!("{kind} touches nothing"));
        return classes;
    }
    let mut drawn = settings_classes(before);
    drawn.push(format!("in lights {lights}"));
    drawn.extend(cut_classes(before));
    drawn.extend(shape_classes(before));
    let changed = before.page.iter().zip(&after.page).filter(|(u, v)| u != v);
    if (changed.count() as u64) < touched {
        drawn.push("leaves touched bytes".to_string());
    }
    classes.extend(drawn.iter().map(|class| format!("{kind} {class}")));
    classes
}

/// The refusal, and the refusals that it came before.
fn refusal_classes(call: &ShapeCall, refusal: &Refused) -> Vec<String> {
    let (width, height) = (call.width, call.height);
    let pixels = page_length(width, height);
    let first = refusal.number;
    let mut classes = vec![format!("refused {first}")];
    let later = [
        page_size_refusal(width, height),
        lights_refusal(&call.lights),
        call.clip.first_refusal(width, height),
        call.shape.coordinate_refusal(),
        call.shape.form_refusal(),
    ];
    let later = later.into_iter().flatten().map(|refusal| refusal.number());
    classes.extend(later.map(|next| format!("refused {first} before {next}")));
    match first {
        3 => classes.extend([format!("W is {width}"), format!("H is {height}")]),
        21 if call.page.is_empty() => classes.push("refused 21: no byte".to_string()),
        21 if call.page.len() + 1 == pixels => {
            classes.push("refused 21: one byte short".to_string());
        }
        _ => {}
    }
    classes
}

fn settings_classes(call: &ShapeCall) -> Vec<String> {
    let Clip { x0, y0, x1, y1 } = call.clip;
    let (width, height) = (call.width, call.height);
    let mut classes = vec![format!("at level {}", call.level)];
    if (x1 - x0, y1 - y0) == (1, 1) {
        classes.push("touches the clip's one pixel".to_string());
    }
    if call.clip == Clip::whole(width, height) {
        classes.push("under a whole clip".to_string());
    }
    if call.page.len() > page_length(width, height) {
        classes.push("on a surplus page".to_string());
    }
    if width == 1024 {
        classes.push("on 1024 columns".to_string());
    }
    if height == 1024 {
        classes.push("on 1024 rows".to_string());
    }
    classes
}

/// The sides of the clip on which the shape covers both the pixel inside and the one outside; or
/// that there is none.
fn cut_classes(call: &ShapeCall) -> Vec<String> {
    let Clip { x0, y0, x1, y1 } = call.clip;
    let covers = |x: i32, y: i32| exact_coverage(&call.shape, x, y).n > 0;
    let cut_in_column = |one: i32, other: i32| {
        let mut rows = i32::from(y0)..i32::from(y1);
        rows.any(|y| covers(one, y) && covers(other, y))
    };
    let cut_in_row = |one: i32, other: i32| {
        let mut columns = i32::from(x0)..i32::from(x1);
        columns.any(|x| covers(x, one) && covers(x, other))
    };
    let (x0, y0, x1, y1) = (i32::from(x0), i32::from(y0), i32::from(x1), i32::from(y1));
    let cuts = [
        ("left", cut_in_column(x0 - 1, x0)),
        ("right", cut_in_column(x1 - 1, x1)),
        ("top", cut_in_row(y0 - 1, y0)),
        ("bottom", cut_in_row(y1 - 1, y1)),
    ];
    if cuts.iter().all(|(_, met)| !met) {
        return vec!["cut nowhere".to_string()];
    }
    let met = cuts.into_iter().filter(|(_, met)| *met);
    met.map(|(side, _)| format!("cut at the {side}")).collect()
}

fn shape_classes(call: &ShapeCall) -> Vec<String> {
    match &call.shape {
        Shape::Line(line) => line_classes(call, line),
        Shape::Disc(disc) => {
            let mut classes = radius_classes(disc.radius, disc.big);
            classes.extend(whole_class(call));
            classes
        }
        Shape::Ring(ring) => ring_classes(call, ring),
        Shape::Triangle(triangle) => {
            let mut classes = triangle_classes(triangle);
            classes.extend(whole_class(call));
            classes
        }
    }
}

fn line_classes(call: &ShapeCall, line: &Line) -> Vec<String> {
    let (dx, dy) = signed_spans(line);
    let longer = dx.abs().max(dy.abs());
    let mut classes = vec![direction(line)];
    if longer == 1 {
        classes.push("l = 1".to_string());
    }
    if longer == 8191 {
        classes.push("longest span".to_string());
    }
    let far = |c: i16, side: u16| c < -100 || i32::from(c) > i32::from(side) + 100;
    let ends = [(line.x0, line.y0), (line.x1, line.y1)];
    if ends
        .iter()
        .all(|(x, y)| far(*x, call.width) || far(*y, call.height))
    {
        classes.push("with both ends far off".to_string());
    }
    classes
}

fn radius_classes(radius: u16, big: bool) -> Vec<String> {
    vec![format!("of radius {radius}"), bytes_class(radius, big)]
}

fn ring_classes(call: &ShapeCall, ring: &Ring) -> Vec<String> {
    let mut classes = radius_classes(ring.radius, ring.big);
    classes.push(format!("of width {}", ring.width));
    if ring.width == ring.radius {
        classes.push("of width the radius".to_string());
    }
    let centre = |side: u16, c: i16| (1..i32::from(side)).contains(&c.into());
    let on_page = centre(call.width, ring.x) && centre(call.height, ring.y);
    if on_page && ring.radius - ring.width > 2 {
        classes.push("of a hole".to_string());
    }
    classes
}

/// Whether a pixel of the clip is covered whole.
fn whole_class(call: &ShapeCall) -> Option<String> {
    let Clip { x0, y0, x1, y1 } = call.clip;
    let pixels = (y0..y1).flat_map(|y| (x0..x1).map(move |x| (x, y)));
    let mut covers = pixels.map(|(x, y)| exact_coverage(&call.shape, x.into(), y.into()));
    let whole = covers.any(|Fraction { n, d }| n == d);
    whole.then(|| "of whole pixels".to_string())
}

/// The call without its page, which may be long.
fn describe(call: &ShapeCall) -> String {
    let ShapeCall {
        page,
        width,
        height,
        lights,
        clip,
        level,
        shape,
    } = call;
    let length = page.len();
    format!(
        "{shape:?} at level {level} under {clip:?} on {width} by {height}, {length} bytes, \
         in lights {lights:?}"
    )
}

/// Draws by the reference and by the library, which must agree.
fn agreed(call: &ShapeCall) -> (ShapeCall, Answer) {
    let (mut expected, mut found) = (call.clone(), call.clone());
    let expected_answer = reference_page::draw_shape(&mut expected);
    let found_answer = library::draw_shape(&mut found);
    assert_eq!(found_answer, expected_answer, "{}", describe(call));
    // Equal bytes past W·H too, and after a refusal equal to those before it.
    assert!(found.page == expected.page, "{}", describe(call));
    if expected_answer.is_err() {
        assert!(found.page == call.page, "{}", describe(call));
    }
    (expected, expected_answer)
}

#[test]
fn random_draws_agree() {
    let mut random = Random::new(2);
    let mut tally = Tally::default();
    for _ in 0..DRAWS {
        let (lights, call) = drawing(&mut random);
        let (expected, answer) = agreed(&call);
        tally.meet(classes(lights, &call, &expected, &answer));
    }
    tally.require(wanted(), LEAST);
}

fn disc(x: i16, y: i16, radius: u16) -> Shape {
    let big = radius > 255;
    Shape::Disc(Disc { x, y, radius, big })
}

fn ring(x: i16, y: i16, radius: u16, width: u16) -> Shape {
    Shape::Ring(Ring {
        x,
        y,
        radius,
        width,
        big: radius > 255,
    })
}

/// A disc and rings of several widths.
fn circles(middle: i16, radius: u16) -> Vec<Shape> {
    let widths = [1, radius / 2, radius - 1, radius];
    let lawful = widths.into_iter().filter(|width| *width > 0);
    let rings = lawful.map(|width| ring(middle, middle, radius, width));
    [disc(middle, middle, radius)]
        .into_iter()
        .chain(rings)
        .collect()
}

/// Circles that just fit the clip, and those that each side of it cuts by a pixel: radii around
/// the one up to which heights are held in a short array.
#[test]
fn circles_at_the_sides_of_a_clip_agree() {
    for radius in [1, 2, 5, 31, 32, 33, 34] {
        let side = 2 * radius + 4;
        for (shape, cut) in circles((side / 2) as i16, radius)
            .into_iter()
            .flat_map(|shape| (0..16).map(move |cut| (shape, cut)))
        {
            let edge = |bit: u16| 2 + (cut >> bit & 1);
            let clip = Clip {
                x0: edge(0),
                y0: edge(1),
                x1: side - edge(2),
                y1: side - edge(3),
            };
            for lights in ["codes", "gamma"] {
                let call = ShapeCall {
                    clip,
                    ..call_of(side, 90, named(lights), 200, shape)
                };
                let (_, answer) = agreed(&call);
                assert!(answer.is_ok(), "{}", describe(&call));
            }
        }
    }
}

/// Larger circles under strips of three columns or rows about each of their four sides, which the
/// page has or cuts.
#[test]
fn large_circles_at_their_sides_agree() {
    let (side, middle) = (1024, 512);
    for radius in [254, 255, 256, 257, 511, 512, 513, 1023] {
        let near = |edge: i32| {
            let low = (edge - 1).clamp(0, i32::from(side) - 3) as u16;
            (low, low + 3)
        };
        let edges = [middle - i32::from(radius), middle + i32::from(radius) - 1];
        for (shape, (low, high)) in circles(middle as i16, radius)
            .into_iter()
            .flat_map(|shape| edges.map(|edge| (shape, near(edge))))
        {
            let whole = Clip::whole(side, side);
            let (x0, x1, y0, y1) = (low, high, low, high);
            for clip in [Clip { x0, x1, ..whole }, Clip { y0, y1, ..whole }] {
                let call = ShapeCall {
                    clip,
                    ..call_of(side, 90, named("gamma"), 200, shape)
                };
                let (_, answer) = agreed(&call);
                assert!(answer.is_ok(), "{}", describe(&call));
            }
        }
    }
}

#[test]
fn stored_rows_agree() {
    let rows = rows("draws");
    for row in &rows {
        let found = answer(&format!("draws {}", row.call));
        assert_eq!(found, row.answer, "{}", row.call);
    }
    assert_eq!(rows.len(), 1150);
}

/// A page of one level and one shape on it, under a whole clip.
fn call_of(side: u16, background: u8, lights: Vec<u16>, level: u8, shape: Shape) -> ShapeCall {
    ShapeCall {
        page: vec![background; page_length(side, side)],
        width: side,
        height: side,
        lights,
        clip: Clip::whole(side, side),
        level,
        shape,
    }
}

/// The answer and the page after such a call, with lights equal to codes.
fn drawn(side: u16, background: u8, level: u8, shape: Shape) -> (Answer, Vec<u8>) {
    let mut call = call_of(side, background, named("codes"), level, shape);
    (library::draw_shape(&mut call), call.page)
}

fn line(exact: bool, x0: i16, y0: i16, x1: i16, y1: i16) -> Shape {
    Shape::Line(Line {
        exact,
        x0,
        y0,
        x1,
        y1,
    })
}

/// Lines and a disc whose every coverage is a half.
fn halves() -> [Shape; 3] {
    let (exact, approximate) = (line(true, 0, 1, 2, 1), line(false, 2, 1, 0, 1));
    [exact, approximate, disc(1, 1, 1)]
}

#[test]
fn a_half_gives_128_from_either_side_and_in_squares_180() {
    for shape in halves() {
        for (background, level) in [(0, 255), (255, 0)] {
            assert_eq!(drawn(2, background, level, shape), (Ok(4), vec![128; 4]));
            let mut call = call_of(2, background, named("square"), level, shape);
            assert_eq!(library::draw_shape(&mut call), Ok(4));
            assert_eq!(call.page, [180; 4]);
        }
    }
}

fn refused(number: u64) -> Answer {
    Err(Refused { number, place: 0 })
}

/// A disc and a ring of these, each for one byte and for two.
fn of_either_size(radius: u16, width: u16) -> [Shape; 4] {
    let (x, y) = (128, 128);
    let disc = |big| Shape::Disc(Disc { x, y, radius, big });
    let ring = |big| {
        Shape::Ring(Ring {
            x,
            y,
            radius,
            width,
            big,
        })
    };
    [disc(false), disc(true), ring(false), ring(true)]
}

/// Whatever kind the shape would be written as.
#[test]
fn radius_1023_is_drawn_and_1024_refused() {
    for radius in [255, 256, 1022, 1023] {
        for shape in of_either_size(radius, radius) {
            // The page's corners are sqrt(2)·128 from the centre, well within 255.
            assert_eq!(drawn(256, 0, 9, shape), (Ok(65_536), vec![9; 65_536]));
        }
    }
    let cases = [
        (0, 0, 10),
        (0, 1, 10),
        (1024, 1, 33),
        (1024, 0, 33),
        (u16::MAX, u16::MAX, 33),
    ];
    for (radius, width, number) in cases {
        for shape in of_either_size(radius, width) {
            assert_eq!(drawn(256, 0, 9, shape), (refused(number), vec![0; 65_536]));
        }
    }
}

/// Draws a disc so that the pixel at these distances from its centre is on a small page, in each of
/// the eight octants, and hands back its coverage, which query and reference agree on.
fn cover_in_octants(radius: u16, m: i16, n: i16) -> [u64; 8] {
    let turns: [(bool, bool, bool); 8] =
        std::array::from_fn(|turn| (turn & 1 > 0, turn & 2 > 0, turn & 4 > 0));
    turns.map(|(exchange, left, up)| {
        let (a, b) = if exchange { (n, m) } else { (m, n) };
        let across = if left { -a - 1 } else { a };
        let down = if up { -b - 1 } else { b };
        let shape = disc(0, 0, radius);
        let cover = query(&shape, across, down).expect("a lawful disc");
        assert_eq!(library::coverage(&shape, across, down), Ok(cover));

        let call = call_of(
            4,
            0,
            named("codes"),
            255,
            disc(1 - across, 2 - down, radius),
        );
        let (after, _) = agreed(&call);
        let alone = ShapeCall {
            clip: Clip {
                x0: 1,
                y0: 2,
                x1: 2,
                y1: 3,
            },
            ..call
        };
        assert_eq!(agreed(&alone).1, Ok(u64::from(cover.n > 0)));
        assert_eq!(after.page[2 * 4 + 1], blend(&named("codes"), 0, 255, cover));
        cover.n
    })
}

/// Next to its top a circle of radius 257 is below row line 257, and the height is on it.
#[test]
fn a_height_that_rounds_up_to_a_row_line() {
    assert_eq!(height(257, 1), 256 * 257);
    assert_eq!(cover_in_octants(257, 0, 256), [512; 8]);
    assert_eq!(cover_in_octants(257, 1, 256), [510; 8]);
}

/// The circle passes row line 268: 273² − 52² = 268² + 1. The height is on that line.
#[test]
fn a_height_that_rounds_down_to_a_row_line() {
    assert_eq!(height(273, 52), 256 * 268);
    assert_eq!(cover_in_octants(273, 52, 268), [0; 8]);
    assert!(cover_in_octants(273, 51, 268).iter().all(|&n| n > 0));
}

#[test]
fn coordinate_4095_is_drawn_and_4096_refused() {
    for exact in [true, false] {
        let (answer, page) = drawn(2, 0, 255, line(exact, -4096, 1, 4095, 1));
        assert_eq!((answer, page), (Ok(4), vec![128; 4]));
        let (answer, page) = drawn(2, 0, 255, line(exact, 1, 4095, 1, -4096));
        assert_eq!((answer, page), (Ok(4), vec![128; 4]));
        for shape in [
            line(exact, -4096, 1, 4096, 1),
            line(exact, 1, -4097, 1, 4095),
        ] {
            assert_eq!(drawn(2, 0, 255, shape), (refused(7), vec![0; 4]));
        }
    }
    for radius in [255, 1023] {
        let disc = |x| disc(x, 0, radius);
        assert_eq!(drawn(2, 0, 255, disc(4095)), (Ok(0), vec![0; 4]));
        assert_eq!(drawn(2, 0, 255, disc(4096)), (refused(7), vec![0; 4]));
    }
}

/// Half way between two neighbouring lights the higher code is written, from either side and
/// however wide the gap.
#[test]
fn a_tie_goes_to_the_higher_code() {
    for name in FIT {
        for (low, high) in (0..255).map(|code| (code, code + 1)) {
            for shape in halves() {
                for (background, level) in [(low, high), (high, low)] {
                    let mut call = call_of(2, background, named(name), level, shape);
                    assert_eq!(library::draw_shape(&mut call), Ok(4));
                    assert_eq!(call.page, [high; 4], "{}", describe(&call));
                }
            }
        }
    }
}

/// Every byte under every level, half covered, and by a line that slowly comes to the next row.
#[test]
fn every_byte_and_level_agree() {
    let mut random = Random::new(3);
    let shapes = [line(true, 0, 1, 256, 1), line(false, 0, 1, 256, 2)];
    let mut lights: Vec<Vec<u16>> = FIT.map(named).into();
    lights.extend((0..5).map(|_| rising_lights(&mut random)));
    for (lights, shape) in lights
        .iter()
        .flat_map(|lights| shapes.map(|shape| (lights, shape)))
    {
        for level in 0..=255 {
            let call = ShapeCall {
                page: (0..=255u8).cycle().take(3 * 256).collect(),
                width: 256,
                height: 3,
                lights: lights.clone(),
                clip: Clip::whole(256, 3),
                level,
                shape,
            };
            let (_, answer) = agreed(&call);
            assert!(answer.is_ok(), "{}", describe(&call));
        }
    }
}

/// Lights a + b·k leave the bytes that codes leave, and no lights move a count or a refusal.
#[test]
fn even_lights_are_as_good_as_codes() {
    let mut random = Random::new(4);
    for _ in 0..4_000 {
        let (_, call) = drawing(&mut random);
        let with = |name| {
            let mut call = ShapeCall {
                lights: named(name),
                ..call.clone()
            };
            (library::draw_shape(&mut call), call.page)
        };
        let (answer, page) = with("codes");
        for name in FIT {
            assert_eq!(with(name).0, answer, "{}", describe(&call));
        }
        for name in ["wide", "offset", "even", "top"] {
            assert!(with(name).1 == page, "{name}: {}", describe(&call));
        }
    }
}

/// A pixel that is covered whole has the level, whatever the lights.
#[test]
fn a_whole_cover_leaves_the_level() {
    let triangle = Shape::Triangle(triangle_of([-40, -9, 60, -9, 4, 90]));
    let shapes = [disc(4, 4, 20), disc(4, 4, 700), triangle];
    for (name, shape) in FIT
        .into_iter()
        .flat_map(|name| shapes.map(|shape| (name, shape)))
    {
        for (background, level) in [(0, 255), (255, 0), (7, 8), (200, 199)] {
            let mut call = call_of(8, background, named(name), level, shape);
            assert_eq!(library::draw_shape(&mut call), Ok(64));
            assert_eq!(call.page, [level; 64], "{}", describe(&call));
        }
    }
}

/// Those of the tables, and random ones.
fn unfit_lights() -> Vec<Vec<u16>> {
    let mut random = Random::new(5);
    let mut unfit: Vec<Vec<u16>> = UNFIT.map(named).into();
    unfit.extend((0..400).map(|_| {
        let (_, mut lights) = fit_lights(&mut random);
        spoil_lights(&mut random, &mut lights);
        lights
    }));
    unfit
}

/// 3, 21, 32, then 8: each before all that follow it.
#[test]
fn unfit_lights_come_after_the_page_and_before_the_clip() {
    let no_line = line(true, 4096, 0, 4096, 0);
    for lights in unfit_lights() {
        let mut call = call_of(4, 9, lights, 200, line(true, 0, 0, 4, 4));
        assert_eq!(agreed(&call).1, refused(32));
        call.shape = no_line;
        assert_eq!(agreed(&call).1, refused(32));
        call.clip.x1 = 5;
        assert_eq!(agreed(&call).1, refused(32));
        call.page.pop();
        assert_eq!(agreed(&call).1, refused(21));
        call.width = 0;
        assert_eq!(agreed(&call).1, refused(3));
    }
}

#[test]
fn lights_are_tried_when_they_are_made() {
    for unfit in unfit_lights() {
        assert_eq!(Lights::new(&unfit), Err(greystroke::Refusal::Lights));
    }
    for fit in FIT.map(named) {
        let lights = Lights::new(&fit).expect("fit lights");
        assert_eq!(lights.as_slice(), fit);
    }
    assert_eq!(Lights::codes().as_slice(), named("codes"));
}
