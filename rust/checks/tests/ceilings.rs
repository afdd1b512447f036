//! The ceiling of a list's touches: never below what the library counts, reached where it can be, and
//! the library's against the reference's and against stored rows.

use checks::calls::answer;
use checks::cases::rows;
use checks::classes::{kind, Tally};
use checks::library;
use checks::notation::{parse_shape, triangle_of};
use checks::pictures::{listed, picture, picture_of, small_picture, Listed};
use checks::random::Random;
use reference::format::{Header, LONGEST_LIST};
use reference::lights::codes;
use reference::list::{check_without_page, Drawing};
use reference::page::page_length;
use reference::shape::{Clip, Disc, Line, Record, Ring, Setting, Shape};

const PICTURES: u32 = 40_000;
const SPLIT_PICTURES: u32 = 10_000;
/// Every class of input has to come up at least this often.
const LEAST: u32 = 100;

fn header(width: u16, height: u16) -> Header {
    Header {
        version: 2,
        width,
        height,
        background: 9,
    }
}

/// The ceiling of an accepted list, on which library and reference agree, with a page and without.
fn ceiling(listed: &Listed) -> u64 {
    let Listed { header, list, .. } = listed;
    let expected = check_without_page(list).map(|accepted| accepted.checked());
    let found = library::check_without_page(list);
    assert_eq!(found, expected, "{list:02x?}");
    let pixels = page_length(header.width, header.height);
    let with_page = library::check_list(list, pixels, &codes());
    assert_eq!(with_page, expected, "{list:02x?}");
    found.expect("a lawful list").ceiling
}

/// The ceiling of an accepted list and its touches, which are no more.
fn ceiling_and_touches(listed: &Listed) -> (u64, u64) {
    let Listed { header, list, .. } = listed;
    let ceiling = ceiling(listed);
    let mut page = vec![7; page_length(header.width, header.height)];
    let drawn = library::draw_list(list, &mut page, &codes()).expect("a lawful list");
    let touches = drawn.touched.iter().sum();
    assert!(touches <= ceiling, "{touches} of {ceiling}: {list:02x?}");
    (ceiling, touches)
}

fn set_clip(x0: u16, y0: u16, x1: u16, y1: u16) -> Record {
    Record::Setting(Setting::Clip(Clip { x0, y0, x1, y1 }))
}

fn shape(words: &str) -> Record {
    Record::Shape(parse_shape(words))
}

#[test]
fn stored_rows_agree() {
    let rows = rows("ceilings");
    for row in &rows {
        let found = answer(&format!("ceilings {}", row.call));
        assert_eq!(found, row.answer, "{}", row.call);
    }
    assert_eq!(rows.len(), 164);
}

/// One line, disc or ring that lies wholly on a page of 12 by 12, and whether it touches as many
/// pixels as it counts.
#[test]
fn small_shapes_reach_their_ceiling_where_they_can() {
    let hold = |shape: Shape, reached: bool| {
        let list = listed(header(12, 12), vec![Record::Shape(shape)]);
        let (ceiling, touches) = ceiling_and_touches(&list);
        assert_eq!(
            touches == ceiling,
            reached,
            "{touches} of {ceiling}: {shape:?}"
        );
    };
    let corners = || (0..=6).flat_map(|y| (0..=6).map(move |x| (x + 3, y + 3)));
    for ((x0, y0), (x1, y1)) in corners().flat_map(|a| corners().map(move |b| (a, b))) {
        // A line of equal spans touches three rows in each column, any other two in some.
        let equal = i16::abs_diff(x0, x1) == i16::abs_diff(y0, y1);
        for exact in [true, false].into_iter().filter(|_| (x0, y0) != (x1, y1)) {
            let line = Line {
                exact,
                x0,
                y0,
                x1,
                y1,
            };
            hold(Shape::Line(line), equal);
        }
    }
    let (x, y) = (6, 6);
    for (radius, big) in (1..=6).flat_map(|radius| [(radius, false), (radius, true)]) {
        // The corner pixels of the box are touched up to radius 3.
        hold(Shape::Disc(Disc { x, y, radius, big }), radius <= 3);
        for width in 1..=radius {
            // The hole leaves no pixel out where it covers none whole.
            let reached = radius <= 3 && radius - width <= 1;
            let ring = Ring {
                x,
                y,
                radius,
                width,
                big,
            };
            hold(Shape::Ring(ring), reached);
        }
    }
}

/// All triangles on a lattice of five by five. One of width 1 or height 1 touches all of its box, some
/// of width 2 or height 2 do, and none that is larger both ways does.
#[test]
fn small_triangles_keep_their_ceiling() {
    let corners = || (0..5).flat_map(|y| (0..5).map(move |x| (x + 1, y + 1)));
    let mut reached = 0;
    for ((x0, y0), (x1, y1)) in corners().flat_map(|a| corners().map(move |b| (a, b))) {
        for (x2, y2) in corners() {
            let triangle = triangle_of([x0, y0, x1, y1, x2, y2]);
            let shape = Shape::Triangle(triangle);
            if shape.first_refusal().is_some() {
                continue;
            }
            let list = listed(header(7, 7), vec![Record::Shape(shape)]);
            let (ceiling, touches) = ceiling_and_touches(&list);
            match triangle.width().min(triangle.height()) {
                1 => assert_eq!(touches, ceiling, "{triangle:?}"),
                2 => reached += u32::from(touches == ceiling),
                _ => assert!(touches < ceiling, "{triangle:?}"),
            }
        }
    }
    assert!(reached > LEAST, "only {reached} of side 2 touch all");
}

/// What these shapes touch in a clip of a page of 11 by 9, and no less, is the ceiling of their list.
#[test]
fn lists_reach_their_ceiling() {
    let each_kind = [
        "exact 0 0 9 9",
        "approx 9 0 0 9",
        "disc 5 5 3",
        "ring 5 5 3 3",
        "bigdisc 5 5 1023",
        "bigring 5 5 1023 1023",
        "triangle 0 0 9 0 0 9",
    ];
    let whole = set_clip(0, 0, 11, 9);
    let rows: [(Record, &[&str], u64); 16] = [
        (whole, &[], 0),
        // empty clips, and one of a pixel that each shape touches
        (set_clip(3, 4, 3, 9), &each_kind, 0),
        (set_clip(3, 4, 9, 4), &each_kind, 0),
        (set_clip(11, 9, 11, 9), &each_kind, 0),
        (set_clip(4, 4, 5, 5), &each_kind, 7),
        // as many as the shapes count
        (whole, &["exact 1 1 2 2"], 3),
        (whole, &["approx 3 8 10 1"], 21),
        (whole, &["disc 5 5 3", "bigdisc 1 1 1"], 40),
        (whole, &["ring 5 5 2 1", "bigring 4 4 3 2"], 52),
        (whole, &["triangle 0 9 0 8 11 9"], 11),
        (whole, &["triangle 3 3 5 3 4 5"], 4),
        // as many as the clip has pixels
        (whole, &["bigdisc 5 5 1023", "bigring 0 0 300 300"], 198),
        (whole, &["triangle -9 -9 60 -9 -9 60"], 99),
        (set_clip(0, 3, 11, 5), &["exact 0 4 11 4"], 22),
        (set_clip(2, 3, 9, 8), &["disc 5 5 5"], 35),
        (set_clip(2, 3, 9, 8), &["ring 5 5 255 255"], 35),
    ];
    for (clip, shapes, count) in rows {
        let shapes = shapes.iter().map(|words| shape(words));
        let records = [clip].into_iter().chain(shapes).collect();
        let counted = ceiling_and_touches(&listed(header(11, 9), records));
        assert_eq!(counted, (count, count), "{clip:?}");
    }
}

/// A disc of radius 2 counts 16, or the pixels of the clip that is in force at it.
#[test]
fn a_clip_counts_for_the_shapes_behind_it() {
    let disc = shape("disc 5 5 2");
    let level = Record::Setting(Setting::Level(0));
    let player = |player| Record::Setting(Setting::Player(player));
    let told = |records: &[Record]| ceiling(&listed(header(11, 9), records.to_vec()));
    let mut records = vec![disc];
    let mut sum = 16;
    assert_eq!(told(&records), sum);
    for (clip, count) in [
        (set_clip(1, 1, 4, 4), 9),
        (set_clip(2, 2, 2, 9), 0),
        (set_clip(3, 3, 7, 7), 16),
        (set_clip(0, 0, 11, 9), 16),
        (set_clip(10, 8, 11, 9), 1),
    ] {
        // Behind the last shape a setting counts for none.
        records.extend([clip, level, player(3)]);
        assert_eq!(told(&records), sum);
        records.push(disc);
        sum += count;
        assert_eq!(told(&records), sum);
    }
    let of_each: Vec<Record> = (0..=7).flat_map(|p| [player(p), disc]).collect();
    assert_eq!(told(&of_each), 8 * 16);
}

#[test]
fn random_lists_keep_their_ceiling() {
    let mut random = Random::new(71);
    let mut tally = Tally::default();
    for number in 0..PICTURES {
        let list = match number % 2 {
            0 => picture(&mut random),
            _ => small_picture(&mut random),
        };
        let (ceiling, touches) = ceiling_and_touches(&list);
        let told = match touches {
            0 if ceiling == 0 => "of 0",
            0 => "nothing touched",
            _ if touches == ceiling => "reached",
            _ => "below",
        };
        let met = list.records.iter().filter_map(|record| match record {
            Record::Shape(shape) => Some(format!("{} in a list {told}", kind(shape))),
            _ => None,
        });
        tally.meet(met.collect());
    }
    for kind in ["exact", "approximate", "disc", "ring", "triangle"] {
        let told = ["of 0", "nothing touched", "reached", "below"];
        let wanted = told.map(|told| format!("{kind} in a list {told}"));
        tally.require(wanted.into(), LEAST);
    }
}

/// Each shape alone under the clip that was in force at it.
#[test]
fn a_ceiling_is_the_sum_of_its_shapes() {
    let mut random = Random::new(72);
    for _ in 0..SPLIT_PICTURES {
        let list = picture(&mut random);
        let accepted = check_without_page(&list.list).expect("a lawful list");
        let alone = |drawing: &Drawing| {
            let clip = Record::Setting(Setting::Clip(drawing.clip));
            let records = vec![clip, Record::Shape(drawing.shape)];
            ceiling(&listed(list.header, records))
        };
        let sum: u64 = accepted.drawings.iter().map(alone).sum();
        assert_eq!(ceiling(&list), sum, "{:02x?}", list.list);
    }
}

/// A list of version 1, and the same shapes and clips in version 2, among levels and players and with
/// a clip behind the last of them.
#[test]
fn levels_and_players_move_no_ceiling() {
    let mut random = Random::new(73);
    for _ in 0..SPLIT_PICTURES {
        let older = picture_of(&mut random, 1);
        let Header { width, height, .. } = older.header;
        let mut records = Vec::new();
        for &record in &older.records {
            let player = random.between(0, 7) as u8;
            records.push(Record::Setting(Setting::Level(random.bits() as u8)));
            records.push(Record::Setting(Setting::Player(player)));
            records.push(record);
        }
        records.push(random.pick(&[set_clip(0, 0, 0, 0), set_clip(0, 0, width, height)]));
        let newer = listed(header(width, height), records);
        assert_eq!(ceiling(&newer), ceiling(&older), "{:02x?}", newer.list);
    }
}

/// Lists of 65,536 bytes: after 10 of the header and 9 of a clip 9,358 discs have 7 each, then come
/// five levels of 2 and the end record.
#[test]
fn ceilings_pass_32_bits() {
    const DISCS: u64 = 9_358;
    let full = |clip: Record, radius| {
        let (x, y, big) = (512, 512, true);
        let disc = Record::Shape(Shape::Disc(Disc { x, y, radius, big }));
        let mut records = vec![clip];
        records.extend([disc].repeat(DISCS as usize));
        records.extend([Record::Setting(Setting::Level(77))].repeat(5));
        let list = listed(header(1024, 1024), records);
        assert_eq!(list.list.len(), LONGEST_LIST);
        list
    };
    // About the middle of the page the largest disc covers all of it.
    let whole = set_clip(0, 0, 1024, 1024);
    let counted = ceiling_and_touches(&full(whole, 1023));
    assert_eq!(counted, (9_812_574_208, 9_812_574_208));
    for (clip, radius, count) in [
        (whole, 512, 1_048_576),
        (whole, 511, 1_044_484),
        (whole, 1, 4),
        (set_clip(1, 0, 1024, 1024), 1023, 1_047_552),
        (set_clip(0, 0, 1024, 1021), 511, 1_044_484),
        (set_clip(0, 0, 1024, 1020), 511, 1_044_480),
        (set_clip(0, 0, 1, 1024), 1023, 1024),
        (set_clip(1023, 1023, 1024, 1024), 1023, 1),
        (set_clip(1024, 0, 1024, 1024), 1023, 0),
    ] {
        let found = ceiling(&full(clip, radius));
        assert_eq!(found, DISCS * count, "{clip:?}, radius {radius}");
    }
}

/// Big rings of width 1 to the last byte but a few, each under a clip of its own.
#[test]
fn a_full_list_of_clips() {
    let ring = shape("bigring 0 0 1023 1");
    let heights = || (0..=1024).rev().cycle().take(3_640);
    let records = heights().flat_map(|y1| [set_clip(0, 0, 1024, y1), ring]);
    let list = listed(header(1024, 1024), records.collect());
    assert_eq!(list.list.len(), 10 + 3_640 * (9 + 9) + 1);
    let sum = heights().map(|y1| 1024 * u64::from(y1)).sum();
    assert_eq!(ceiling(&list), sum);
}
