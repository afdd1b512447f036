//! The light of a zone of a page against its margin, and the example that README works out.

use checks::library;
use checks::lights::fit_lights;
use checks::notation::parse_shape;
use checks::pictures::{small_picture, Listed};
use checks::random::Random;
use reference::exact::{margins, touches_at, BigFraction};
use reference::lights::codes;
use reference::list::{check, Accepted};
use reference::page::{page_length, touches};
use reference::reader::lawful_record;
use reference::shape::Shape;
use reference::zone::{zone, Zone};
use std::cmp::Ordering;
use std::fs;
use std::path::Path;

const ZONES: u32 = 3_000;

type Pixel = (u16, u16);

/// The pixels with x0 ≤ x < x1 and y0 ≤ y < y1.
fn pixels([x0, y0, x1, y1]: [u16; 4]) -> Vec<Pixel> {
    let row = |y| (x0..x1).map(move |x| (x, y));
    (y0..y1).flat_map(row).collect()
}

/// A few pixels of the page, in a rectangle.
fn some_pixels(random: &mut Random, width: u16, height: u16) -> Vec<Pixel> {
    let mut span = |side: u16| {
        let low = random.between(0, i64::from(side) - 1) as u16;
        (low, (low + random.between(1, 4) as u16).min(side))
    };
    let ((x0, x1), (y0, y1)) = (span(width), span(height));
    pixels([x0, y0, x1, y1])
}

fn holds(zone: &Zone) -> bool {
    zone.light.within(&zone.exact, &zone.margin)
}

#[test]
fn every_zone_is_within_its_margin() {
    let mut random = Random::new(61);
    let mut tighter = 0;
    for _ in 0..ZONES {
        let Listed { header, list, .. } = small_picture(&mut random);
        let (_, lights) = fit_lights(&mut random);
        let mut page = vec![0xAA; page_length(header.width, header.height)];
        let accepted = check(&list, page.len(), &lights).expect("a lawful list");
        library::draw_list(&list, &mut page, &lights).expect("a lawful list");
        let chosen = some_pixels(&mut random, header.width, header.height);
        let zone = zone(&lights, &accepted, &page, &chosen);
        assert!(holds(&zone), "{chosen:?}: {list:02x?}, lights {lights:?}");
        let all = all_margins(&lights, &accepted, &chosen);
        tighter += u32::from(zone.margin.compare(&all) == Ordering::Less);
    }
    assert!(tighter >= ZONES / 4, "only {tighter} zones have a cover");
}

/// What the margin would be if a whole cover ended nothing.
fn all_margins(lights: &[u16], accepted: &Accepted, pixels: &[Pixel]) -> BigFraction {
    let nothing = BigFraction::new(0, 1);
    pixels.iter().fold(nothing, |sum, &(x, y)| {
        sum.plus(&margins(lights, &touches_at(accepted, x, y)))
    })
}

// ---- README's example

fn file(name: &str) -> Vec<u8> {
    let path = Path::new(env!("CARGO_MANIFEST_DIR"))
        .join("../..")
        .join(name);
    fs::read(&path).unwrap_or_else(|error| panic!("{}: {error}", path.display()))
}

fn text(name: &str) -> String {
    String::from_utf8(file(name)).expect("a text")
}

/// A number with at most three decimals.
fn decimal(text: &str) -> BigFraction {
    let (whole, decimals) = text.split_once('.').unwrap_or((text, ""));
    let thousandths = format!("{}{decimals:0<3}", whole.replace(',', ""));
    BigFraction::new(thousandths.parse().expect("a number"), 1000)
}

fn same(one: &BigFraction, other: &BigFraction) -> bool {
    one.compare(other) == Ordering::Equal
}

/// A shape of the example: where its record begins, and the margin of the zone after it.
fn told_by_c() -> Vec<(usize, BigFraction)> {
    let told = text("examples/margin.txt");
    let shapes = told
        .lines()
        .filter_map(|line| line.strip_prefix("shape at "));
    let told = shapes.map(|line| {
        let (place, margin) = line.split_once(": margin ").expect("a place and a margin");
        (place.parse().expect("a place"), decimal(margin))
    });
    told.collect()
}

/// A shape of the example: its words, how many pixels of the zone it touches, and the margin of the
/// zone after it.
fn told_by_readme(readme: &str) -> Vec<(Shape, usize, BigFraction)> {
    let table = readme.lines().skip_while(|line| !line.starts_with(TABLE));
    let rows = table.skip(2).take_while(|line| line.starts_with('|'));
    let told = rows.map(|row| {
        let cells: Vec<&str> = row.split('|').map(str::trim).collect();
        let words = cells[1].trim_matches('`').replace("approximate", "approx");
        let touched = cells[2].parse().expect("a number of pixels");
        (parse_shape(&words), touched, decimal(cells[3]))
    });
    told.collect()
}

const TABLE: &str = "| shape | pixels of the zone that it touches | margin of the zone |";

/// The zone of README and of the C example.
const ZONE: [u16; 4] = [20, 12, 28, 20];

/// The example up to the shape whose record begins at this place, drawn by the library.
fn drawn_up_to(place: usize) -> (Accepted, Vec<u8>) {
    let list = file("examples/cover.list");
    let whole = check(&list, EXAMPLE_PAGE, &codes()).expect("the example is accepted");
    let (_, size) =
        lawful_record(&list[place..], whole.header.basis()).expect("a record begins there");
    let part = [&list[..place + size], &[0]].concat();
    let mut page = vec![0xAA; EXAMPLE_PAGE];
    library::draw_list(&part, &mut page, &codes()).expect("a part is accepted");
    let accepted = check(&part, EXAMPLE_PAGE, &codes()).expect("a part is accepted");
    (accepted, page)
}

const EXAMPLE_PAGE: usize = 48 * 32;

#[test]
fn the_margins_of_the_example_are_as_they_are_told() {
    let readme = text("README.md");
    let (by_c, by_readme) = (told_by_c(), told_by_readme(&readme));
    assert_eq!((by_c.len(), by_readme.len()), (4, 4));
    let chosen = pixels(ZONE);
    for ((place, margin), (shape, touched, same_margin)) in by_c.into_iter().zip(by_readme) {
        let (accepted, page) = drawn_up_to(place);
        let last = accepted.drawings.last().expect("a shape");
        assert_eq!(last.shape, shape);
        let touching = chosen.iter().filter(|&&(x, y)| touches(&shape, x, y));
        assert_eq!(touching.count(), touched, "{shape:?}");
        let zone = zone(&codes(), &accepted, &page, &chosen);
        assert!(holds(&zone), "{shape:?}");
        assert!(same(&zone.margin, &margin), "{shape:?}");
        assert!(same(&zone.margin, &same_margin), "{shape:?}");
    }
}

/// After the last shape every touch since the cover is half a level off, and all the same way.
#[test]
fn the_margin_of_the_example_is_reached() {
    let (place, margin) = told_by_c().pop().expect("a shape");
    let (accepted, page) = drawn_up_to(place);
    let zone = zone(&codes(), &accepted, &page, &pixels(ZONE));
    let (light, exact) = (BigFraction::new(9216, 1), BigFraction::new(9208, 1));
    assert!(same(&zone.light, &light) && same(&zone.exact, &exact));
    assert!(same(&zone.exact.plus(&margin), &zone.light));
    assert!(text("examples/margin.txt").ends_with("light 9216\n"));
    let told = "the light of the zone is 9,216, and the exact blend 9,208";
    assert!(text("README.md").contains(told));
}

#[test]
fn the_example_has_more_touches_than_count() {
    let (place, _) = told_by_c().pop().expect("a shape");
    let (accepted, _) = drawn_up_to(place);
    let all = all_margins(&codes(), &accepted, &pixels(ZONE));
    assert!(same(&all, &BigFraction::new(567, 1)));
    assert!(text("README.md").contains("With every touch counted it would be 567."));
}
