//! Each byte's light against the bound on its distance from the exact blend: on random pictures,
//! where the bound is reached, and after a shape that covers the pixel whole.

use checks::classes::Tally;
use checks::library;
use checks::lights::{fit_lights, named, FIT};
use checks::notation::parse_shape;
use checks::pictures::{listed, small_picture, Listed};
use checks::random::Random;
use reference::coverage::{exact_coverage, Fraction};
use reference::exact::{
    bound, byte_after, exact_blend, margins, since_cover, touches_at, within, BigFraction, Touch,
};
use reference::format::Header;
use reference::lights::{codes, widest_gap};
use reference::list::{check, Accepted, Drawing};
use reference::natural::Natural;
use reference::page::page_length;
use reference::shape::{Clip, Record, Setting, Shape, PLAYERS};
use std::cmp::Ordering;

const SMALL_PICTURES: u32 = 15_000;
const LIT_PICTURES: u32 = 15_000;
/// Every class of input has to come up at least this often.
const LEAST: u32 = 20;

// ---- random pictures

/// So many tenths of a fraction.
fn tenths(whole: &BigFraction, count: u64) -> BigFraction {
    BigFraction {
        numerator: whole.numerator.times(&Natural::from(count)),
        denominator: whole.denominator.times(&Natural::from(10)),
    }
}

fn is_covered(touches: &[Touch]) -> bool {
    touches.iter().any(Touch::covers)
}

/// How a byte came about in lights of this name, by the touches that count, and whether its light
/// lies beyond nine tenths of its bound.
fn byte_classes(name: &str, touches: &[Touch], near: bool) -> Vec<String> {
    let counted = since_cover(touches);
    let approximate = counted.iter().filter(|touch| touch.apart.n > 0).count();
    let class = format!(
        "{name}: {} touches{}, {} approximate",
        counted.len().min(6),
        if is_covered(touches) {
            " since a cover"
        } else {
            ""
        },
        approximate.min(2)
    );
    let beyond = (!near).then(|| format!("{class}, beyond nine tenths"));
    [class].into_iter().chain(beyond).collect()
}

/// The bound beside the margins of all touches: the same where no touch covers the pixel whole, never
/// more, and nothing right after one that does.
fn hold_beside_margins(lights: &[u16], byte: u8, touches: &[Touch]) {
    let bound = bound(lights, touches);
    let order = bound.compare(&margins(lights, touches));
    match touches.last() {
        Some(last) if last.covers() => {
            assert_eq!(byte, last.level);
            assert_eq!(bound.numerator, Natural::from(0));
            assert_eq!(order, Ordering::Less);
        }
        _ if is_covered(touches) => assert_eq!(order, Ordering::Less),
        _ => assert_eq!(order, Ordering::Equal),
    }
}

/// Whether a shape has the whole pixel and is cut off from it by its clip, after a touch.
fn is_cut_off(accepted: &Accepted, x: u16, y: u16) -> bool {
    let cover = |drawing: &Drawing| exact_coverage(&drawing.shape, x.into(), y.into());
    let keeps = |drawing: &Drawing| drawing.clip.keeps(x, y);
    let touching = |drawing: &Drawing| keeps(drawing) && cover(drawing).n > 0;
    let mut after = accepted.drawings.iter().skip_while(|d| !touching(d));
    after.any(|drawing| cover(drawing).n == cover(drawing).d && !keeps(drawing))
}

/// The light of each byte lies within half the widest gap a touch since the last whole cover, and
/// the last light less the first times s/(4·l) a touch by an approximate line, of the blend by exact
/// coverage that is never rounded.
fn hold_to_bound(name: &str, lights: &[u16], listed: &Listed, tally: &mut Tally) {
    let Listed { header, list, .. } = listed;
    let (width, background) = (usize::from(header.width), header.background);
    let mut page = vec![0xAA; page_length(header.width, header.height)];
    let accepted = check(list, page.len(), lights).expect("a lawful list");
    let picture = library::draw_list(list, &mut page, lights).expect("a lawful list");
    let mut touched = [0; PLAYERS];
    for (k, &byte) in page.iter().enumerate() {
        let (x, y) = ((k % width) as u16, (k / width) as u16);
        let touches = touches_at(&accepted, x, y);
        let exact = exact_blend(lights, background, &touches);
        let bound = bound(lights, &touches);
        let fits = within(lights, byte, &exact, &bound);
        assert!(fits, "byte {k}: {list:02x?}, lights {lights:?}");
        assert_eq!(byte, byte_after(lights, background, &touches));
        hold_beside_margins(lights, byte, &touches);
        let near = within(lights, byte, &exact, &tenths(&bound, 9));
        tally.meet(byte_classes(name, &touches, near));
        if is_cut_off(&accepted, x, y) {
            tally.meet(vec![format!("{name}: a cover outside its clip")]);
        }
        for touch in touches {
            touched[usize::from(touch.player)] += 1;
        }
    }
    assert_eq!(picture.touched, touched);
    let triangles = accepted
        .drawings
        .iter()
        .filter(|drawing| matches!(drawing.shape, Shape::Triangle(_)));
    tally.meet(triangles.map(|_| format!("{name}: a triangle")).collect());
}

#[test]
fn every_byte_is_within_the_bound() {
    let mut random = Random::new(33);
    let mut tally = Tally::default();
    for _ in 0..SMALL_PICTURES {
        let listed = small_picture(&mut random);
        hold_to_bound("codes", &codes(), &listed, &mut tally);
    }
    let classes = [
        "0 touches, 0 approximate",
        "6 touches, 2 approximate",
        "1 touches, 0 approximate, beyond nine tenths",
        "1 touches, 1 approximate, beyond nine tenths",
        "2 touches, 0 approximate, beyond nine tenths",
        "2 touches, 1 approximate, beyond nine tenths",
        "2 touches, 2 approximate",
        "0 touches since a cover, 0 approximate",
        "1 touches since a cover, 0 approximate, beyond nine tenths",
        "1 touches since a cover, 1 approximate, beyond nine tenths",
        "2 touches since a cover, 1 approximate",
        "4 touches since a cover, 2 approximate",
        "a cover outside its clip",
        "a triangle",
    ];
    tally.require(classes.map(|class| format!("codes: {class}")).into(), LEAST);
}

#[test]
fn every_byte_is_within_the_bound_in_any_lights() {
    let mut random = Random::new(38);
    let mut tally = Tally::default();
    for _ in 0..LIT_PICTURES {
        let listed = small_picture(&mut random);
        let (name, lights) = fit_lights(&mut random);
        hold_to_bound(name, &lights, &listed, &mut tally);
    }
    for name in FIT.into_iter().chain(["random"]) {
        let classes = [
            "1 touches, 0 approximate",
            "2 touches, 1 approximate",
            "0 touches since a cover, 0 approximate",
            "1 touches since a cover, 0 approximate",
            "1 touches since a cover, 1 approximate",
            "a cover outside its clip",
            "a triangle",
        ];
        let classes = classes.map(|class| format!("{name}: {class}"));
        tally.require(classes.into(), LEAST);
    }
    // Few blends fall into the widest gap where most gaps are narrower.
    for name in ["wide", "offset", "even", "top", "last", "random"] {
        let class = format!("{name}: 1 touches, 0 approximate, beyond nine tenths");
        tally.require(vec![class], LEAST);
    }
}

// ---- one pixel

/// A level, and a shape that is drawn at it.
type Leveled = (u8, Shape);

/// One pixel of this background under these shapes.
fn one_pixel(background: u8, shapes: &[Leveled]) -> Listed {
    let header = Header {
        version: 2,
        width: 1,
        height: 1,
        background,
    };
    let records = shapes.iter().flat_map(|&(level, shape)| {
        let level = Record::Setting(Setting::Level(level));
        [level, Record::Shape(shape)]
    });
    listed(header, records.collect())
}

/// A line along the pixel's lower side, and the triangle on one side of its diagonal.
fn halves() -> [Shape; 2] {
    ["exact 0 0 1 0", "triangle 0 0 1 0 0 1"].map(parse_shape)
}

/// Shapes that cover the pixel whole.
fn covers() -> [Shape; 3] {
    ["disc 0 0 9", "ring 5 0 9 8", "triangle -9 -9 20 -9 -9 20"].map(parse_shape)
}

/// An approximate line across the pixel.
fn diagonal() -> Shape {
    parse_shape("approx 0 0 1 1")
}

/// The byte of such a pixel by the library, its touches and the exact blend.
fn blended(lights: &[u16], listed: &Listed) -> (u8, Vec<Touch>, BigFraction) {
    let mut page = [9];
    let drawn = library::draw_list(&listed.list, &mut page, lights);
    assert!(drawn.is_ok(), "{drawn:?}");
    let accepted = check(&listed.list, 1, lights).expect("a lawful list");
    let touches = touches_at(&accepted, 0, 0);
    let background = listed.header.background;
    assert_eq!(page[0], byte_after(lights, background, &touches));
    let exact = exact_blend(lights, background, &touches);
    (page[0], touches, exact)
}

/// From white to black, the rounding and the approximation of a diagonal go the same way.
#[test]
fn a_diagonal_reaches_the_bound() {
    let lights = codes();
    let (byte, touches, exact) = blended(&lights, &one_pixel(255, &[(0, diagonal())]));
    let bound = bound(&lights, &touches);
    assert_eq!(byte, 128);
    assert!(within(&lights, 128, &exact, &bound));
    assert!(!within(&lights, 129, &exact, &bound));
    let without_the_half = BigFraction::new(255, 4);
    assert!(!within(&lights, 128, &exact, &without_the_half));
}

/// The light of the byte is half the widest gap away from the exact blend, and no more is allowed.
fn is_half_the_gap_away(name: &str, listed: &Listed, after: u8) {
    let lights = named(name);
    let (byte, touches, exact) = blended(&lights, listed);
    assert_eq!(byte, after, "{name}");
    let gap = widest_gap(&lights);
    let half = BigFraction::new(gap, 2);
    let bound = bound(&lights, &touches);
    assert_eq!(bound.compare(&half), Ordering::Equal, "{name}");
    assert!(within(&lights, byte, &exact, &half), "{name}");
    let less = BigFraction::new(gap - 1, 2);
    assert!(!within(&lights, byte, &exact, &less), "{name}");
}

/// Half of the code past the widest gap on the code before it is half that gap away from either.
const WIDEST: [(&str, u8); 4] = [("gap", 199), ("first", 0), ("last", 254), ("wide", 9)];

#[test]
fn a_tie_in_the_widest_gap_reaches_the_bound() {
    for (name, before) in WIDEST {
        for shape in halves() {
            let listed = one_pixel(before, &[(before + 1, shape)]);
            is_half_the_gap_away(name, &listed, before + 1);
        }
    }
}

// ---- after a whole cover

/// Whatever was drawn before it, the margin of the one touch after a cover is reached.
#[test]
fn a_tie_after_a_cover_reaches_the_bound() {
    let before_it = [
        (3, diagonal()),
        (250, parse_shape("exact 0 0 3 2")),
        (77, halves()[1]),
    ];
    for (name, before) in WIDEST {
        for (cover, shape) in covers().into_iter().zip(halves().into_iter().cycle()) {
            let then = [(before, cover), (before + 1, shape)];
            let listed = one_pixel(9, &[&before_it[..], &then[..]].concat());
            is_half_the_gap_away(name, &listed, before + 1);
        }
    }
}

/// From white to black again, now after other strokes and a cover by white.
#[test]
fn a_diagonal_after_a_cover_comes_near_the_bound() {
    let (lights, diagonal) = (codes(), diagonal());
    for cover in covers() {
        let shapes = [(40, diagonal), (255, cover), (0, diagonal)];
        let (byte, touches, exact) = blended(&lights, &one_pixel(90, &shapes));
        let bound = bound(&lights, &touches);
        assert_eq!(byte, 128);
        // Half a level, and 255 times a quarter.
        assert_eq!(bound.compare(&BigFraction::new(257, 4)), Ordering::Equal);
        assert!(within(&lights, byte, &exact, &bound));
        assert!(!within(&lights, byte, &exact, &BigFraction::new(255, 4)));
    }
}

/// The cover leaves the level, and two touches have a margin of their own each.
#[test]
fn only_the_last_of_two_covers_begins_anew() {
    let lights = codes();
    let [disc, ring, triangle] = covers();
    let [level, corner] = halves();
    let margin = |shapes: &[Leveled]| {
        let (byte, touches, exact) = blended(&lights, &one_pixel(200, shapes));
        let bound = bound(&lights, &touches);
        assert!(within(&lights, byte, &exact, &bound));
        let halves = (0..9).find(|&k| bound.compare(&BigFraction::new(k, 2)) == Ordering::Equal);
        (byte, halves.expect("half a level a touch"))
    };
    assert_eq!(margin(&[(255, level)]), (228, 1));
    assert_eq!(margin(&[(255, level), (9, disc)]), (9, 0));
    assert_eq!(margin(&[(255, level), (9, disc), (0, corner)]), (5, 1));
    let two = [
        (9, ring),
        (0, corner),
        (70, triangle),
        (1, level),
        (4, level),
    ];
    assert_eq!(margin(&two), (20, 2));
    assert_eq!(margin(&[(9, ring), (8, disc), (70, triangle)]), (70, 0));
}

/// A page of two pixels, and a clip that has the second alone while a disc covers both.
#[test]
fn a_cover_outside_its_clip_does_not_count() {
    let lights = codes();
    let header = Header {
        version: 2,
        width: 2,
        height: 1,
        background: 0,
    };
    let clip = Clip {
        x0: 1,
        y0: 0,
        x1: 2,
        y1: 1,
    };
    let [disc, ..] = covers();
    let records = vec![
        Record::Shape(parse_shape("exact 0 0 2 0")),
        Record::Setting(Setting::Clip(clip)),
        Record::Shape(disc),
    ];
    let listed = listed(header, records);
    let mut page = [9; 2];
    let drawn = library::draw_list(&listed.list, &mut page, &lights);
    assert!(drawn.is_ok(), "{drawn:?}");
    assert_eq!(page, [128, 255]);
    let accepted = check(&listed.list, 2, &lights).expect("a lawful list");
    let bounds = [0, 1].map(|x| {
        let touches = touches_at(&accepted, x, 0);
        let (exact, bound) = (exact_blend(&lights, 0, &touches), bound(&lights, &touches));
        assert!(within(&lights, page[usize::from(x)], &exact, &bound));
        // A bound of 0 would be false of the first pixel, and of the second it is true.
        let nothing = BigFraction::new(0, 1);
        (
            bound.compare(&BigFraction::new(1, 2)),
            within(&lights, page[usize::from(x)], &exact, &nothing),
        )
    });
    assert_eq!(bounds, [(Ordering::Equal, false), (Ordering::Less, true)]);
}

/// A disc that lacks one of 512 parts of the pixel leaves its level too, but not the exact blend.
#[test]
fn a_cover_of_all_but_a_part_does_not_count() {
    let lights = codes();
    let disc = parse_shape("disc 0 -85 86");
    assert_eq!(exact_coverage(&disc, 0, 0), Fraction { n: 511, d: 512 });
    let shapes = [(255, halves()[0]), (7, disc)];
    let (byte, touches, exact) = blended(&lights, &one_pixel(0, &shapes));
    assert_eq!(byte, 7);
    let bound = bound(&lights, &touches);
    assert_eq!(bound.compare(&BigFraction::new(1, 1)), Ordering::Equal);
    assert!(within(&lights, byte, &exact, &bound));
    assert!(!within(&lights, byte, &exact, &BigFraction::new(0, 1)));
}
