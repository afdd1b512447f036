//! Triangles: the library's drawing and its coverage against the reference, which cuts each pixel out
//! of the triangle, and the same triangle by each order of its corners.

use checks::answers::agree;
use checks::classes::{triangle_classes, Tally, TRIANGLES};
use checks::drawings::triangle_drawing;
use checks::lights::named;
use checks::notation::triangle_of;
use checks::random::Random;
use checks::rows::{starting_page, ShapeCall};
use checks::strokes::triangle_and_pixel;
use checks::{library, reference_page};
use reference::coverage::query;
use reference::page::page_length;
use reference::refusal::Refused;
use reference::shape::{Clip, Shape, Triangle};

const DRAWS: u32 = 200_000;
const QUERIES: u32 = 200_000;
const TURNED: u32 = 20_000;
/// Every class of triangle has to come up at least this often.
const LEAST: u32 = 500;

type Answer = Result<u64, Refused>;

/// Draws by the reference and by the library, which must agree.
fn agreed(call: &ShapeCall) -> (Answer, Vec<u8>) {
    let (mut expected, mut found) = (call.clone(), call.clone());
    let expected_answer = reference_page::draw_shape(&mut expected);
    let found_answer = library::draw_shape(&mut found);
    assert_eq!(found_answer, expected_answer, "{call:?}");
    assert!(found.page == expected.page, "{call:?}");
    (found_answer, found.page)
}

fn triangle_of_call(call: &ShapeCall) -> Triangle {
    match call.shape {
        Shape::Triangle(triangle) => triangle,
        shape => panic!("{shape:?} is no triangle"),
    }
}

#[test]
fn random_triangles_are_drawn_alike() {
    let mut random = Random::new(41);
    let mut tally = Tally::default();
    for _ in 0..DRAWS {
        let call = triangle_drawing(&mut random);
        let (answer, _) = agreed(&call);
        if answer.expect("a lawful triangle") > 0 {
            tally.meet(triangle_classes(&triangle_of_call(&call)));
        }
    }
    tally.require(TRIANGLES.map(String::from).into(), LEAST);
}

#[test]
fn random_triangles_cover_alike() {
    let mut random = Random::new(42);
    let mut tally = Tally::default();
    for _ in 0..QUERIES {
        let (shape, x, y) = triangle_and_pixel(&mut random);
        let (expected, found) = (query(&shape, x, y), library::coverage(&shape, x, y));
        let told = format!("{shape:?} at {x} {y}: {found:?} for {expected:?}");
        assert!(agree(&shape, &found, &expected), "{told}");
        tally.meet(vec![match expected {
            Err(refusal) => format!("refused {}", refusal.number),
            Ok(cover) if cover.n == 0 => "none".to_string(),
            Ok(cover) if cover.n == cover.d => "whole".to_string(),
            Ok(_) => "part".to_string(),
        }]);
    }
    let refusals = [7, 34, 35].map(|number| format!("refused {number}"));
    tally.require(refusals.into(), LEAST);
    tally.require(["none", "whole", "part"].map(String::from).into(), LEAST);
}

/// The same corners in each of their six orders.
fn orders(triangle: &Triangle) -> [Triangle; 6] {
    let corners = triangle.corners();
    let named = [
        [0, 1, 2],
        [0, 2, 1],
        [1, 0, 2],
        [1, 2, 0],
        [2, 0, 1],
        [2, 1, 0],
    ];
    named.map(|order| {
        let [(x0, y0), (x1, y1), (x2, y2)] = order.map(|index: usize| corners[index]);
        triangle_of([x0, y0, x1, y1, x2, y2])
    })
}

/// Page and count by the library, and the quotient of each pixel of the page.
#[test]
fn the_order_of_corners_does_not_matter() {
    let mut random = Random::new(43);
    for _ in 0..TURNED {
        let call = triangle_drawing(&mut random);
        let expected = agreed(&call);
        for triangle in orders(&triangle_of_call(&call)) {
            let shape = Shape::Triangle(triangle);
            let mut turned = ShapeCall {
                shape,
                ..call.clone()
            };
            let answer = library::draw_shape(&mut turned);
            assert_eq!((answer, turned.page), expected, "{triangle:?}");
            let x = random.between(0, i64::from(call.width) - 1) as i16;
            let y = random.between(0, i64::from(call.height) - 1) as i16;
            let (one, other) = (library::coverage(&call.shape, x, y), query(&shape, x, y));
            assert!(agree(&shape, &one, &other), "{triangle:?} at {x} {y}");
        }
    }
}

/// A page of six by six, and a triangle of these corners.
fn tiny(corners: [i16; 6]) -> ShapeCall {
    ShapeCall {
        page: starting_page(page_length(6, 6)),
        width: 6,
        height: 6,
        lights: named("gamma"),
        clip: Clip::whole(6, 6),
        level: 200,
        shape: Shape::Triangle(triangle_of(corners)),
    }
}

/// Every triangle with its corners on a lattice of four by four, and every refusal 35.
#[test]
fn every_tiny_triangle_is_drawn_alike() {
    let corners = || (0..4).flat_map(|y| (0..4).map(move |x| (x + 1, y + 1)));
    let pairs = corners().flat_map(|a| corners().map(move |b| (a, b)));
    let mut lawful = 0;
    for ((x0, y0), (x1, y1)) in pairs {
        for (x2, y2) in corners() {
            let call = tiny([x0, y0, x1, y1, x2, y2]);
            match agreed(&call).0 {
                Ok(touched) => {
                    assert!(touched > 0);
                    lawful += 1;
                }
                Err(refused) => assert_eq!((refused.number, refused.place), (35, 0)),
            }
        }
    }
    // Of the 560 triples of 16 corners 44 are straight, and each of the others has six orders.
    assert_eq!(lawful, 6 * (560 - 44));
}

/// Two triangles that share a side leave no gap: together they cover each pixel of a square whole.
#[test]
fn shares_of_neighbours_add_up() {
    let square = [[1, 1, 5, 1, 5, 5], [1, 1, 5, 5, 1, 5]];
    let shapes = square.map(|corners| Shape::Triangle(triangle_of(corners)));
    for (x, y) in (0..6).flat_map(|y| (0..6).map(move |x| (x, y))) {
        let covers = shapes.map(|shape| library::coverage(&shape, x, y).expect("lawful"));
        let [one, other] = covers.map(|cover| (u128::from(cover.n), u128::from(cover.d)));
        let sum = one.0 * other.1 + other.0 * one.1;
        let inside = (1..5).contains(&x) && (1..5).contains(&y);
        assert_eq!(sum, if inside { one.1 * other.1 } else { 0 }, "{x} {y}");
    }
}

/// Each refusal before those behind it: 7, 34, 35.
#[test]
fn refusals_come_in_their_order() {
    for (corners, number) in [
        ([4096, 0, 4096, 0, 4096, 0], 7),
        ([0, 0, 0, 0, 0, -4097], 7),
        ([i16::MIN, 0, i16::MAX, 0, 0, 1], 7),
        ([0, 0, 128, 0, 64, 0], 34),
        ([0, 0, 0, 128, 0, 64], 34),
        ([-4096, -4096, 4095, 4095, 0, 1], 34),
        ([0, 0, 127, 127, 64, 64], 35),
        ([3, 3, 3, 3, 3, 3], 35),
        ([-64, 5, 63, 5, 0, 5], 35),
    ] {
        let refused = Err(Refused { number, place: 0 });
        let call = tiny(corners);
        assert_eq!(agreed(&call), (refused, call.page.clone()), "{corners:?}");
        let found = library::coverage(&call.shape, 0, 0);
        assert_eq!(found.map(|_| 0), refused, "{corners:?}");
    }
    for corners in [[0, 0, 127, 0, 0, 127], [-64, 0, 63, 1, 0, 127]] {
        assert!(agreed(&tiny(corners)).0.is_ok(), "{corners:?}");
    }
}

/// The pixel is tried behind the corners and before the form.
#[test]
fn the_pixel_of_a_query_comes_between() {
    let asked = |corners, x| {
        let shape = Shape::Triangle(triangle_of(corners));
        let found = library::coverage(&shape, x, 0);
        assert!(agree(&shape, &found, &query(&shape, x, 0)));
        found.map(|_| ()).map_err(|refused| refused.number)
    };
    assert_eq!(asked([0, 0, 300, 0, 600, 0], 4096), Err(7));
    assert_eq!(asked([0, 0, 300, 0, 600, 0], 0), Err(34));
    assert_eq!(asked([0, 0, 1, 0, 2, 0], -4097), Err(7));
    assert_eq!(asked([0, 0, 1, 0, 2, 0], 0), Err(35));
    assert_eq!(asked([4095, 4095, 4094, 4095, 4095, 4094], 4095), Ok(()));
}
