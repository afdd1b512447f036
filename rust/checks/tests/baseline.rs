//! What the benchmark measures against keeps the rules: the baseline against the reference.

use checks::drawings::{drawing, triangle_drawing};
use checks::library::{reference_checked, with_place};
use checks::lights::{fit_lights, named};
use checks::listings::{damage, list};
use checks::notation::triangle_of;
use checks::pictures::picture;
use checks::random::Random;
use checks::rows::{starting_page, ShapeCall};
use checks::{baseline_list, baseline_page, reference_page};
use greystroke::Lights;
use reference::lights::lights_refusal;
use reference::list::{check, check_without_page, draw_list, Drawn};
use reference::page::page_length;
use reference::refusal::Refused;
use reference::shape::{Clip, Shape};
use reference::squeeze::squeeze_list;

const TRIANGLES: u32 = 200_000;
const DRAWS: u32 = 20_000;
const LISTS: u32 = 4_000;
const CHECKED: u32 = 40_000;
const SQUEEZED: u32 = 40_000;

/// Draws by both on the same page, and says how many pixels were touched if nothing is refused.
fn agreed(call: &ShapeCall) -> Option<u64> {
    let (mut expected, mut found) = (call.clone(), call.clone());
    let expected_answer = reference_page::draw_shape(&mut expected);
    let found_answer = baseline_page::draw_shape(&mut found);
    assert_eq!(found_answer, expected_answer, "{call:?}");
    assert!(found.page == expected.page, "{call:?}");
    expected_answer.ok()
}

#[test]
fn random_triangles_agree() {
    let mut random = Random::new(51);
    let mut touching = 0;
    for _ in 0..TRIANGLES {
        let call = triangle_drawing(&mut random);
        touching += u32::from(agreed(&call) > Some(0));
    }
    assert!(touching > TRIANGLES / 4, "only {touching} touch a pixel");
}

/// Every triangle with its corners on a lattice of four by four.
#[test]
fn every_tiny_triangle_agrees() {
    let corners = || (0..4).flat_map(|y| (0..4).map(move |x| (x + 1, y + 1)));
    for ((x0, y0), (x1, y1)) in corners().flat_map(|a| corners().map(move |b| (a, b))) {
        for (x2, y2) in corners() {
            let call = ShapeCall {
                page: starting_page(page_length(6, 6)),
                width: 6,
                height: 6,
                lights: named("codes"),
                clip: Clip::whole(6, 6),
                level: 200,
                shape: Shape::Triangle(triangle_of([x0, y0, x1, y1, x2, y2])),
            };
            let straight = (x1 - x0) * (y2 - y0) == (x2 - x0) * (y1 - y0);
            assert_eq!(agreed(&call).is_none(), straight, "{call:?}");
        }
    }
}

#[test]
fn random_draws_agree() {
    let mut random = Random::new(52);
    for _ in 0..DRAWS {
        let (_, call) = drawing(&mut random);
        if lights_refusal(&call.lights).is_none() {
            agreed(&call);
        }
    }
}

/// A list drawn by the baseline, in codes or in light.
fn drawn(list: &[u8], page: &mut [u8], lights: &[u16]) -> Result<Drawn, Refused> {
    let lights = Lights::new(lights).expect("fit lights");
    let draw = match lights == Lights::codes() {
        true => baseline_list::draw_list,
        false => baseline_list::draw_list_in_light,
    };
    match draw(page, &lights, list) {
        Ok(picture) => Ok(Drawn {
            width: picture.size.width,
            height: picture.size.height,
            touched: picture.touched,
        }),
        Err(refused) => Err(with_place(refused)),
    }
}

/// Most that meet their page, half of all damaged.
fn any_list(random: &mut Random, number: u32) -> Vec<u8> {
    let mut bytes = match number % 3 {
        0 => list(random),
        _ => picture(random).list,
    };
    if random.flip() {
        damage(random, &mut bytes);
    }
    bytes
}

#[test]
fn random_and_damaged_lists_agree() {
    let mut random = Random::new(53);
    for number in 0..LISTS {
        let bytes = any_list(&mut random, number);
        let (_, lights) = fit_lights(&mut random);
        let mut expected = starting_page(1600);
        let mut found = expected.clone();
        let answer = draw_list(&bytes, &mut expected, &lights);
        assert_eq!(drawn(&bytes, &mut found, &lights), answer, "{bytes:02x?}");
        assert!(found == expected, "{bytes:02x?}");
    }
}

/// Both checks, with the ceilings of the lists that are accepted.
#[test]
fn random_and_damaged_lists_are_checked_alike() {
    let mut random = Random::new(54);
    let mut accepted = 0;
    for number in 0..CHECKED {
        let bytes = any_list(&mut random, number);
        let length = random.pick(&[0, 39, 1600, 1 << 20]);
        let (_, lights) = fit_lights(&mut random);
        let expected = check(&bytes, length, &lights).map(|accepted| accepted.checked());
        let lights = Lights::new(&lights).expect("fit lights");
        let found = reference_checked(baseline_list::check_list(&bytes, length, &lights));
        assert_eq!(found, expected, "page of {length}, list {bytes:02x?}");
        let expected = check_without_page(&bytes).map(|accepted| accepted.checked());
        let found = reference_checked(baseline_list::check_without_page(&bytes));
        assert_eq!(found, expected, "list {bytes:02x?} without a page");
        accepted += u32::from(found.is_ok_and(|checked| checked.ceiling > 0));
    }
    assert!(accepted > CHECKED / 4, "only {accepted} have a ceiling");
}

/// Into rooms that the squeezed list fits, and into others.
#[test]
fn random_and_damaged_lists_are_squeezed_alike() {
    let mut random = Random::new(55);
    let (mut shorter, mut no_room) = (0, 0);
    for number in 0..SQUEEZED {
        let bytes = any_list(&mut random, number);
        let room = random.between(0, 2 * bytes.len() as i64) as usize;
        let mut expected = starting_page(room);
        let mut found = expected.clone();
        let answer = squeeze_list(&mut expected, &bytes);
        let found_answer = baseline_list::squeeze_list(&mut found, &bytes).map_err(with_place);
        assert_eq!(found_answer, answer, "into {room} bytes, {bytes:02x?}");
        assert!(found == expected, "into {room} bytes, {bytes:02x?}");
        shorter += u32::from(answer.is_ok_and(|length| length < bytes.len()));
        no_room += u32::from(answer.is_err_and(|refused| refused.number == 22));
    }
    let least = SQUEEZED / 10;
    assert!(shorter > least, "only {shorter} become shorter");
    assert!(no_room > least, "only {no_room} do not fit");
}
