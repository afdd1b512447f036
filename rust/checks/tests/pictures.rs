//! Whole lists drawn: the library against the reference on random and damaged lists in many lights
//! and on stored ones, and the counts of the players.

use checks::calls::answer;
use checks::cases::{list_cases, rows};
use checks::classes::Tally;
use checks::library;
use checks::lights::{fit_lights, named, spoil_lights, FIT, UNFIT};
use checks::listings::{damage, list};
use checks::pictures::{listed, page_for, picture, picture_of, Listed};
use checks::random::Random;
use reference::coverage::{chord_cover, height};
use reference::format::{encode_header, encode_record, kind_of, Header, LONGEST_LIST};
use reference::lights::codes;
use reference::list::{check, draw_list, Drawn};
use reference::page::page_length;
use reference::refusal::Refused;
use reference::shape::{Clip, Disc, Line, Record, Setting, Shape, PLAYERS};

const PICTURES: u32 = 20_000;
const DAMAGED: u32 = 20_000;
const SHARED_PICTURES: u32 = 4_000;
/// Every class of input has to come up at least this often.
const LEAST: u32 = 20;

type Answer = Result<Drawn, Refused>;

/// Draws by both on copies of the page, and hands back what they agree on.
fn drawn_in(lights: &[u16], list: &[u8], before: &[u8]) -> (Answer, Vec<u8>) {
    let (mut expected, mut found) = (before.to_vec(), before.to_vec());
    let expected_answer = draw_list(list, &mut expected, lights);
    let found_answer = library::draw_list(list, &mut found, lights);
    let told = || {
        let length = before.len();
        format!("page of {length}, list {list:02x?}, lights {lights:?}")
    };
    assert_eq!(found_answer, expected_answer, "{}", told());
    // The bytes past W·H and those after a refusal are compared too.
    assert!(found == expected, "{}", told());
    match found_answer {
        Ok(picture) => {
            let pixels = page_length(picture.width, picture.height);
            assert!(found[pixels..] == before[pixels..]);
            let checked = library::check_list(list, before.len(), lights);
            let ceiling = checked.expect("the list was drawn").ceiling;
            assert!(total(&picture.touched) <= ceiling, "{}", told());
        }
        Err(_) => assert!(found == before, "{}", told()),
    }
    (found_answer, found)
}

/// The same with lights equal to codes.
fn drawn(list: &[u8], before: &[u8]) -> (Answer, Vec<u8>) {
    drawn_in(&codes(), list, before)
}

/// The touches of all players.
fn total(touched: &[u64; PLAYERS]) -> u64 {
    touched.iter().sum()
}

/// The refusal, or what was drawn.
fn classes(list: &[u8], before: &[u8], answer: &Answer) -> Vec<String> {
    let picture = match answer {
        Ok(picture) => picture,
        Err(refusal) => {
            let at = if refusal.place > 0 { " further on" } else { "" };
            return vec![format!("refused {}{at}", refusal.number)];
        }
    };
    let accepted = check(list, before.len(), &codes()).expect("the list was drawn");
    let drawings = accepted.drawings.iter();
    let mut classes: Vec<String> = drawings.map(|d| kind_class(&d.shape)).collect();
    let pixels = page_length(picture.width, picture.height);
    if before.len() > pixels {
        classes.push("surplus bytes".to_string());
    }
    if total(&picture.touched) == 0 {
        classes.push("nothing touched".to_string());
    }
    if total(&picture.touched) > pixels as u64 {
        classes.push("more touches than pixels".to_string());
    }
    classes.extend(player_classes(&picture.touched));
    classes.push(format!("version {}", accepted.header.version));
    classes.push(format!("{} shapes", accepted.drawings.len()));
    if picture.width == 1024 || picture.height == 1024 {
        classes.push("largest side".to_string());
    }
    classes
}

/// The kind of the shape's record.
fn kind_class(shape: &Shape) -> String {
    format!("kind {}", kind_of(&Record::Shape(*shape)))
}

/// Every kind that a shape can have.
fn kinds() -> Vec<String> {
    let kinds = [3, 4, 5, 6, 8, 9, 10].map(|kind| format!("kind {kind}"));
    kinds.into()
}

/// Who touches a pixel, and how many do.
fn player_classes(touched: &[u64; PLAYERS]) -> Vec<String> {
    let touching = (0..PLAYERS).filter(|&player| touched[player] > 0);
    let mut classes: Vec<String> = touching.map(|player| format!("player {player}")).collect();
    classes.push(format!("{} players", classes.len()));
    classes
}

fn texts(names: &[&str]) -> Vec<String> {
    names.iter().map(|name| name.to_string()).collect()
}

#[test]
fn stored_rows_agree() {
    let rows = rows("lists");
    for row in &rows {
        let found = answer(&format!("lists {}", row.call));
        assert_eq!(found, row.answer, "{}", row.call);
    }
    assert_eq!(rows.len(), 787);
}

#[test]
fn stored_lists_agree() {
    for case in list_cases() {
        for length in [0, 1, 65_536] {
            drawn(&case.list, &vec![0xAA; length]).0.ok();
        }
    }
}

#[test]
fn random_lists_agree() {
    let mut random = Random::new(31);
    let mut tally = Tally::default();
    for _ in 0..PICTURES {
        let Listed { header, list, .. } = picture(&mut random);
        let page = page_for(&mut random, &header);
        let (name, lights) = fit_lights(&mut random);
        let (answer, _) = drawn_in(&lights, &list, &page);
        let mut classes = classes(&list, &page, &answer);
        if answer.is_ok_and(|drawn| total(&drawn.touched) > 0) {
            classes.push(format!("touched in lights {name}"));
        }
        tally.meet(classes);
    }
    tally.require(kinds(), LEAST);
    let lights = FIT.into_iter().chain(["random"]);
    let lights = lights.map(|name| format!("touched in lights {name}"));
    tally.require(lights.collect(), LEAST);
    let players = (0..PLAYERS).map(|player| format!("player {player}"));
    tally.require(players.collect(), LEAST);
    tally.require(texts(&["2 players", "3 players"]), LEAST);
    tally.require(texts(&["version 1", "version 2"]), LEAST);
    let others = [
        "refused 21",
        "surplus bytes",
        "nothing touched",
        "more touches than pixels",
        "0 shapes",
        "7 shapes",
        "largest side",
    ];
    tally.require(texts(&others), LEAST);
}

/// A list that is not refused and a page for it, or a list that may have refusals and some page.
fn list_and_page(random: &mut Random) -> (Vec<u8>, Vec<u8>) {
    if random.flip() {
        return (list(random), vec![0xAA; 1600]);
    }
    let Listed { header, list, .. } = picture(random);
    (list, page_for(random, &header))
}

#[test]
fn damaged_lists_agree() {
    let mut random = Random::new(32);
    let mut tally = Tally::default();
    for _ in 0..DAMAGED {
        let (mut list, page) = list_and_page(&mut random);
        let (_, mut lights) = fit_lights(&mut random);
        if random.one_in(16) {
            spoil_lights(&mut random, &mut lights);
        }
        for _ in 0..random.pick(&[1, 1, 1, 2, 4]) {
            if !list.is_empty() {
                damage(&mut random, &mut list);
            }
        }
        let (answer, _) = drawn_in(&lights, &list, &page);
        tally.meet(classes(&list, &page, &answer));
    }
    let header_refusals = [5, 1, 2, 3, 21, 32].map(|n| format!("refused {n}"));
    tally.require(header_refusals.into(), LEAST);
    let record_refusals = [4, 5, 6, 7, 8, 9, 10, 11, 31, 33, 34, 35];
    let record_refusals = record_refusals.map(|n| format!("refused {n} further on"));
    tally.require(record_refusals.into(), LEAST);
    tally.require(kinds(), LEAST);
}

/// The counts and the page of a list that is not refused.
fn accepted(listed: &Listed, page: &[u8]) -> ([u64; PLAYERS], Vec<u8>) {
    let (answer, page) = drawn(&listed.list, page);
    (answer.expect("a lawful list").touched, page)
}

/// A page of random bytes that the list fits.
fn large_page_for(random: &mut Random, header: &Header) -> Vec<u8> {
    let pixels = page_length(header.width, header.height);
    let length = pixels + random.between(0, 3) as usize;
    (0..length).map(|_| random.bits() as u8).collect()
}

#[test]
fn a_list_of_version_1_is_drawn_as_the_same_records_of_version_2() {
    let mut random = Random::new(34);
    let mut tally = Tally::default();
    for _ in 0..SHARED_PICTURES {
        let older = picture_of(&mut random, 1);
        let header = Header {
            version: 2,
            ..older.header
        };
        let newer = listed(header, older.records.clone());
        assert_eq!(older.list[5..], newer.list[5..]);
        let page = large_page_for(&mut random, &header);
        let (touched, left) = accepted(&older, &page);
        assert_eq!(accepted(&newer, &page), (touched, left));
        assert_eq!(total(&touched), touched[0], "{:02x?}", older.list);
        tally.meet(player_classes(&touched));
    }
    tally.require(texts(&["0 players", "1 players"]), LEAST);
}

/// The same list without its players has the same page, and all touches on player 0.
#[test]
fn players_move_no_byte_and_share_the_touches() {
    let mut random = Random::new(35);
    let mut tally = Tally::default();
    for _ in 0..SHARED_PICTURES {
        let shared = picture_of(&mut random, 2);
        let mut records = shared.records.clone();
        records.retain(|record| !matches!(record, Record::Setting(Setting::Player(_))));
        let alone = listed(shared.header, records);
        let page = large_page_for(&mut random, &shared.header);
        let (touched, left) = accepted(&shared, &page);
        let (of_one, same) = accepted(&alone, &page);
        assert!(left == same, "{:02x?}", shared.list);
        let mut on_player_0 = [0; PLAYERS];
        on_player_0[0] = total(&touched);
        assert_eq!(of_one, on_player_0, "{:02x?}", shared.list);
        tally.meet(player_classes(&touched));
    }
    tally.require(texts(&["0 players", "1 players", "3 players"]), LEAST);
}

/// The records without the shapes of all players but one.
fn own_records(records: &[Record], own: u8) -> Vec<Record> {
    let mut player = 0;
    let mut kept = Vec::new();
    for &record in records {
        if let Record::Setting(Setting::Player(next)) = record {
            player = next;
        }
        if player == own || !matches!(record, Record::Shape(_)) {
            kept.push(record);
        }
    }
    kept
}

#[test]
fn each_count_is_that_of_the_players_own_shapes() {
    let mut random = Random::new(36);
    let mut tally = Tally::default();
    for _ in 0..SHARED_PICTURES {
        let shared = picture_of(&mut random, 2);
        let page = large_page_for(&mut random, &shared.header);
        let (touched, _) = accepted(&shared, &page);
        for own in 0..PLAYERS {
            let records = own_records(&shared.records, own as u8);
            let mut page = page.clone();
            let list = listed(shared.header, records).list;
            let alone = library::draw_list(&list, &mut page, &codes());
            let mut expected = [0; PLAYERS];
            expected[own] = touched[own];
            assert_eq!(alone.map(|drawn| drawn.touched), Ok(expected));
        }
        tally.meet(player_classes(&touched));
    }
    let players = (0..PLAYERS).map(|player| format!("player {player}"));
    tally.require(players.collect(), LEAST);
    tally.require(texts(&["2 players", "3 players"]), LEAST);
}

/// Neither a clip nor a level sets the player back, nor a player one of them.
#[test]
fn a_player_is_in_force_until_the_next() {
    let header = Header {
        version: 2,
        width: 4,
        height: 3,
        background: 0,
    };
    // It touches four pixels, half of each, and two of them lie in the first column.
    let disc = Record::Shape(Shape::Disc(Disc {
        x: 1,
        y: 1,
        radius: 1,
        big: true,
    }));
    let player = |player| Record::Setting(Setting::Player(player));
    let level = |level| Record::Setting(Setting::Level(level));
    let columns = |x1| {
        let clip = Clip {
            x1,
            ..Clip::whole(4, 3)
        };
        Record::Setting(Setting::Clip(clip))
    };
    let first = [disc, player(3), columns(1), disc, level(0), disc];
    let then = [player(7), disc, player(7), columns(4), level(100), disc];
    let last = [player(0), disc, player(3), disc, player(5)];
    let list = listed(header, [&first[..], &then, &last].concat());
    let (touched, page) = accepted(&list, &[9; 12]);
    assert_eq!(touched, [8, 0, 0, 8, 0, 0, 0, 6]);
    // The first column: half of 255, of 255, of 0, of 0, then three halves of 100.
    assert_eq!(page, [94, 104, 0, 0, 94, 104, 0, 0, 0, 0, 0, 0]);
}

/// One pixel, levels to fill the list, and a line that covers half of the pixel.
#[test]
fn lists_about_the_greatest_length() {
    let line = encode_record(&Record::Shape(Shape::Line(Line {
        exact: true,
        x0: 0,
        y0: 0,
        x1: 1,
        y1: 0,
    })));
    let header = Header {
        version: 2,
        width: 1,
        height: 1,
        background: 0,
    };
    // A line has an odd number of bytes and a level two, so that a second line makes the list odd.
    for (lines, expected) in [(1, Ok(100)), (2, Err(12))] {
        let mut list = encode_header(&header);
        let last = [line.repeat(lines), vec![0]].concat();
        while list.len() + last.len() < LONGEST_LIST {
            list.extend(encode_record(&Record::Setting(Setting::Level(200))));
        }
        list.extend(last);
        assert_eq!(list.len() - LONGEST_LIST, lines - 1);
        let (answer, page) = drawn(&list, &[9]);
        let level = answer.map(|_| page[0]).map_err(|refusal| refusal.number);
        assert_eq!(level, expected);
    }
}

/// The pixels that a disc about a corner of a page touches, where the page has a quarter of it.
fn quarter_count(radius: u16) -> u64 {
    let heights: Vec<i128> = (0..=i128::from(radius))
        .map(|k| height(radius, k))
        .collect();
    let touches = |a: usize, b: usize| {
        let (m, n) = (a.min(b), a.max(b));
        chord_cover(heights[m], heights[m + 1], n as i128) > 0
    };
    let side = usize::from(radius);
    let pixels = (0..side).flat_map(|a| (0..side).map(move |b| (a, b)));
    pixels.filter(|&(a, b)| touches(a, b)).count() as u64
}

/// Big discs about a corner of the largest page fill a list, and player 5 touches more than 32 bits
/// can count.
#[test]
fn counts_pass_32_bits() {
    let header = Header {
        version: 2,
        width: 1024,
        height: 1024,
        background: 0,
    };
    let disc = |radius| {
        encode_record(&Record::Shape(Shape::Disc(Disc {
            x: 0,
            y: 1024,
            radius,
            big: true,
        })))
    };
    let radii = [1023, 1022, 1000, 977];
    // 10 bytes of header, 2 of the player, 9,359 discs of 7, five levels of 2, and the end record.
    let count = 9_359;
    let mut list = encode_header(&header);
    list.extend(encode_record(&Record::Setting(Setting::Player(5))));
    list.extend(
        radii
            .iter()
            .cycle()
            .take(count)
            .flat_map(|&radius| disc(radius)),
    );
    list.extend(encode_record(&Record::Setting(Setting::Level(9))).repeat(5));
    list.push(0);
    assert_eq!(list.len(), LONGEST_LIST);

    let counts = radii.map(quarter_count);
    let mut touched = [0; PLAYERS];
    touched[5] = counts.iter().cycle().take(count).sum();
    assert!(touched[5] > u64::from(u32::MAX));
    let mut page = vec![7; page_length(1024, 1024)];
    let drawn = library::draw_list(&list, &mut page, &codes());
    assert_eq!(drawn.map(|drawn| drawn.touched), Ok(touched));
    assert_eq!((page[0], page[1023 * 1024]), (0, 255));
}

/// After 12, 5, 1, 2, 3 and 21 and before every record; the page is as it was.
#[test]
fn unfit_lights_are_refused_before_the_records() {
    let mut random = Random::new(37);
    for name in UNFIT {
        let lights = named(name);
        for _ in 0..200 {
            let Listed { header, list, .. } = picture(&mut random);
            let page = large_page_for(&mut random, &header);
            let refused = |number| Err(Refused { number, place: 0 });
            assert_eq!(drawn_in(&lights, &list, &page).0, refused(32));
            let no_end = &list[..list.len() - 1];
            assert_eq!(drawn_in(&lights, no_end, &page).0, refused(32));
            let unknown = [&list[..10], &[11], &list[10..]].concat();
            assert_eq!(drawn_in(&lights, &unknown, &page).0, refused(32));
            let pixels = page_length(header.width, header.height);
            assert_eq!(drawn_in(&lights, &list, &page[..pixels - 1]).0, refused(21));
            assert_eq!(drawn_in(&lights, &list[..9], &page).0, refused(5));
        }
    }
}
