//! Lists squeezed: the library against the reference and against stored rows, and what a squeezed
//! list keeps of the list that it is made from.

use checks::calls::answer;
use checks::cases::{list_cases, rows};
use checks::classes::Tally;
use checks::library;
use checks::lights::{fit_lights, named};
use checks::listings::{damage, list};
use checks::notation::{parse_writable, Writable};
use checks::pictures::{listed, picture, picture_of, small_picture};
use checks::random::Random;
use checks::rows::starting_page;
use checks::spare::with_spare_settings;
use reference::format::{
    encode_header, encode_record, kind_of, kind_refusal, Header, HEADER_LENGTH, LONGEST_LIST,
};
use reference::list::{check_without_page, Accepted};
use reference::page::page_length;
use reference::reader::lawful_record;
use reference::refusal::Refused;
use reference::shape::Record;
use reference::squeeze::squeeze_list;
use std::collections::HashMap;

const PICTURES: u32 = 30_000;
const DAMAGED: u32 = 60_000;
const SPARE: u32 = 20_000;
/// Every class of input has to come up at least this often.
const LEAST: u32 = 100;

const VERSIONS: [u16; 2] = [1, 2];
const SETTINGS: [(u8, &str); 3] = [(1, "clip"), (2, "level"), (7, "player")];

fn header(version: u16) -> Header {
    Header {
        version,
        width: 20,
        height: 16,
        background: 9,
    }
}

/// Squeezes by both into bytes of the same contents, and hands back what they agree on.
fn squeezed_into(length: usize, list: &[u8]) -> (Result<usize, Refused>, Vec<u8>) {
    let before = starting_page(length);
    let (mut expected, mut found) = (before.clone(), before.clone());
    let expected_answer = squeeze_list(&mut expected, list);
    let found_answer = library::squeeze_list(&mut found, list);
    let told = || format!("into {length} bytes, list {list:02x?}");
    assert_eq!(found_answer, expected_answer, "{}", told());
    assert!(found == expected, "{}", told());
    // The bytes past the squeezed list, and all after a refusal, are as they were.
    let written = found_answer.unwrap_or(0);
    assert!(found[written..] == before[written..], "{}", told());
    (found_answer, found)
}

/// The squeezed list, the same in every room that it fits, and refused in one that is a byte too
/// short. A list that its check refuses is refused alike in any room.
fn squeezed(list: &[u8]) -> Result<Vec<u8>, Refused> {
    let refused = library::check_without_page(list).err();
    let (answer, mut bytes) = squeezed_into(list.len(), list);
    assert_eq!(answer.err(), refused, "{list:02x?}");
    let no_room = Refused {
        number: 22,
        place: 0,
    };
    let none = squeezed_into(0, list).0;
    assert_eq!(none, Err(refused.unwrap_or(no_room)), "{list:02x?}");
    let length = answer?;
    bytes.truncate(length);
    assert_eq!(squeezed_into(length - 1, list).0, Err(no_room));
    for room in [length, length + 1, length + 70] {
        let (answer, found) = squeezed_into(room, list);
        assert_eq!(answer, Ok(length), "{list:02x?}");
        assert!(found[..length] == bytes, "{list:02x?}");
    }
    Ok(bytes)
}

/// The bytes of each record of an accepted list.
fn records(list: &[u8]) -> Vec<&[u8]> {
    let header = check_without_page(list).expect("a lawful list").header;
    let mut rest = &list[HEADER_LENGTH..];
    let mut records = Vec::new();
    while !rest.is_empty() {
        let (_, length) = lawful_record(rest, header.basis()).expect("a lawful list");
        records.push(&rest[..length]);
        rest = &rest[length..];
    }
    records
}

fn is_setting(record: &[u8]) -> bool {
    SETTINGS.iter().any(|(kind, _)| record[0] == *kind)
}

/// What a squeezed list keeps: it is accepted with the same header and the same drawings, from which
/// the bound of each pixel is read, so with the same ceiling, and each shape has the same bytes. It
/// is no longer, and squeezed again it is the same bytes.
fn hold_promises(list: &[u8], squeezed_list: &[u8]) -> Accepted {
    let told = || format!("{list:02x?} squeezed to {squeezed_list:02x?}");
    let accepted = check_without_page(list).expect("a lawful list");
    let kept = check_without_page(squeezed_list);
    assert_eq!(kept.as_ref(), Ok(&accepted), "{}", told());
    let checked = library::check_without_page(squeezed_list);
    assert_eq!(checked, library::check_without_page(list), "{}", told());
    let shapes = |list| {
        let mut shapes = records(list);
        shapes.retain(|record| !is_setting(record));
        shapes
    };
    assert_eq!(shapes(squeezed_list), shapes(list), "{}", told());
    assert!(squeezed_list.len() <= list.len(), "{}", told());
    let again = squeezed(squeezed_list);
    assert_eq!(again.as_deref(), Ok(squeezed_list), "{}", told());
    accepted
}

/// Clip, level and player come at most once before a shape, in this order, and none of them can be
/// taken out: something would be drawn under another setting.
fn hold_to_needed(squeezed_list: &[u8]) {
    let accepted = check_without_page(squeezed_list);
    let records = records(squeezed_list);
    let mut place = HEADER_LENGTH;
    for pair in records.windows(2) {
        let (record, next) = (pair[0], pair[1]);
        let end = place + record.len();
        if is_setting(record) {
            assert_ne!(next, [0], "a setting for no shape: {squeezed_list:02x?}");
            assert!(!is_setting(next) || record[0] < next[0]);
            let without = [&squeezed_list[..place], &squeezed_list[end..]].concat();
            assert_ne!(check_without_page(&without), accepted, "{record:02x?}");
        }
        place = end;
    }
}

/// The page and the counts of both lists in some lights.
fn hold_to_page(list: &[u8], squeezed_list: &[u8], header: &Header, lights: &[u16]) {
    let mut page = starting_page(page_length(header.width, header.height) + 3);
    let mut squeezed_page = page.clone();
    let drawn = library::draw_list(list, &mut page, lights);
    let squeezed_drawn = library::draw_list(squeezed_list, &mut squeezed_page, lights);
    assert!(drawn.is_ok(), "{list:02x?}");
    assert_eq!(squeezed_drawn, drawn, "{list:02x?}");
    assert!(squeezed_page == page, "{list:02x?}, lights {lights:?}");
}

/// What the list has, and what became of it.
fn classes(list: &[u8], squeezed_list: &[u8], accepted: &Accepted) -> Vec<String> {
    let (before, after) = (records(list), records(squeezed_list));
    let mut classes = vec![format!("version {}", accepted.header.version)];
    for (kind, name) in SETTINGS {
        let count = |records: &[&[u8]]| records.iter().filter(|r| r[0] == kind).count();
        if count(&after) < count(&before) {
            classes.push(format!("{name} left out"));
        }
        if count(&after) > 0 {
            classes.push(format!("{name} kept"));
        }
    }
    let met = [
        ("nothing left out", squeezed_list == list),
        (
            "only moved",
            squeezed_list != list && squeezed_list.len() == list.len(),
        ),
        ("no shape", accepted.drawings.is_empty()),
        (
            "a setting behind the last shape",
            before.len() > 1 && is_setting(before[before.len() - 2]),
        ),
    ];
    let met = met.into_iter().filter(|(_, met)| *met);
    classes.extend(met.map(|(class, _)| class.to_string()));
    let shapes = accepted.drawings.iter().map(|drawing| drawing.shape);
    classes.extend(shapes.map(|shape| format!("kind {}", kind_of(&Record::Shape(shape)))));
    classes
}

/// Those that have to be met.
fn all_classes() -> Vec<String> {
    let mut classes = Vec::new();
    for (_, name) in SETTINGS {
        classes.extend(["left out", "kept"].map(|told| format!("{name} {told}")));
    }
    classes.extend(VERSIONS.map(|version| format!("version {version}")));
    classes.extend([3, 4, 5, 6, 8, 9, 10].map(|kind| format!("kind {kind}")));
    let others = [
        "nothing left out",
        "only moved",
        "no shape",
        "a setting behind the last shape",
    ];
    classes.extend(others.map(str::to_string));
    classes
}

fn record(words: &str) -> Record {
    match parse_writable(words) {
        Writable::Record(record) => record,
        Writable::Header(header) => panic!("{header:?} is no record"),
    }
}

fn list_of(version: u16, records: &[Record]) -> Vec<u8> {
    listed(header(version), records.to_vec()).list
}

#[test]
fn stored_rows_agree() {
    let rows = rows("squeezes");
    for row in &rows {
        let found = answer(&format!("squeezes {}", row.call));
        assert_eq!(found, row.answer, "{}", row.call);
    }
    assert_eq!(rows.len(), 127);
}

#[test]
fn stored_lists_keep_what_they_draw() {
    let mut accepted = 0;
    for case in list_cases() {
        if let Ok(bytes) = squeezed(&case.list) {
            let header = hold_promises(&case.list, &bytes).header;
            hold_to_needed(&bytes);
            hold_to_page(&case.list, &bytes, &header, &named("gamma"));
            accepted += 1;
        }
    }
    assert!(accepted > 40, "only {accepted} are accepted");
}

/// The records of a list on a page of 20 by 16, and those of the squeezed list; in version 1 too
/// where it has them all.
#[test]
fn lists_worked_out_by_hand() {
    let rows: [(&str, &str); 22] = [
        ("", ""),
        ("level 7", ""),
        ("clip 0 0 1 1, level 7, player 3", ""),
        ("disc 5 5 2", "disc 5 5 2"),
        // the settings that a list starts with
        ("clip 0 0 20 16, disc 5 5 2", "disc 5 5 2"),
        ("level 255, disc 5 5 2", "disc 5 5 2"),
        ("player 0, disc 5 5 2", "disc 5 5 2"),
        ("level 7, level 255, disc 5 5 2", "disc 5 5 2"),
        ("clip 0 0 1 1, clip 0 0 20 16, disc 5 5 2", "disc 5 5 2"),
        ("player 3, player 0, disc 5 5 2", "disc 5 5 2"),
        // the last before a shape counts
        ("level 7, level 8, disc 5 5 2", "level 8, disc 5 5 2"),
        (
            "level 255, level 7, disc 5 5 2, level 7, disc 5 5 2",
            "level 7, disc 5 5 2, disc 5 5 2",
        ),
        (
            "level 7, disc 5 5 2, level 9, level 7, disc 5 5 2, level 9, ring 5 5 2 1",
            "level 7, disc 5 5 2, disc 5 5 2, level 9, ring 5 5 2 1",
        ),
        // back to what a list starts with
        (
            "clip 0 0 1 1, level 7, disc 5 5 2, level 255, clip 0 0 20 16, disc 5 5 2",
            "clip 0 0 1 1, level 7, disc 5 5 2, clip 0 0 20 16, level 255, disc 5 5 2",
        ),
        // in the order clip, level, player
        (
            "player 3, level 7, clip 0 0 1 1, disc 5 5 2",
            "clip 0 0 1 1, level 7, player 3, disc 5 5 2",
        ),
        (
            "level 7, clip 0 0 1 1, disc 5 5 2",
            "clip 0 0 1 1, level 7, disc 5 5 2",
        ),
        (
            "player 3, level 7, disc 5 5 2, player 4, level 8, disc 5 5 2",
            "level 7, player 3, disc 5 5 2, level 8, player 4, disc 5 5 2",
        ),
        // one corner, or an empty clip, is a clip of its own
        (
            "clip 1 0 20 16, disc 5 5 2, clip 1 0 1 16, disc 5 5 2, clip 2 0 2 16, disc 5 5 2",
            "clip 1 0 20 16, disc 5 5 2, clip 1 0 1 16, disc 5 5 2, clip 2 0 2 16, disc 5 5 2",
        ),
        (
            "clip 0 0 20 15, exact 1 1 3 2, clip 0 0 19 15, approx 1 1 3 2, clip 0 0 19 15",
            "clip 0 0 20 15, exact 1 1 3 2, clip 0 0 19 15, approx 1 1 3 2",
        ),
        // a shape stays, though nothing of it is seen, and keeps its kind
        (
            "disc 5 5 2, disc 5 5 2, bigdisc 5 5 2, ring 5 5 2 2, bigring 5 5 2 2",
            "disc 5 5 2, disc 5 5 2, bigdisc 5 5 2, ring 5 5 2 2, bigring 5 5 2 2",
        ),
        (
            "player 3, clip 9 9 9 9, triangle 1 2 9 3 4 8, player 3, triangle 9 3 1 2 4 8",
            "clip 9 9 9 9, player 3, triangle 1 2 9 3 4 8, triangle 9 3 1 2 4 8",
        ),
        (
            "player 7, bigdisc 9 9 300, player 0, disc 9 9 3, player 0, player 7",
            "player 7, bigdisc 9 9 300, player 0, disc 9 9 3",
        ),
    ];
    let parse = |text: &str| -> Vec<Record> {
        let words = text.split(", ").filter(|words| !words.is_empty());
        words.map(record).collect()
    };
    for (text, expected) in rows {
        let (given, expected) = (parse(text), parse(expected));
        for version in VERSIONS {
            let lacks = |record| kind_refusal(kind_of(record), version).is_some();
            if given.iter().any(lacks) {
                continue;
            }
            let found = squeezed(&list_of(version, &given));
            assert_eq!(found, Ok(list_of(version, &expected)), "{text}");
        }
    }
}

/// Every list of up to five of these records: those that draw alike are squeezed to the same bytes,
/// and no others are.
#[test]
fn short_lists_of_few_records() {
    let choices = [
        "clip 0 0 20 16",
        "clip 0 0 1 1",
        "level 255",
        "level 7",
        "player 0",
        "player 3",
        "disc 5 5 2",
        "bigdisc 5 5 2",
    ];
    let choices = choices.map(record);
    let mut lists: Vec<Vec<Record>> = vec![Vec::new()];
    let mut longest = 0;
    for _ in 0..5 {
        let shorter = lists[longest..].to_vec();
        longest = lists.len();
        for records in shorter {
            lists.extend(choices.map(|next| [&records[..], &[next]].concat()));
        }
    }
    assert_eq!(lists.len(), 1 + 8 + 64 + 512 + 4096 + 32768);
    let mut by_drawings: HashMap<String, Vec<u8>> = HashMap::new();
    let mut by_bytes: HashMap<Vec<u8>, String> = HashMap::new();
    for records in lists {
        let list = list_of(2, &records);
        let bytes = squeezed(&list).expect("a lawful list");
        let drawings = format!("{:?}", hold_promises(&list, &bytes).drawings);
        hold_to_needed(&bytes);
        let same = by_drawings.entry(drawings.clone()).or_insert(bytes.clone());
        assert_eq!(*same, bytes, "{records:?}");
        let alike = by_bytes.entry(bytes).or_insert(drawings.clone());
        assert_eq!(*alike, drawings, "{records:?}");
    }
    assert_eq!(by_drawings.len(), by_bytes.len());
}

/// Into every room from no byte to some more than the list has.
#[test]
fn every_length_of_the_room() {
    let records = [
        "player 5",
        "level 7",
        "clip 3 0 20 9",
        "exact 1 1 3 2",
        "level 7",
        "clip 3 0 20 9",
        "triangle 1 2 9 3 4 8",
        "player 0",
        "bigring 5 5 300 9",
        "level 1",
    ];
    let list = list_of(2, &records.map(record));
    let length = 10 + 9 + 2 + 2 + 9 + 13 + 2 + 9 + 1;
    assert_eq!(squeezed(&list).map(|bytes| bytes.len()), Ok(length));
    for room in 0..list.len() + 9 {
        let (answer, _) = squeezed_into(room, &list);
        let told = answer.map_err(|refused| (refused.number, refused.place));
        let fits = room >= length;
        assert_eq!(told, if fits { Ok(length) } else { Err((22, 0)) });
    }
    // What the list is refused for comes first, in no room as in any.
    for cut in 0..list.len() {
        for room in [0, 9, 10, length - 1, length, list.len(), LONGEST_LIST + 1] {
            let (answer, _) = squeezed_into(room, &list[..cut]);
            assert_eq!(answer.map_err(|refused| refused.number), Err(5));
        }
    }
}

#[test]
fn random_lists_keep_what_they_draw() {
    let mut random = Random::new(81);
    let mut tally = Tally::default();
    for number in 0..PICTURES {
        let list = match number % 3 {
            0 => small_picture(&mut random).list,
            _ => picture(&mut random).list,
        };
        let bytes = squeezed(&list).expect("a lawful list");
        let accepted = hold_promises(&list, &bytes);
        hold_to_needed(&bytes);
        let (_, lights) = fit_lights(&mut random);
        hold_to_page(&list, &bytes, &accepted.header, &lights);
        tally.meet(classes(&list, &bytes, &accepted));
    }
    tally.require(all_classes(), LEAST);
}

/// The same shapes under the same settings, with settings that change nothing among them.
#[test]
fn spare_settings_make_no_difference() {
    let mut random = Random::new(82);
    let mut tally = Tally::default();
    for number in 0..SPARE {
        let version = VERSIONS[number as usize % 2];
        let list = picture_of(&mut random, version).list;
        let bytes = squeezed(&list).expect("a lawful list");
        let accepted = check_without_page(&list).expect("a lawful list");
        for _ in 0..3 {
            let spare = with_spare_settings(&mut random, &accepted);
            assert_eq!(check_without_page(&spare).as_ref(), Ok(&accepted));
            assert_eq!(squeezed(&spare).as_ref(), Ok(&bytes), "{spare:02x?}");
            tally.meet(classes(&spare, &bytes, &accepted));
        }
    }
    tally.require(all_classes(), LEAST);
}

#[test]
fn random_and_damaged_lists_agree() {
    let mut random = Random::new(83);
    let mut tally = Tally::default();
    for number in 0..DAMAGED {
        let mut list = match number % 3 {
            0 => picture(&mut random).list,
            _ => list(&mut random),
        };
        for _ in 0..random.pick(&[0, 1, 1, 1, 2, 5]) {
            if !list.is_empty() {
                damage(&mut random, &mut list);
            }
        }
        let room = random.between(0, list.len() as i64 + 4) as usize;
        let told = match squeezed_into(room, &list).0 {
            Ok(_) => "accepted".to_string(),
            Err(refused) => format!("refused {}", refused.number),
        };
        tally.meet(vec![told]);
        if let Ok(bytes) = squeezed(&list) {
            hold_promises(&list, &bytes);
            hold_to_needed(&bytes);
        }
    }
    let numbers = [1, 2, 3, 4, 5, 6, 7, 8, 9, 10, 11, 22, 31, 33, 34, 35];
    tally.require(numbers.map(|n| format!("refused {n}")).into(), LEAST);
    tally.require(vec!["accepted".to_string()], LEAST);
}

/// The bytes of some records.
fn bytes(words: &[&str]) -> Vec<u8> {
    let records = words.iter().map(|words| record(words));
    records.flat_map(|record| encode_record(&record)).collect()
}

/// A list of 65,536 bytes: some records, others again and again while they fit, and levels.
fn full_list(first: &[u8], again: &[u8]) -> Vec<u8> {
    let mut list = [&encode_header(&header(2))[..], first].concat();
    while list.len() + again.len() < LONGEST_LIST {
        list.extend(again);
    }
    while list.len() + 1 < LONGEST_LIST {
        list.extend([2, 255]);
    }
    list.push(0);
    assert_eq!(list.len(), LONGEST_LIST);
    list
}

/// The first record has seven bytes and what follows it an even number, so that the end comes last.
#[test]
fn lists_of_65536_bytes() {
    let first = bytes(&["bigdisc 5 5 300"]);
    let squeezed_to = |list: &[u8], records: &[Vec<u8>]| {
        let expected = [encode_header(&header(2)), records.concat(), vec![0]].concat();
        assert_eq!(squeezed(list).as_ref(), Ok(&expected));
        hold_promises(list, &expected);
    };
    let settings = full_list(&first, &bytes(&["player 1"]));
    squeezed_to(&settings, std::slice::from_ref(&first));

    // 3,275 rings behind the settings of the one before, and 9 levels behind the last
    let again = bytes(&["player 6", "clip 1 2 3 4", "level 7", "ring 5 5 2 1"]);
    let spare = full_list(&first, &again);
    let once = bytes(&["clip 1 2 3 4", "level 7", "player 6"]);
    let rings = bytes(&["ring 5 5 2 1"]).repeat(3_275);
    squeezed_to(&spare, &[first.clone(), once, rings]);

    // 3,275 turns of level and player, and 9 levels behind the last
    let one = ["level 7", "player 6", "disc 5 5 2"];
    let other = ["level 8", "player 5", "disc 5 5 2"];
    let again = bytes(&[one, other].concat());
    let changing = full_list(&first, &again);
    squeezed_to(&changing, &[first, again.repeat(3_275)]);

    let too_long = [&changing[..], &[0]].concat();
    for room in [0, LONGEST_LIST, 2 * LONGEST_LIST] {
        let (answer, _) = squeezed_into(room, &too_long);
        let refused = answer.expect_err("the list is too long");
        assert_eq!((refused.number, refused.place), (12, 0));
    }
}
