//! Texts into lists and back: the examples, random lists, damaged lists and wrong lines; and lists
//! squeezed, told by their texts.

use checks::listings::{damage, lawful_record, list as any_list};
use checks::random::Random;
use greystroke::{check_without_page, Refusal};
use list::{dump, make, squeeze, LONGEST_LIST};
use reference::format::{encode_header, encode_record, Header};
use std::fs;
use std::path::{Path, PathBuf};

const ROUNDS: u32 = 3_000;

/// A list of each kind of record, and its text as it is dumped.
const EACH_KIND: &str = "\
page 20 16 9                 # at 0
clip 3 16 20 16              # at 10
level 0                      # at 19
exact -4096 4095 7 -2        # at 21
approximate 7 -2 -4096 4095  # at 30
disc 4095 -4096 255          # at 39
ring -1 0 255 255            # at 45
player 7                     # at 52
bigdisc 4095 -4096 1023      # at 54
bigring -1 0 255 255         # at 61
triangle 7 -2 -120 9 0 125   # at 70
end                          # at 83
# ceiling 0
";

/// The same in version 1, which has no player, no big disc or ring and no triangle.
const EACH_KIND_OF_VERSION_1: &str = "\
page 20 16 9 version 1       # at 0
clip 3 16 20 16              # at 10
level 0                      # at 19
exact -4096 4095 7 -2        # at 21
approximate 7 -2 -4096 4095  # at 30
disc 4095 -4096 255          # at 39
ring -1 0 255 255            # at 45
end                          # at 52
# ceiling 0
";

fn examples() -> Vec<PathBuf> {
    let folder = Path::new(env!("CARGO_MANIFEST_DIR")).join("../../examples");
    let files = fs::read_dir(folder).expect("the examples are there");
    let mut lists: Vec<PathBuf> = files.map(|file| file.unwrap().path()).collect();
    lists.retain(|file| file.extension().is_some_and(|ending| ending == "list"));
    assert!(lists.len() >= 5, "too few examples: {lists:?}");
    lists
}

/// A list that nothing refuses, of either version and up to forty records.
fn lawful_list(random: &mut Random) -> Vec<u8> {
    let mut side = || random.between(1, 1024) as u16;
    let (width, height) = (side(), side());
    let header = Header {
        version: random.pick(&[1, 2]),
        width,
        height,
        background: random.bits() as u8,
    };
    let mut list = encode_header(&header);
    for _ in 0..random.between(0, 40) {
        list.extend(encode_record(&lawful_record(random, header.basis())));
    }
    list.push(0);
    list
}

/// The lines of a dump that have a record, each with the place that is told.
fn places(text: &str) -> Vec<usize> {
    let places = text.lines().filter_map(|line| line.split_once("# at "));
    places.map(|(_, place)| place.parse().unwrap()).collect()
}

/// The lines of a dump that have a shape, without their places.
fn shapes(text: &str) -> Vec<&str> {
    let records = text.lines().filter_map(|line| line.split_once("# at "));
    let is_setting = |record: &str| {
        let mut settings = ["clip ", "level ", "player "].into_iter();
        settings.any(|words| record.starts_with(words))
    };
    let records = records.map(|(record, _)| record);
    records.filter(|record| !is_setting(record)).collect()
}

/// A list squeezed has the same shapes and no more bytes, and is not squeezed further.
fn assert_squeezed(list: &[u8]) {
    let squeezed = squeeze(list).expect("the list is accepted");
    assert!(squeezed.len() <= list.len(), "{list:02x?}");
    let (text, squeezed_text) = (dump(list).text, dump(&squeezed).text);
    assert_eq!(shapes(&squeezed_text), shapes(&text));
    assert_eq!(squeezed_text.lines().last(), text.lines().last());
    assert_eq!(squeeze(&squeezed), Ok(squeezed));
}

/// A dump tells the ceiling that the check of the list tells, or the refusal, and stops at its place.
/// A refused list is not squeezed.
fn assert_told(list: &[u8]) -> Option<Refusal> {
    let dumped = dump(list);
    let checked = check_without_page(list);
    assert_eq!(dumped.refusal, checked.err(), "{list:02x?}");
    assert_eq!(squeeze(list).err(), checked.err(), "{list:02x?}");
    let mut lines = dumped.text.lines();
    let last = lines.next_back().unwrap_or_default();
    let refused = match checked {
        Err(refused) => refused,
        Ok(checked) => {
            assert_eq!(last, format!("# ceiling {}", checked.ceiling));
            let end = lines.next_back().unwrap_or_default();
            assert!(end.starts_with("end "), "{}", dumped.text);
            assert_eq!(dumped.text.matches("ceiling").count(), 1);
            assert_eq!(make(dumped.text.as_bytes()).as_deref(), Ok(list));
            assert_squeezed(list);
            return None;
        }
    };
    assert!(!dumped.text.contains("ceiling"), "{}", dumped.text);
    let (number, place) = (refused.refusal.number(), refused.place);
    let told = format!("# refused {number} at {place}: ");
    assert!(last.starts_with(&told), "{last} is not {told}");
    assert_eq!(dumped.text.matches("refused").count(), 1);

    // What is in front of the refusal is whole: with an end record it is a list, the same bytes.
    let has_end = refused.refusal == Refusal::SurplusBytes;
    if place > 0 {
        let mended = if has_end {
            dumped.text
        } else {
            dumped.text + "end\n"
        };
        let made = make(mended.as_bytes()).expect("the records of a dump are lawful");
        assert_eq!(made[..place], list[..place]);
        assert_eq!(made.len(), place + usize::from(!has_end));
    } else {
        assert_eq!(places(&dumped.text), []);
    }
    Some(refused.refusal)
}

/// What `make` says of a text that it refuses.
fn wrong(text: &str) -> String {
    let wrong = make(text.as_bytes()).expect_err(text);
    wrong.to_string()
}

#[test]
fn each_kind_of_record_has_its_words() {
    let list = make(EACH_KIND.as_bytes()).unwrap();
    assert_eq!(list.len(), 84);
    assert_eq!(list[10..19], [1, 3, 0, 16, 0, 20, 0, 16, 0]);
    assert_eq!(list[30..39], [4, 7, 0, 0xFE, 0xFF, 0, 0xF0, 0xFF, 0x0F]);
    assert_eq!(list[45..52], [6, 0xFF, 0xFF, 0, 0, 255, 255]);
    assert_eq!(list[52..54], [7, 7]);
    assert_eq!(list[54..61], [8, 0xFF, 0x0F, 0, 0xF0, 0xFF, 3]);
    assert_eq!(list[61..70], [9, 0xFF, 0xFF, 0, 0, 255, 0, 255, 0]);
    let corners = [7, 0, 0xFE, 0xFF, 0x88, 0xFF, 9, 0, 0, 0, 125, 0];
    assert_eq!((list[70], &list[71..83]), (10, &corners[..]));
    assert_eq!(dump(&list).text, EACH_KIND);
}

/// The same bytes but for those of the version and of the records that version 1 lacks.
#[test]
fn version_1_is_told_and_version_2_is_not() {
    let newer = make(EACH_KIND.as_bytes()).unwrap();
    let older = make(EACH_KIND_OF_VERSION_1.as_bytes()).unwrap();
    assert_eq!((&newer[3..5], &older[3..5]), (&[2, 0][..], &[1, 0][..]));
    assert_eq!(newer[5..52], older[5..52]);
    assert_eq!((&newer[52..55], &older[52..]), (&[7, 7, 8][..], &[0][..]));
    assert_eq!(dump(&older).text, EACH_KIND_OF_VERSION_1);
    let told = make(b"page 4 3 0 version 2\nend\n");
    assert_eq!(told, make(b"page 4 3 0\nend\n"));
    assert!(told.is_ok());
}

#[test]
fn the_list_of_the_rules_is_made_from_its_text() {
    let rules = b"INK\x01\x00\x04\x00\x03\x00\x00\x03\x01\x00\x01\x00\x03\x00\x02\x00\x00";
    let list = make(b"page 4 3 0 version 1\nexact 1 1 3 2\nend").unwrap();
    assert_eq!(list, rules);
    let newer = make(b"page 4 3 0\nexact 1 1 3 2\nend").unwrap();
    assert_eq!(newer[..5], *b"INK\x02\x00");
    assert_eq!(newer[5..], rules[5..]);
}

#[test]
fn examples_are_made_from_their_texts_and_dumped() {
    for file in examples() {
        let stored = fs::read(&file).unwrap();
        let text = fs::read(file.with_extension("txt")).expect("each list has its text");
        assert_eq!(make(&text).as_ref(), Ok(&stored), "{}", file.display());
        assert_eq!(assert_told(&stored), None);
    }
}

/// Lines by three times their longer spans, discs and rings by four times the radius squared, the
/// triangle by its box, and what the clip keeps of each.
#[test]
fn the_ceiling_follows_the_records() {
    let shapes = "exact 1 1 3 2\ndisc 9 9 2\nring 9 9 5 1\ntriangle 2 2 9 4 5 7\n";
    for (clip, ceiling) in [
        ("", 6 + 16 + 100 + 35),
        ("clip 3 4 9 9\n", 6 + 16 + 30 + 30),
        ("clip 3 4 3 9\n", 0),
    ] {
        let text = format!("page 20 16 9\n{clip}{shapes}clip 0 0 1 1\nend\n");
        let dumped = dump(&make(text.as_bytes()).unwrap()).text;
        assert!(
            dumped.ends_with(&format!("# ceiling {ceiling}\n")),
            "{dumped}"
        );
    }
}

/// The records of a list, and of the same list squeezed.
#[test]
fn settings_that_change_nothing_are_left_out() {
    let rows = [
        // the settings that a list starts with, and one that no shape is drawn with
        (
            "clip 0 0 20 16\nlevel 9\nlevel 255\nplayer 0\ndisc 9 9 2\n",
            "disc 9 9 2\n",
        ),
        // those of the shape before, also after others
        (
            "level 9\ndisc 9 9 2\nlevel 9\ndisc 9 9 3\nlevel 7\nlevel 9\ndisc 9 9 4\n",
            "level 9\ndisc 9 9 2\ndisc 9 9 3\ndisc 9 9 4\n",
        ),
        // those behind the last shape
        (
            "bigdisc 9 9 2\nclip 0 0 1 1\nlevel 9\nplayer 3\n",
            "bigdisc 9 9 2\n",
        ),
        ("clip 0 0 1 1\nlevel 9\nplayer 3\n", ""),
        // clip, level, player is the order
        (
            "player 3\nlevel 9\nclip 0 0 1 1\nring 9 9 2 1\n",
            "clip 0 0 1 1\nlevel 9\nplayer 3\nring 9 9 2 1\n",
        ),
        // a setting that is set back stays
        (
            "clip 0 0 1 1\nexact 1 1 3 2\nclip 0 0 20 16\nexact 1 1 3 2\n",
            "clip 0 0 1 1\nexact 1 1 3 2\nclip 0 0 20 16\nexact 1 1 3 2\n",
        ),
    ];
    for (records, squeezed) in rows {
        let made = |records| make(format!("page 20 16 9\n{records}end\n").as_bytes()).unwrap();
        assert_eq!(squeeze(&made(records)), Ok(made(squeezed)), "{records}");
    }
    for text in [EACH_KIND, EACH_KIND_OF_VERSION_1] {
        let list = make(text.as_bytes()).unwrap();
        assert_eq!(squeeze(&list), Ok(list));
    }
}

#[test]
fn accepted_lists_come_back_as_their_own_bytes() {
    let mut random = Random::new(1);
    for _ in 0..ROUNDS {
        let list = lawful_list(&mut random);
        assert_eq!(assert_told(&list), None);
    }
}

#[test]
fn lists_cut_at_any_byte_are_dumped_up_to_the_cut() {
    let list = make(EACH_KIND.as_bytes()).unwrap();
    let starts = places(EACH_KIND);
    for length in 0..list.len() {
        let cut = &list[..length];
        assert_eq!(assert_told(cut), Some(Refusal::CutShort));
        // The records that end inside the cut are shown, and no more.
        let ends = starts.iter().skip(1).filter(|&&end| end <= length);
        assert_eq!(places(&dump(cut).text).len(), ends.count());
    }
}

#[test]
fn a_wrong_kind_ends_the_dump_at_any_record() {
    let list = make(EACH_KIND.as_bytes()).unwrap();
    let starts = places(EACH_KIND);
    for (before, &place) in starts.iter().enumerate().skip(1) {
        let mut damaged = list.clone();
        damaged[place] = 11;
        assert_eq!(assert_told(&damaged), Some(Refusal::UnknownKind));
        let dumped = dump(&damaged);
        assert_eq!(places(&dumped.text), starts[..before]);
        let reason = "the version of the list has no record of this kind";
        let last = format!("# refused 4 at {place}: {reason}\n");
        assert!(dumped.text.ends_with(&last), "{}", dumped.text);
    }
}

/// Turned into a list of version 1, a list is dumped up to its first record of version 2.
#[test]
fn a_record_of_version_2_ends_the_dump_of_version_1() {
    let whole = make(EACH_KIND.as_bytes()).unwrap();
    let (older, newer) = (&whole[..52], [52..54, 54..61, 61..70, 70..83]);
    for records in [[0, 1, 2, 3], [1, 2, 3, 0], [2, 1, 0, 3], [3, 0, 1, 2]] {
        let newer = records.map(|record: usize| &whole[newer[record].clone()]);
        let mut list = [older, &newer.concat(), &[0]].concat();
        assert_eq!(assert_told(&list), None);
        list[3] = 1;
        assert_eq!(assert_told(&list), Some(Refusal::UnknownKind));
        let text = dump(&list).text;
        assert!(text.starts_with("page 20 16 9 version 1 "), "{text}");
        assert_eq!(places(&text), [0, 10, 19, 21, 30, 39, 45]);
    }
}

#[test]
fn damaged_lists_tell_the_refusal_of_their_check() {
    let mut random = Random::new(2);
    let mut seen = [0_u32; 36];
    for _ in 0..10 * ROUNDS {
        let mut list = any_list(&mut random);
        damage(&mut random, &mut list);
        let refusal = assert_told(&list);
        seen[refusal.map_or(0, |refusal| refusal.number() as usize)] += 1;
    }
    // Every refusal of a list but that of its length, and lists that took no harm.
    assert!(seen[..12].iter().all(|&count| count > 10), "{seen:?}");
    let newer = [31, 33, 34, 35].map(|number: usize| seen[number]);
    assert!(newer.iter().all(|&count| count > 10), "{seen:?}");
}

#[test]
fn bytes_behind_the_end_are_not_shown() {
    let list = make(b"page 2 2 0\nend\n").unwrap();
    let longer = [&list[..], &[2, 9]].concat();
    let shown = format!(
        "{:<28} # at 0\n{:<28} # at 10\n# refused 6 at 11: bytes follow the end record\n",
        "page 2 2 0", "end"
    );
    assert_eq!(dump(&longer).text, shown);
}

#[test]
fn a_list_may_have_65536_bytes_and_no_more() {
    // 10 bytes of header, 7,279 lines of 9, seven levels of 2, and the end record.
    let head = "page 1 1 0\n".to_string() + &"exact 0 0 1 1\n".repeat(7_279);
    let whole = head.clone() + &"level 1\n".repeat(7) + "end\n";
    let list = make(whole.as_bytes()).unwrap();
    assert_eq!(list.len(), LONGEST_LIST);
    assert_eq!(assert_told(&list), None);

    let longer = head + &"level 1\n".repeat(8) + "end\n";
    let reason = "too few bytes are left in the list being written, which has at most 65,536";
    assert_eq!(wrong(&longer), format!("line 7288: refused 22: {reason}"));

    let too_long = [&list[..], &[0]].concat();
    let told = "# refused 12 at 0: the list has more than 65,536 bytes\n";
    assert_eq!(dump(&too_long).text, told);
}

#[test]
fn blanks_comments_and_carriage_returns_are_passed_over() {
    let plain = make(b"page 4 3 0\nlevel 7\nend\n");
    let dressed = b"# first\r\n\r\n\tpage  4 3\t0#zero\r\n \n level 7 # 8\r\nend# \xFF\n\n#end\n";
    assert_eq!(make(dressed), plain);
    assert!(plain.is_ok());
}

/// Each record is refused, or expected to be another, in the third line of a text.
fn assert_wrong_records(rows: &[(&str, &str)]) {
    for (line, told) in rows {
        let text = format!("page 4 3 0  # a page\n\n{line}  # wrong\nend\n");
        assert_eq!(wrong(&text), format!("line 3: {told}"));
    }
}

#[test]
fn wrong_discs_and_rings_are_told() {
    let too_large =
        "refused 33: the radius is above 1,023, or above 255 in a record with one byte for it";
    assert_wrong_records(&[
        ("disc 1 1", "expected disc X Y RADIUS, found disc 1 1"),
        ("disc 1 1 0", "refused 10: the radius is 0"),
        ("disc 1 1 256", too_large),
        (
            "disc 1 1 65536",
            "expected disc X Y RADIUS, found disc 1 1 65536: 65536 does not fit RADIUS",
        ),
        (
            "bigdisc 1 1",
            "expected bigdisc X Y RADIUS, found bigdisc 1 1",
        ),
        ("bigdisc 1 1 0", "refused 10: the radius is 0"),
        ("bigdisc 1 1 1024", too_large),
        (
            "bigdisc 1 1 65536",
            "expected bigdisc X Y RADIUS, found bigdisc 1 1 65536: 65536 does not fit RADIUS",
        ),
        (
            "ring 1 1 5",
            "expected ring X Y RADIUS WIDTH, found ring 1 1 5",
        ),
        (
            "ring 1 1 5 6",
            "refused 11: the width of the ring is 0 or above its radius",
        ),
        ("ring 1 1 256 256", too_large),
        (
            "bigring 1 1 5",
            "expected bigring X Y RADIUS WIDTH, found bigring 1 1 5",
        ),
        (
            "bigring 1 1 300 301",
            "refused 11: the width of the ring is 0 or above its radius",
        ),
        (
            "bigring 1 1 300 65536",
            "expected bigring X Y RADIUS WIDTH, \
             found bigring 1 1 300 65536: 65536 does not fit WIDTH",
        ),
    ]);
}

#[test]
fn wrong_triangles_are_told() {
    assert_wrong_records(&[
        (
            "triangle 1 1 3 2 5",
            "expected triangle X Y X Y X Y, found triangle 1 1 3 2 5",
        ),
        (
            "triangle 1 1 3 2 5 5 7",
            "expected triangle X Y X Y X Y, found triangle 1 1 3 2 5 5 7",
        ),
        (
            "triangle 1 1 3 2 5 32768",
            "expected triangle X Y X Y X Y, \
             found triangle 1 1 3 2 5 32768: 32768 does not fit Y",
        ),
        (
            "triangle 1 1 3 2 5 4096",
            "refused 7: a coordinate is outside -4,096 to 4,095",
        ),
        (
            "triangle 0 0 128 0 64 0",
            "refused 34: the width or height of the triangle is above 127",
        ),
        (
            "triangle 0 0 127 127 64 64",
            "refused 35: the corners of the triangle are on one straight line",
        ),
    ]);
}

/// Any order of the corners is a text and a list of its own.
#[test]
fn corners_come_back_in_their_order() {
    let orders = ["1 2 9 3 4 8", "9 3 1 2 4 8", "4 8 9 3 1 2", "4 8 1 2 9 3"];
    let lists = orders.map(|order| {
        let list = make(format!("page 4 3 0\ntriangle {order}\nend\n").as_bytes()).unwrap();
        let words = format!("triangle {order} ");
        assert!(dump(&list).text.contains(&words), "{}", dump(&list).text);
        assert_eq!(assert_told(&list), None);
        list
    });
    for (k, list) in lists.iter().enumerate() {
        assert!(!lists[..k].contains(list));
    }
}

#[test]
fn wrong_lines_are_told_by_their_number() {
    let record = "a record (clip, level, player, exact, approximate, disc, ring, bigdisc, \
                  bigring, triangle or end)";
    let rows = [
        (
            "",
            "line 1: expected page W H BACKGROUND, found the end of the text",
        ),
        (
            "\n# none\n\n",
            "line 4: expected page W H BACKGROUND, found the end of the text",
        ),
        (
            "level 3",
            "line 1: expected page W H BACKGROUND, found level 3",
        ),
        (
            "page 4 3",
            "line 1: expected page W H BACKGROUND, found page 4 3",
        ),
        (
            "page 4 3 256",
            "line 1: expected page W H BACKGROUND, found page 4 3 256: 256 does not fit BACKGROUND",
        ),
        (
            "page 0 3 0",
            "line 1: refused 3: the width or height of the page is outside 1 to 1,024",
        ),
        (
            "page 4 3 0 1",
            "line 1: expected page W H BACKGROUND, found page 4 3 0 1",
        ),
        (
            "page 4 3 0 version",
            "line 1: expected page W H BACKGROUND version VERSION, found page 4 3 0 version",
        ),
        (
            "page version 1 4 3 0",
            "line 1: expected page W H BACKGROUND version VERSION, found page version 1 4 3 0",
        ),
        (
            "page 4 3 0 version 65536",
            "line 1: expected page W H BACKGROUND version VERSION, \
             found page 4 3 0 version 65536: 65536 does not fit VERSION",
        ),
        (
            "page 0 3 0 version 3",
            "line 1: refused 2: the version is neither 1 nor 2",
        ),
        (
            "INK\u{1}\u{0}",
            "line 1: expected page W H BACKGROUND, found INK??",
        ),
    ];
    for (text, told) in rows {
        assert_eq!(wrong(text), told);
    }

    let rows = [
        ("exact 1 1 3", "expected exact X Y X Y, found exact 1 1 3"),
        (
            "exact 1 1 3 2 5",
            "expected exact X Y X Y, found exact 1 1 3 2 5",
        ),
        (
            "exact 1 1 3 +2",
            "expected exact X Y X Y, found exact 1 1 3 +2",
        ),
        (
            "exact 1 1 3 2.5",
            "expected exact X Y X Y, found exact 1 1 3 2.5",
        ),
        (
            "approximate 1 -32769 3 2",
            "expected approximate X Y X Y, found approximate 1 -32769 3 2: -32769 does not fit Y",
        ),
        (
            "approximate 1 1 4096 2",
            "refused 7: a coordinate is outside -4,096 to 4,095",
        ),
        ("exact 1 2 1 2", "refused 9: the ends of the line coincide"),
        ("clip 0 0 1", "expected clip X Y X Y, found clip 0 0 1"),
        (
            "clip 0 -1 1 1",
            "expected clip X Y X Y, found clip 0 -1 1 1: -1 does not fit Y",
        ),
        (
            "clip 0 0 5 3",
            "refused 8: the clip is out of order or off the page",
        ),
        ("level", "expected level LEVEL, found level"),
        (
            "level 256",
            "expected level LEVEL, found level 256: 256 does not fit LEVEL",
        ),
        ("player", "expected player PLAYER, found player"),
        (
            "player 256",
            "expected player PLAYER, found player 256: 256 does not fit PLAYER",
        ),
        ("player 8", "refused 31: the player is above 7"),
        ("end 0", "expected end, found end 0"),
    ];
    assert_wrong_records(&rows);

    for line in [
        "player 0",
        "bigdisc 1 1 5",
        "bigring 1 1 5 2",
        "triangle 1 1 5 2 0 3",
    ] {
        let of_version_1 = format!("page 4 3 0 version 1\nlevel 9\n{line}\nend\n");
        let told = "line 3: refused 4: the version of the list has no record of this kind";
        assert_eq!(wrong(&of_version_1), told);
    }

    for line in [
        "page 4 3 0",
        "Level 3",
        "players 3",
        "circle 1 1 5",
        "big disc 1 1 5",
        "triangles 1 1 5 2 0 3",
        "3",
    ] {
        let text = format!("page 4 3 0\n{line}\nend\n");
        assert_eq!(
            wrong(&text),
            format!("line 2: expected {record}, found {line}")
        );
    }
    assert_eq!(
        wrong("page 4 3 0\nend\n\nend\n"),
        "line 4: expected nothing behind end, found end"
    );
    assert_eq!(
        wrong("page 4 3 0\nlevel 3\n"),
        "line 3: expected end as the last record, found the end of the text"
    );
    let long = format!("page 4 3 0\nlevel {}\nend\n", "9".repeat(80));
    assert!(wrong(&long).contains("9999 ..: 9999"), "{}", wrong(&long));
}
