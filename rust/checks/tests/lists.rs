//! Drawing lists of both versions: the library's check, in fit and unfit lights and without a page,
//! and its reader against the reference and against stored rows.

use checks::calls::answer;
use checks::cases::rows;
use checks::classes::Tally;
use checks::library;
use checks::lights::{fit_lights, named, spoil_lights, FIT, UNFIT};
use checks::listings::{damage, list};
use checks::notation::triangle_of;
use checks::random::Random;
use reference::format::{encode_header, encode_record, Header, HEADER_LENGTH, LONGEST_LIST};
use reference::list::{check, check_without_page, Checked};
use reference::reader::read_record;
use reference::refusal::Refused;
use reference::shape::{Basis, Clip, Disc, Line, Record, Ring, Setting, Shape};

const DAMAGED: u32 = 60_000;
const RANDOM_BYTES: u32 = 60_000;
/// Every refusal has to come up at least this often among the damaged lists.
const LEAST: u32 = 100;

const VERSIONS: [u16; 2] = [1, 2];
const PAGE: usize = 20 * 16;

fn header(version: u16) -> Header {
    Header {
        version,
        width: 20,
        height: 16,
        background: 9,
    }
}

type Answer = Result<Header, Refused>;

fn refused(number: u64, place: usize) -> Answer {
    Err(Refused { number, place })
}

/// The answer that library and reference agree on, with the same ceiling. Where it is neither 21 nor
/// 32, they have it without a page too.
fn checked_in(lights: &[u16], list: &[u8], page_length: usize) -> Answer {
    let expected = check(list, page_length, lights).map(|accepted| accepted.checked());
    let found = library::check_list(list, page_length, lights);
    assert_eq!(
        found, expected,
        "page of {page_length}, list {list:02x?}, lights {lights:?}"
    );
    let alone = checked_alone(list);
    let answer = expected.map(|checked| checked.header);
    if answer != refused(21, 0) && answer != refused(32, 0) {
        assert_eq!(alone, found, "list {list:02x?} without a page");
    }
    answer
}

/// What library and reference agree on without a page. To be squeezed a list is refused alike, and an
/// accepted one, which has no room here, by 22.
fn checked_alone(list: &[u8]) -> Result<Checked, Refused> {
    let expected = check_without_page(list).map(|accepted| accepted.checked());
    let found = library::check_without_page(list);
    assert_eq!(found, expected, "list {list:02x?} without a page");
    let (number, place) = (22, 0);
    let squeezed = found.and(Err(Refused { number, place }));
    assert_eq!(library::squeeze_list(&mut [], list), squeezed);
    found
}

/// The same with lights equal to codes.
fn checked(list: &[u8], page_length: usize) -> Answer {
    checked_in(&named("codes"), list, page_length)
}

/// Reads one record by both, and says how many bytes it has if it is not refused.
fn read_length(bytes: &[u8], basis: Basis) -> Result<usize, u64> {
    let expected = read_record(bytes, basis);
    let found = library::read_record(bytes, basis);
    assert_eq!(found, expected, "{basis:?}: {bytes:02x?}");
    match expected {
        (Ok(_), rest) => Ok(bytes.len() - rest.len()),
        (Err(refusal), _) => Err(refusal.number),
    }
}

/// One record of each kind that the version has, none of them refused on the page of its header.
fn each_kind(version: u16) -> Vec<Record> {
    let line = |exact| {
        let (x0, y0, x1, y1) = (-4096, 4095, 7, -2);
        Shape::Line(Line {
            exact,
            x0,
            y0,
            x1,
            y1,
        })
    };
    let clip = Clip {
        x0: 3,
        y0: 16,
        x1: 20,
        y1: 16,
    };
    let mut records = vec![
        Record::Setting(Setting::Clip(clip)),
        Record::Setting(Setting::Level(0)),
        Record::Shape(line(true)),
        Record::Shape(line(false)),
    ];
    records.extend(circles(255, false));
    if version == 2 {
        records.push(Record::Setting(Setting::Player(7)));
        records.extend(circles(1023, true));
        let corners = [4095, -4096, 3968, -3969, 4000, -4096];
        records.push(Record::Shape(Shape::Triangle(triangle_of(corners))));
    }
    records.push(Record::End);
    records
}

/// A disc, and a ring that covers as much.
fn circles(radius: u16, big: bool) -> [Record; 2] {
    let (x, y) = (4095, -4096);
    let disc = Shape::Disc(Disc { x, y, radius, big });
    let ring = Shape::Ring(Ring {
        x,
        y,
        radius,
        width: radius,
        big,
    });
    [disc, ring].map(Record::Shape)
}

/// The bytes of a kind, of some numbers of two bytes, and of some of one byte.
fn bytes_of(kind: u8, words: &[i32], last: &[u8]) -> Vec<u8> {
    let mut bytes = vec![kind];
    bytes.extend(words.iter().flat_map(|&word| (word as u16).to_le_bytes()));
    bytes.extend(last);
    bytes
}

/// Whole records with one thing refused in each, and its number.
fn refused_records(version: u16) -> Vec<(u64, Vec<u8>)> {
    let mut records: Vec<(u64, Vec<u8>)> = (11..=255).map(|kind| (4, vec![kind])).collect();
    let player = |player| bytes_of(7, &[], &[player]);
    match version {
        1 => {
            records.extend((0..=255).map(|next| (4, player(next))));
            let newer = big_records().into_iter().chain(triangle_records());
            records.extend(newer.map(|(_, bytes)| (4, bytes)));
        }
        _ => {
            records.extend((8..=255).map(|next| (31, player(next))));
            records.extend(big_records());
            records.extend(triangle_records());
        }
    }
    for outside in [-32768, -4097, 4096, 32767] {
        for changed in 0..4 {
            let mut ends = [1, 2, 1, 2];
            ends[changed] = outside;
            records.extend([3, 4].map(|kind| (7, bytes_of(kind, &ends, &[]))));
            let centre = &ends[changed / 2 * 2..][..2];
            records.push((7, bytes_of(5, centre, &[0])));
            records.push((7, bytes_of(6, centre, &[0, 0])));
        }
    }
    let clips = [
        [3, 0, 2, 9],
        [0, 3, 9, 2],
        [0, 0, 21, 16],
        [0, 0, 20, 17],
        [0, 0, 65535, 16],
    ];
    records.extend(clips.map(|clip| (8, bytes_of(1, &clip, &[]))));
    records.extend([3, 4].map(|kind| (9, bytes_of(kind, &[-4096, 4095, -4096, 4095], &[]))));
    records.push((10, bytes_of(5, &[0, 0], &[0])));
    records.extend([0, 1].map(|width| (10, bytes_of(6, &[0, 0], &[0, width]))));
    records.extend([[1, 0], [255, 0], [1, 2], [254, 255]].map(|r| (11, bytes_of(6, &[0, 0], &r))));
    records
}

/// Records of kinds 8 and 9 with one thing refused in each in version 2, and its number.
fn big_records() -> Vec<(u64, Vec<u8>)> {
    let mut records = Vec::new();
    for outside in [-32768, -4097, 4096, 32767] {
        for centre in [[outside, 2], [1, outside]] {
            records.push((7, bytes_of(8, &[&centre[..], &[0]].concat(), &[])));
            records.push((7, bytes_of(9, &[&centre[..], &[1024, 0]].concat(), &[])));
        }
    }
    records.push((10, bytes_of(8, &[0, 0, 0], &[])));
    records.extend([0, 1].map(|width| (10, bytes_of(9, &[0, 0, 0, width], &[]))));
    for radius in [1024, 1025, 32767, 32768, 65280, 65535] {
        records.push((33, bytes_of(8, &[0, 0, radius], &[])));
        let widths = [0, 1, radius, 65535];
        records.extend(widths.map(|width| (33, bytes_of(9, &[0, 0, radius, width], &[]))));
    }
    for (radius, width) in [(1, 0), (1, 2), (300, 301), (1023, 0), (1023, 1024)] {
        records.push((11, bytes_of(9, &[0, 0, radius, width], &[])));
    }
    records
}

/// The same of kind 10.
fn triangle_records() -> Vec<(u64, Vec<u8>)> {
    let mut records = Vec::new();
    for outside in [-32768, -4097, 4096, 32767] {
        for changed in 0..6 {
            let mut corners = [1, 2, 300, 2, 1, 2];
            corners[changed] = outside;
            records.push((7, corners));
        }
    }
    for far in [128, -128, 129, 4095, -4096] {
        records.extend([
            (34, [0, 0, far, 0, 0, 0]),
            (34, [0, 0, 1, far, 2, 1]),
            (34, [far, 7, 1, 8, 0, 9]),
        ]);
    }
    for straight in [
        [5, 5, 5, 5, 5, 5],
        [0, 0, 127, 127, 1, 1],
        [0, 0, 0, 127, 0, 3],
        [-4096, 4095, -4000, 4095, -4040, 4095],
        [9, 8, 9, 8, 7, 6],
    ] {
        records.push((35, straight));
    }
    let bytes = records.iter();
    bytes
        .map(|(number, corners)| (*number, bytes_of(10, corners, &[])))
        .collect()
}

/// A list of one record of each kind, and the place of each.
fn list_of_each_kind(version: u16) -> (Vec<u8>, Vec<usize>) {
    let mut list = encode_header(&header(version));
    let mut places = Vec::new();
    for record in each_kind(version) {
        places.push(list.len());
        list.extend(encode_record(&record));
    }
    (list, places)
}

#[test]
fn stored_rows_agree() {
    let rows = rows("reads");
    for row in &rows {
        let found = answer(&format!("reads {}", row.call));
        assert_eq!(found.trim(), row.answer, "{}", row.call);
    }
    assert_eq!(rows.len(), 615);
}

#[test]
fn each_kind_cut_at_every_byte() {
    for version in VERSIONS {
        let header = header(version);
        for record in each_kind(version) {
            let bytes = encode_record(&record);
            for length in 0..bytes.len() {
                let list = [encode_header(&header), bytes[..length].to_vec()].concat();
                assert_eq!(checked(&list, PAGE), refused(5, HEADER_LENGTH));
                assert_eq!(read_length(&bytes[..length], header.basis()), Err(5));
            }
            assert_eq!(read_length(&bytes, header.basis()), Ok(bytes.len()));
        }
    }
}

#[test]
fn a_mixed_list_cut_at_every_byte() {
    for version in VERSIONS {
        let (list, places) = list_of_each_kind(version);
        assert_eq!(checked(&list, PAGE), Ok(header(version)));
        for length in 0..list.len() {
            let cut = places.iter().rfind(|&&place| place <= length);
            let place = cut.copied().unwrap_or(0);
            assert_eq!(checked(&list[..length], PAGE), refused(5, place));
        }
    }
}

#[test]
fn every_refusal_at_every_record() {
    for version in VERSIONS {
        let (list, places) = list_of_each_kind(version);
        for (number, refused_record) in refused_records(version) {
            for &place in &places {
                // What follows the first refusal does not matter.
                for behind in [&list[place..], &[0xFF; 20], &[]] {
                    let spoilt = [&list[..place], &refused_record, behind].concat();
                    assert_eq!(checked(&spoilt, PAGE), refused(number, place));
                }
            }
            let basis = header(version).basis();
            assert_eq!(read_length(&refused_record, basis), Err(number));
        }
    }
}

/// The reader tries 2, then 3, and only then looks at what it is lent.
#[test]
fn a_wrong_basis_comes_before_every_record() {
    let mut lent: Vec<Vec<u8>> = each_kind(2).iter().map(encode_record).collect();
    lent.extend(refused_records(2).into_iter().map(|(_, bytes)| bytes));
    lent.push(Vec::new());
    let sides = [(20, 16), (0, 16), (20, 0), (1025, 16), (20, 1025)];
    for bytes in lent {
        for version in [0, 1, 2, 3, 257, 258, u16::MAX] {
            for (width, height) in sides {
                let basis = Basis {
                    version,
                    width,
                    height,
                };
                let found = read_length(&bytes, basis);
                if !VERSIONS.contains(&version) {
                    assert_eq!(found, Err(2));
                } else if (width, height) != (20, 16) {
                    assert_eq!(found, Err(3));
                }
            }
        }
    }
}

/// A player is unknown in version 1 whatever its byte, also where that byte is missing.
#[test]
fn a_player_is_a_record_of_version_2() {
    for (version, bytes, number) in [
        (1, &[7][..], 4),
        (1, &[7, 0], 4),
        (1, &[7, 8], 4),
        (2, &[7], 5),
        (2, &[7, 8], 31),
        (2, &[7, 255, 0], 31),
    ] {
        let list = [&encode_header(&header(version)), bytes].concat();
        assert_eq!(checked(&list, PAGE), refused(number, HEADER_LENGTH));
        assert_eq!(read_length(bytes, header(version).basis()), Err(number));
    }
    for player in 0..=7 {
        let list = [&encode_header(&header(2))[..], &[7, player, 0]].concat();
        assert_eq!(checked(&list, PAGE), Ok(header(2)));
        assert_eq!(read_length(&[7, player, 0], header(2).basis()), Ok(2));
    }
}

/// A big disc or ring is unknown in version 1 whatever its bytes, also where they are missing.
#[test]
fn big_discs_and_rings_are_records_of_version_2() {
    for kind in [8, 9] {
        let length = if kind == 8 { 7 } else { 9 };
        for (radius, number) in [
            (0, Err(10)),
            (1, Ok(length)),
            (1023, Ok(length)),
            (1024, Err(33)),
        ] {
            let words = [0, 0, radius, radius];
            let record = bytes_of(kind, &words[..(length - 1) / 2], &[]);
            for cut in 1..=length {
                let found = |version| read_length(&record[..cut], header(version).basis());
                assert_eq!(found(1), Err(4));
                assert_eq!(found(2), if cut < length { Err(5) } else { number });
            }
        }
    }
}

/// A triangle is unknown in version 1 whatever its bytes, also where they are missing.
#[test]
fn triangles_are_records_of_version_2() {
    for (corners, whole) in [
        ([0, 0, 127, 0, 0, 127], Ok(13)),
        ([0, 0, 128, 0, 0, 127], Err(34)),
        ([0, 0, 64, 64, 127, 127], Err(35)),
        ([0, 0, 64, 64, 127, 4096], Err(7)),
    ] {
        let record = bytes_of(10, &corners, &[]);
        for cut in 1..=13 {
            let found = |version| read_length(&record[..cut], header(version).basis());
            assert_eq!(found(1), Err(4));
            assert_eq!(found(2), if cut < 13 { Err(5) } else { whole });
        }
    }
}

#[test]
fn lists_about_the_greatest_length() {
    // Levels have two bytes and lines nine, so that with a line the length is even.
    let line = encode_record(&each_kind(2)[2]);
    for length in LONGEST_LIST - 1..=LONGEST_LIST + 1 {
        let mut list = encode_header(&header(2));
        if length % 2 == 0 {
            list.extend(&line);
        }
        while list.len() + 1 < length {
            list.extend([2, 77]);
        }
        list.push(0);
        let too_long = length > LONGEST_LIST;
        let told = |answer| if too_long { refused(12, 0) } else { answer };
        assert_eq!(list.len(), length);
        assert_eq!(checked(&list, PAGE), told(Ok(header(2))));
        list[length - 1] = 2;
        assert_eq!(checked(&list, PAGE), told(refused(5, length - 1)));
        list[length - 3] = 0;
        assert_eq!(checked(&list, PAGE), told(refused(6, length - 2)));
        list[..3].fill(0);
        assert_eq!(checked(&list, PAGE), told(refused(1, 0)));
    }
}

#[test]
fn a_full_list_without_an_end() {
    let mut list = encode_header(&header(2));
    while list.len() < LONGEST_LIST {
        list.extend([7, 7]);
    }
    assert_eq!(checked(&list, PAGE), refused(5, LONGEST_LIST));
}

#[test]
fn surplus_bytes() {
    for version in VERSIONS {
        let (list, _) = list_of_each_kind(version);
        for surplus in 1..40 {
            for byte in [0, 2, 7, 0xFF] {
                let longer = [list.clone(), vec![byte; surplus]].concat();
                assert_eq!(checked(&longer, PAGE), refused(6, list.len()));
            }
        }
    }
}

#[test]
fn wrong_marks_versions_and_sizes() {
    let (list, _) = list_of_each_kind(2);
    let with = |place: usize, bytes: &[u8]| {
        let mut changed = list.clone();
        changed[place..place + bytes.len()].copy_from_slice(bytes);
        changed
    };
    for (place, &right) in list[..3].iter().enumerate() {
        for byte in (0..=255).filter(|&byte| byte != right) {
            assert_eq!(checked(&with(place, &[byte]), 0), refused(1, 0));
        }
    }
    for version in (0..=u16::MAX).filter(|version| !VERSIONS.contains(version)) {
        assert_eq!(checked(&with(3, &version.to_le_bytes()), 0), refused(2, 0));
        let mut of_no_size = with(3, &version.to_le_bytes());
        of_no_size[5..9].fill(0);
        assert_eq!(checked(&of_no_size, 0), refused(2, 0));
    }
    for place in [5, 7] {
        for side in [0, 1025, u16::MAX] {
            assert_eq!(checked(&with(place, &side.to_le_bytes()), 0), refused(3, 0));
        }
    }
    for length in 0..HEADER_LENGTH {
        assert_eq!(checked(&vec![0xFF; length], 0), refused(5, 0));
    }
    for page_length in [0, PAGE - 1] {
        assert_eq!(checked(&list, page_length), refused(21, 0));
    }
    assert_eq!(checked(&list, usize::MAX), Ok(header(2)));
}

/// After 12, 5, 1, 2, 3 and 21 and before every record, at place 0.
#[test]
fn unfit_lights_come_between_the_page_and_the_records() {
    for version in VERSIONS {
        let (list, places) = list_of_each_kind(version);
        let mut spoilt: Vec<Vec<u8>> = places.iter().map(|&n| list[..n].to_vec()).collect();
        spoilt.push([&list[..], &[0]].concat());
        for (_, record) in refused_records(version) {
            spoilt.push([&list[..HEADER_LENGTH], &record].concat());
        }
        for lights in UNFIT.map(named) {
            assert_eq!(checked_in(&lights, &list, PAGE), refused(32, 0));
            assert_eq!(checked_in(&lights, &list, PAGE - 1), refused(21, 0));
            for list in &spoilt {
                assert_eq!(checked_in(&lights, list, PAGE), refused(32, 0));
            }
            for (number, place, byte) in [(1, 0, 0), (2, 3, 9), (3, 5, 0), (3, 8, 9)] {
                let mut list = list.clone();
                list[place] = byte;
                assert_eq!(checked_in(&lights, &list, PAGE), refused(number, 0));
            }
            for length in 0..HEADER_LENGTH {
                assert_eq!(checked_in(&lights, &list[..length], PAGE), refused(5, 0));
            }
            let long = [list.clone(), vec![0; LONGEST_LIST]].concat();
            assert_eq!(checked_in(&lights, &long, PAGE), refused(12, 0));
        }
        for lights in FIT.map(named) {
            assert_eq!(checked_in(&lights, &list, PAGE), Ok(header(version)));
        }
    }
}

/// What is refused of a list once 21 and 32 are left out, at its own place.
#[test]
fn without_a_page_neither_21_nor_32_is_tried() {
    let alone = |list: &[u8]| checked_alone(list).map(|checked| checked.header);
    for version in VERSIONS {
        let (list, places) = list_of_each_kind(version);
        let mut answers = vec![(list.clone(), Ok(header(version)))];
        answers.push(([&list[..], &[0]].concat(), refused(6, list.len())));
        for place in places {
            answers.push((list[..place].to_vec(), refused(5, place)));
            for (number, record) in refused_records(version) {
                let spoilt = [&list[..place], &record, &list[place..]].concat();
                answers.push((spoilt, refused(number, place)));
            }
        }
        for (list, answer) in answers {
            assert_eq!(alone(&list), answer);
            assert_eq!(checked(&list, PAGE - 1), refused(21, 0));
            assert_eq!(checked_in(&named("flat"), &list, PAGE), refused(32, 0));
        }
        for length in 0..HEADER_LENGTH {
            assert_eq!(alone(&list[..length]), refused(5, 0));
        }
        for (number, place, byte) in [(1, 0, 0), (2, 3, 9), (3, 5, 0), (3, 8, 9)] {
            let mut list = list.clone();
            list[place] = byte;
            assert_eq!(alone(&list), refused(number, 0));
        }
        let long = [list, vec![0; LONGEST_LIST]].concat();
        assert_eq!(alone(&long), refused(12, 0));
    }
}

#[test]
fn random_and_damaged_lists_agree() {
    let mut random = Random::new(7);
    let mut tally = Tally::default();
    for _ in 0..DAMAGED {
        let mut list = list(&mut random);
        for _ in 0..random.pick(&[0, 1, 1, 1, 2, 5]) {
            if !list.is_empty() {
                damage(&mut random, &mut list);
            }
        }
        let page_length = random.pick(&[0, 39, 1600, 1 << 20, 1 << 20, 1 << 20]);
        let (_, mut lights) = fit_lights(&mut random);
        if random.one_in(16) {
            spoil_lights(&mut random, &mut lights);
        }
        let class = match checked_in(&lights, &list, page_length) {
            Ok(header) => format!("version {} accepted", header.version),
            Err(refusal) => format!("refused {}", refusal.number),
        };
        tally.meet(vec![class]);
    }
    let numbers = [1, 2, 3, 4, 5, 6, 7, 8, 9, 10, 11, 21, 31, 32, 33, 34, 35];
    tally.require(numbers.map(|n| format!("refused {n}")).into(), LEAST);
    let accepted = VERSIONS.map(|version| format!("version {version} accepted"));
    tally.require(accepted.into(), LEAST);
}

/// Reads damaged lists record by record, each from where the last one ended.
#[test]
fn damaged_lists_read_alike() {
    let mut random = Random::new(8);
    for _ in 0..DAMAGED {
        let mut list = list(&mut random);
        damage(&mut random, &mut list);
        let basis = Basis {
            version: random.pick(&[1, 2, 2, 2]),
            width: random.between(1, 40) as u16,
            height: random.between(1, 40) as u16,
        };
        let mut place = HEADER_LENGTH.min(list.len());
        while let Ok(length) = read_length(&list[place..], basis) {
            place += length;
        }
    }
}

#[test]
fn random_bytes_agree() {
    let mut random = Random::new(9);
    for _ in 0..RANDOM_BYTES {
        let small = |random: &mut Random| random.between(0, 12) as u8;
        let length = random.between(0, 24);
        let bytes: Vec<u8> = (0..length).map(|_| small(&mut random)).collect();
        let version = random.pick(&VERSIONS);
        let basis = Basis {
            version: random.pick(&[version, version, version, 0, 3, 258]),
            width: random.pick(&[1, 12, 1024, 1024, 1024, 0, 1025]),
            height: 1024,
        };
        read_length(&bytes, basis).ok();
        let list = [encode_header(&header(version)), bytes.clone()].concat();
        checked(&list, PAGE).ok();
        checked(&bytes, PAGE).ok();
    }
}
