//! The writer: the library against the reference on random states and on the stored rows, and both
//! round trips in both versions.

use checks::calls::answer;
use checks::cases::rows;
use checks::classes::Tally;
use checks::library;
use checks::listings::{header, lawful_record, list, record};
use checks::notation::{triangle_of, Writable};
use checks::random::Random;
use checks::reference_writer::write;
use checks::rows::Writing;
use reference::format::{encode_header, kind_of, Header, HEADER_LENGTH, LONGEST_LIST};
use reference::list::check_without_page;
use reference::shape::{Basis, Clip, Disc, Record, Ring, Setting, Shape};

const WRITES: u32 = 240_000;
const LISTS: u32 = 4_000;
/// Every refusal, and every accepted kind, has to come up at least this often.
const LEAST: u32 = 100;

/// A list of any length with a place within it, about its end or far off.
fn state(random: &mut Random) -> Writing {
    let long = LONGEST_LIST as i64 + random.between(-12, 12);
    let length = match random.between(0, 199) {
        0 => long,
        _ => random.between(0, 60),
    };
    let near_the_end = length.min(LONGEST_LIST as i64) - random.between(0, 10);
    let place = match random.between(0, 9) {
        0 => random.between(0, HEADER_LENGTH as i64),
        1 => near_the_end.max(0),
        2 => length + random.between(0, 3),
        3 => return far_off(random, length),
        _ => random.between(HEADER_LENGTH as i64, length.max(HEADER_LENGTH as i64)),
    };
    writing(random, length, place as usize)
}

/// A place that leaves 64 bits when a record's length is added to it, or nearly.
fn far_off(random: &mut Random, length: i64) -> Writing {
    let place = usize::MAX - random.between(0, 10) as usize;
    writing(random, length, place)
}

fn writing(random: &mut Random, length: i64, place: usize) -> Writing {
    let basis = header(random).basis();
    Writing {
        list: (0..length).map(|_| random.bits() as u8).collect(),
        place,
        basis,
    }
}

/// Writes by both, and says what they agree on.
fn written(writing: &mut Writing, what: &Writable) -> Result<(), u64> {
    let mut expected = writing.clone();
    let outcome = write(&mut expected, what);
    let found = library::write(writing, what);
    let context = || format!("{what:?} at {}", expected.place);
    assert_eq!(found, outcome, "{}", context());
    assert_eq!(*writing, expected, "{}", context());
    outcome.map_err(|refusal| refusal.number)
}

fn class(what: &Writable, outcome: Result<(), u64>) -> String {
    let what = match what {
        Writable::Header(_) => "header".to_string(),
        Writable::Record(record) => format!("kind {}", kind_of(record)),
    };
    match outcome {
        Ok(()) => format!("{what} written"),
        Err(number) => format!("{what} refused {number}"),
    }
}

/// Classes that a run of random writes must meet.
fn wanted() -> Vec<String> {
    let mut wanted = Vec::new();
    let mut want = |what: &str, numbers: &[u64]| {
        wanted.push(format!("{what} written"));
        let numbers = [&[2, 3, 22], numbers].concat();
        wanted.extend(
            numbers
                .iter()
                .map(|number| format!("{what} refused {number}")),
        );
    };
    want("header", &[]);
    for (kind, numbers) in [
        (0, &[][..]),
        (1, &[8]),
        (2, &[]),
        (3, &[7, 9]),
        (4, &[7, 9]),
        (5, &[7, 10, 33]),
        (6, &[7, 10, 33, 11]),
        (7, &[4, 31]),
        (8, &[4, 7, 10, 33]),
        (9, &[4, 7, 10, 33, 11]),
        (10, &[4, 7, 34, 35]),
    ] {
        want(&format!("kind {kind}"), numbers);
    }
    wanted
}

#[test]
fn stored_rows_agree() {
    let rows = rows("writes");
    for row in &rows {
        let found = answer(&format!("writes {}", row.call));
        assert_eq!(found.trim(), row.answer, "{}", row.call);
    }
    assert_eq!(rows.len(), 558);
}

#[test]
fn random_writes_agree() {
    let mut random = Random::new(10);
    let mut tally = Tally::default();
    for _ in 0..WRITES {
        let mut state = state(&mut random);
        let (place, basis) = (state.place, state.basis);
        let what = match random.between(0, 4) {
            0 => Writable::Header(header(&mut random)),
            _ => Writable::Record(record(&mut random, basis)),
        };
        let outcome = written(&mut state, &what);
        if let (Ok(()), Writable::Record(record)) = (outcome, what) {
            let (read, rest) = library::read_record(&state.list[place..], basis);
            assert_eq!((read, rest), (Ok(record), &state.list[state.place..]));
        }
        tally.meet(vec![class(&what, outcome)]);
    }
    tally.require(wanted(), LEAST);
}

/// A writer past the header of a list of twenty bytes.
fn past_the_header(version: u16, width: u16) -> Writing {
    Writing {
        list: vec![0xAA; 20],
        place: HEADER_LENGTH,
        basis: Basis {
            version,
            width,
            height: 16,
        },
    }
}

/// Takes the faults away one by one: 2, 3, 4, 31, 22.
#[test]
fn refusals_of_a_player_come_in_their_order() {
    let no_room = LONGEST_LIST;
    for (version, width, player, place, outcome) in [
        (3, 0, 8, no_room, Err(2)),
        (1, 0, 8, no_room, Err(3)),
        (1, 20, 8, no_room, Err(4)),
        (2, 20, 8, no_room, Err(31)),
        (2, 20, 7, no_room, Err(22)),
        (2, 20, 7, HEADER_LENGTH, Ok(())),
    ] {
        let mut state = past_the_header(version, width);
        state.place = place;
        let what = Writable::Record(Record::Setting(Setting::Player(player)));
        assert_eq!(written(&mut state, &what), outcome);
    }
}

fn disc(x: i16, radius: u16, big: bool) -> Record {
    let y = -2;
    Record::Shape(Shape::Disc(Disc { x, y, radius, big }))
}

fn ring(x: i16, radius: u16, width: u16, big: bool) -> Record {
    Record::Shape(Shape::Ring(Ring {
        x,
        y: -2,
        radius,
        width,
        big,
    }))
}

/// Takes the faults away one by one: 2, 3, 4, 7, 10, 33, 11, 22.
#[test]
fn refusals_of_a_big_ring_come_in_their_order() {
    let no_room = LONGEST_LIST;
    for (version, width, record, place, outcome) in [
        (3, 0, ring(4096, 0, 0, true), no_room, Err(2)),
        (1, 0, ring(4096, 0, 0, true), no_room, Err(3)),
        (1, 20, ring(4096, 0, 0, true), no_room, Err(4)),
        (2, 20, ring(4096, 0, 0, true), no_room, Err(7)),
        (2, 20, ring(4095, 0, 0, true), no_room, Err(10)),
        (2, 20, ring(4095, 1024, 0, true), no_room, Err(33)),
        (2, 20, ring(4095, 1023, 0, true), no_room, Err(11)),
        (2, 20, ring(4095, 1023, 1023, true), no_room, Err(22)),
        (2, 20, ring(4095, 1023, 1023, true), HEADER_LENGTH, Ok(())),
    ] {
        let mut state = past_the_header(version, width);
        state.place = place;
        assert_eq!(written(&mut state, &Writable::Record(record)), outcome);
    }
}

/// A radius that one byte does not hold is refused under kinds 5 and 6 by 33, after 10 and before 11
/// and 22.
#[test]
fn a_radius_of_one_byte_is_at_most_255() {
    for (version, place) in [(1, HEADER_LENGTH), (2, HEADER_LENGTH), (2, LONGEST_LIST)] {
        let outcome = |record| {
            let mut state = past_the_header(version, 20);
            state.place = place;
            written(&mut state, &Writable::Record(record))
        };
        for radius in [256, 257, 300, 1023, 1024, u16::MAX] {
            assert_eq!(outcome(disc(4096, radius, false)), Err(7));
            assert_eq!(outcome(disc(9, radius, false)), Err(33));
            for width in [0, 1, radius, u16::MAX] {
                assert_eq!(outcome(ring(9, radius, width, false)), Err(33));
            }
        }
        assert_eq!(outcome(disc(9, 0, false)), Err(10));
        assert_eq!(outcome(ring(9, 0, 256, false)), Err(10));
        assert_eq!(outcome(ring(9, 255, 256, false)), Err(11));
        let room = if place == HEADER_LENGTH {
            Ok(())
        } else {
            Err(22)
        };
        assert_eq!(outcome(disc(9, 255, false)), room);
        assert_eq!(outcome(ring(9, 255, 255, false)), room);
    }
}

/// The header of a list that the library accepts.
fn checked_header(list: &[u8]) -> Option<Header> {
    let checked = library::check_without_page(list);
    checked.ok().map(|checked| checked.header)
}

/// A disc and a ring of each radius, each as the kind that it was read as.
#[test]
fn each_kind_of_circle_comes_back_as_its_own_bytes() {
    let header = Header {
        version: 2,
        width: 20,
        height: 16,
        background: 9,
    };
    for radius in 1..=1023_u16 {
        let [low, high] = radius.to_le_bytes();
        let mut records = vec![
            (8, disc(7, radius, true), vec![low, high]),
            (9, ring(7, radius, radius, true), vec![low, high, low, high]),
        ];
        if high == 0 {
            records.push((5, disc(7, radius, false), vec![low]));
            records.push((6, ring(7, radius, radius, false), vec![low, low]));
        }
        let mut list = encode_header(&header);
        for (kind, record, measures) in records {
            let bytes = [&[kind, 7, 0, 254, 255], &measures[..]].concat();
            let (read, rest) = library::read_record(&bytes, header.basis());
            assert_eq!((read, rest), (Ok(record), &[][..]));
            list.extend(bytes);
        }
        list.push(0);
        assert_eq!(checked_header(&list), Some(header));
        assert_eq!(written_again(&list, header), list);
    }
}

fn triangle(corners: [i16; 6]) -> Record {
    Record::Shape(Shape::Triangle(triangle_of(corners)))
}

/// Takes the faults away one by one: 2, 3, 4, 7, 34, 35, 22.
#[test]
fn refusals_of_a_triangle_come_in_their_order() {
    let no_room = LONGEST_LIST;
    for (version, width, corners, place, outcome) in [
        (3, 0, [4096, 0, 0, 0, 1, 0], no_room, Err(2)),
        (1, 0, [4096, 0, 0, 0, 1, 0], no_room, Err(3)),
        (1, 20, [4096, 0, 0, 0, 1, 0], no_room, Err(4)),
        (2, 20, [4096, 0, 0, 0, 1, 0], no_room, Err(7)),
        (2, 20, [4095, 0, 0, 0, 1, 0], no_room, Err(34)),
        (2, 20, [127, 0, 0, 0, 1, 0], no_room, Err(35)),
        (2, 20, [127, 0, 0, 0, 1, 127], no_room, Err(22)),
        (2, 20, [127, 0, 0, 0, 1, 127], HEADER_LENGTH, Ok(())),
    ] {
        let mut state = past_the_header(version, width);
        state.list.resize(HEADER_LENGTH + 13, 0xAA);
        state.place = place;
        let outcome_found = written(&mut state, &Writable::Record(triangle(corners)));
        assert_eq!(outcome_found, outcome, "{corners:?}");
    }
}

/// Thirteen bytes a record, and each order of the corners comes back as it is.
#[test]
fn each_order_of_corners_comes_back_as_its_own_bytes() {
    let header = Header {
        version: 2,
        width: 20,
        height: 16,
        background: 9,
    };
    let (a, b, c) = ([-4096, 4095], [-3969, 4094], [-4000, 3968]);
    let mut list = encode_header(&header);
    for order in [
        [a, b, c],
        [a, c, b],
        [b, a, c],
        [b, c, a],
        [c, a, b],
        [c, b, a],
    ] {
        let numbers = order.as_flattened();
        let mut bytes = vec![10];
        bytes.extend(numbers.iter().flat_map(|number: &i16| number.to_le_bytes()));
        assert_eq!(bytes.len(), 13);
        let corners = numbers.try_into().expect("six numbers");
        let (read, rest) = library::read_record(&bytes, header.basis());
        assert_eq!((read, rest), (Ok(triangle(corners)), &[][..]));
        list.extend(bytes);
    }
    list.push(0);
    assert_eq!(checked_header(&list), Some(header));
    assert_eq!(written_again(&list, header), list);
}

/// What a header says of itself is tried, not what the writer holds; of a record it is the other
/// way round.
#[test]
fn the_version_is_taken_with_the_header_and_held() {
    let off_the_page = Record::Setting(Setting::Clip(Clip {
        x0: 0,
        y0: 0,
        x1: 21,
        y1: 16,
    }));
    let player = Record::Setting(Setting::Player(0));
    for (version, of_a_player) in [(1, Err(4)), (2, Ok(()))] {
        for held in [0, 1, 2, u16::MAX] {
            let mut state = past_the_header(held, 0);
            let header = Header {
                version,
                width: 20,
                height: 16,
                background: 9,
            };
            assert_eq!(written(&mut state, &Writable::Header(header)), Ok(()));
            assert_eq!(state.basis, header.basis());
            assert_eq!(state.list[3..5], [version as u8, 0]);
            let of_a_clip = written(&mut state, &Writable::Record(off_the_page));
            assert_eq!(of_a_clip, Err(8));
            let found = written(&mut state, &Writable::Record(player));
            assert_eq!(found, of_a_player);
            let wrong = Header {
                version: 3,
                width: 0,
                ..header
            };
            assert_eq!(written(&mut state, &Writable::Header(wrong)), Err(2));
            assert_eq!(state.basis, header.basis());
        }
    }
}

/// The bytes that an accepted list's own header and records are written as.
fn written_again(list: &[u8], header: Header) -> Vec<u8> {
    let mut state = Writing {
        list: vec![0xAA; list.len()],
        place: 0,
        basis: Basis {
            version: 0,
            width: 0,
            height: 0,
        },
    };
    assert_eq!(written(&mut state, &Writable::Header(header)), Ok(()));
    let mut rest = &list[HEADER_LENGTH..];
    while !rest.is_empty() {
        let (record, past) = library::read_record(rest, header.basis());
        let record = record.expect("no record of an accepted list is refused");
        assert_eq!(written(&mut state, &Writable::Record(record)), Ok(()));
        rest = past;
    }
    assert_eq!(state.place, list.len());
    state.list
}

#[test]
fn accepted_lists_written_again_are_their_own_bytes() {
    let mut random = Random::new(12);
    let mut tally = Tally::default();
    for _ in 0..LISTS {
        let list = list(&mut random);
        if let Ok(accepted) = check_without_page(&list) {
            assert_eq!(checked_header(&list), Some(accepted.header));
            assert_eq!(written_again(&list, accepted.header), list);
            tally.meet(vec![format!("version {}", accepted.header.version)]);
            let shapes = accepted.drawings.iter().map(|drawing| drawing.shape);
            let kinds = shapes.map(|shape| kind_of(&Record::Shape(shape)));
            tally.meet(kinds.map(|kind| format!("kind {kind}")).collect());
        }
    }
    let versions = ["version 1", "version 2"].map(String::from);
    tally.require(versions.into(), LEAST);
    let kinds = [3, 4, 5, 6, 8, 9, 10].map(|kind| format!("kind {kind}"));
    tally.require(kinds.into(), LEAST);
}

/// A header and records until one does not fit, then an end record if there is room for it.
#[test]
fn written_lists_are_accepted() {
    let mut random = Random::new(11);
    let mut tally = Tally::default();
    for _ in 0..LISTS {
        let length = random.between(HEADER_LENGTH as i64 + 1, 300);
        let mut state = writing(&mut random, length, 0);
        let header = header(&mut random);
        if written(&mut state, &Writable::Header(header)).is_err() {
            continue;
        }
        loop {
            let record = lawful_record(&mut random, header.basis());
            if written(&mut state, &Writable::Record(record)).is_err() {
                break;
            }
        }
        if written(&mut state, &Writable::Record(Record::End)).is_ok() {
            let list = &state.list[..state.place];
            assert_eq!(checked_header(list), Some(header));
            let told = check_without_page(list).map(|told| told.header);
            assert_eq!(told, Ok(header));
            tally.meet(vec![format!("version {}", header.version)]);
        }
    }
    let versions = ["version 1", "version 2"].map(String::from);
    tally.require(versions.into(), LEAST);
}
