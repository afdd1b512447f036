//! Prints the library's time as a share of the time of a straightforward Rust version of the same
//! rules (`baseline`), with lights equal to codes and with those of a screen's gamma, and how the
//! library's time grows with the shape and with the page.
//!
//! Lines: `ratio NAME VALUE`, `over_codes NAME VALUE` (the library's time over its own with lights
//! equal to codes), `over_check NAME VALUE` (over its own for the check of the same list without a
//! page) and `growth NAME SIZE NANOSECONDS`, each kind after a line with `#` that names the inputs.

use checks::lights::named;
use checks::random::Random;
use checks::{baseline, baseline_list};
use greystroke::{
    check_list, check_without_page, draw_list, draw_shape, squeeze_list, Checked, Clip, Disc,
    Header, Lights, Line, ListRefusal, Picture, Record, Refusal, Ring, Setting, Shape, Size,
    Triangle, Writer, LATEST_VERSION, PLAYERS,
};
use std::hint::black_box;
use std::ops::RangeInclusive;
use std::time::{Duration, Instant};

/// How long each ratio and each series of growth is measured.
const RATIO_TIME: Duration = Duration::from_secs(5);
const GROWTH_TIME: Duration = Duration::from_secs(2);
/// The side of the page unless a line says otherwise.
const SIDE: u16 = 1024;
const SHAPES: usize = 256;
const LISTED_SHAPES: usize = 1000;
/// Radii that one byte does not hold.
const BIG_RADII: RangeInclusive<i64> = 256..=1023;
const LONGEST_LIST: usize = 65_536;
/// How often one shape is drawn between two looks at the clock.
const REPEATS: usize = 32;

/// A random shape of one kind.
type Make = fn(&mut Random) -> Shape;
type Draw = fn(&mut [u8], Size, &Lights, Clip, u8, Shape) -> Result<u64, Refusal>;
type DrawList = fn(&mut [u8], &Lights, &[u8]) -> Result<Picture, ListRefusal>;
type CheckList = fn(&[u8], usize, &Lights) -> Result<Checked, ListRefusal>;
type CheckWithoutPage = fn(&[u8]) -> Result<Checked, ListRefusal>;
type SqueezeList = fn(&mut [u8], &[u8]) -> Result<usize, ListRefusal>;

/// The gamma of a screen, as the tables have it.
fn gamma() -> Lights {
    Lights::new(&named("gamma")).expect("fit lights")
}

/// The library and the baseline with lights equal to codes.
fn with_codes<T>(library: T, plain: T) -> Vec<(T, Lights)> {
    vec![(library, Lights::codes()), (plain, Lights::codes())]
}

/// The library and the baseline with the gamma of a screen, and the library with codes.
fn with_gamma<T: Copy>(library: T, plain: T) -> Vec<(T, Lights)> {
    vec![
        (library, gamma()),
        (plain, gamma()),
        (library, Lights::codes()),
    ]
}

struct Job {
    level: u8,
    shape: Shape,
}

fn square(side: u16) -> Size {
    Size {
        width: side,
        height: side,
    }
}

/// The bytes of a square page, of all levels.
fn page_of(side: u16) -> Vec<u8> {
    let length = usize::from(side) * usize::from(side);
    (0..length).map(|k| (37 * k + 11) as u8).collect()
}

/// Draws every job on a square page and hands back the pixels touched.
fn draw_all(draw: Draw, lights: &Lights, page: &mut [u8], side: u16, jobs: &[Job]) -> u64 {
    let (size, clip) = (square(side), Clip::whole(square(side)));
    let draw = |job: &Job| draw(page, size, lights, clip, job.level, job.shape);
    let counts = jobs.iter().map(draw);
    counts.map(|count| count.expect("a lawful shape")).sum()
}

fn time<T>(job: impl FnOnce() -> T) -> Duration {
    let start = Instant::now();
    black_box(job());
    start.elapsed()
}

/// Runs each of the jobs in turns on the same page and hands back the best time of each: several
/// pages would contend for the cache, more in one run than in another.
fn best_in_turns<T>(page: &mut [u8], jobs: &[impl Fn(&mut [u8]) -> T]) -> Vec<Duration> {
    let mut best = vec![Duration::MAX; jobs.len()];
    let start = Instant::now();
    while start.elapsed() < RATIO_TIME {
        for (job, best) in jobs.iter().zip(&mut best) {
            *best = (*best).min(time(|| job(page)));
        }
    }
    best
}

/// Stops unless the first two jobs, the library and the baseline, leave the same page and answer.
fn assert_alike<T: PartialEq>(jobs: &[impl Fn(&mut [u8]) -> T]) {
    let (mut page, mut plain_page) = (page_of(SIDE), page_of(SIDE));
    assert!(
        jobs[0](&mut page) == jobs[1](&mut plain_page),
        "the answers differ"
    );
    assert!(page == plain_page, "the pages differ");
}

/// Times the library, the baseline and what else there is, and hands back the times.
fn print_ratio<T: PartialEq>(
    name: &str,
    (count, each): (usize, &str),
    inputs: &str,
    jobs: &[impl Fn(&mut [u8]) -> T],
) -> Vec<f64> {
    assert_alike(jobs);
    let times = best_in_turns(&mut page_of(SIDE), jobs);
    let times: Vec<f64> = times.iter().map(|&time| nanoseconds(time, count)).collect();
    println!("# {name}: {inputs}");
    println!(
        "# {name}: {:.0} ns a {each}, baseline {:.0} ns",
        times[0], times[1]
    );
    println!("ratio {name} {:.2}", times[0] / times[1]);
    times
}

/// The time of the first job over that of the third, where there is a third.
fn print_over_codes(name: &str, times: &[f64]) {
    if let Some(codes) = times.get(2) {
        println!("# {name}: the library with codes {codes:.0} ns");
        println!("over_codes {name} {:.2}", times[0] / codes);
    }
}

fn nanoseconds(time: Duration, count: usize) -> f64 {
    time.as_secs_f64() * 1e9 / count as f64
}

/// Random shapes at random levels, drawn each way.
fn print_shape_ratio(
    name: &str,
    inputs: &str,
    ways: &[(Draw, Lights)],
    shape: impl Fn(&mut Random) -> Shape,
) {
    let mut random = Random::new(7);
    let job = |_| Job {
        level: random.between(0, 255) as u8,
        shape: shape(&mut random),
    };
    let shapes: Vec<Job> = (0..SHAPES).map(job).collect();
    let shapes = &shapes;
    let jobs: Vec<_> = ways
        .iter()
        .map(|(draw, lights)| {
            move |page: &mut [u8]| draw_all(*draw, lights, page, SIDE, black_box(shapes))
        })
        .collect();
    let inputs = format!("{SHAPES} {inputs}, page {SIDE} by {SIDE}");
    let times = print_ratio(name, (SHAPES, "shape"), &inputs, &jobs);
    print_over_codes(name, &times);
}

/// A line with a longer span of `longer`, any direction, with both ends on the page.
fn line_within(random: &mut Random, longer: i64) -> Shape {
    let shorter = random.between(0, longer);
    let spans = [(longer, shorter), (shorter, longer)];
    let (across, down) = random.pick(&spans);
    let (x0, x1) = ends(random, across, i64::from(SIDE));
    let (y0, y1) = ends(random, down, i64::from(SIDE));
    Shape::Line(Line {
        exact: random.flip(),
        x0,
        y0,
        x1,
        y1,
    })
}

/// Two numbers from 0 to `limit`, `span` apart, in either order.
fn ends(random: &mut Random, span: i64, limit: i64) -> (i16, i16) {
    let low = random.between(0, limit - span);
    let (low, high) = (low as i16, (low + span) as i16);
    random.pick(&[(low, high), (high, low)])
}

/// A line through a point of the page's middle, with both ends 2,000 to 3,300 away from it.
fn far_line(random: &mut Random) -> Shape {
    let slope = random.between(-1000, 1000);
    let middle = [random.between(256, 768), random.between(256, 768)];
    let reach = [-random.between(2000, 3300), random.between(2000, 3300)];
    let end = |reach: i64| {
        let (along, across) = (middle[0] + reach, middle[1] + reach * slope / 1000);
        (along as i16, across as i16)
    };
    let (first, last) = (end(reach[0]), end(reach[1]));
    turned_line(random, first, last)
}

/// A line with one end on the page and the other anywhere.
fn flung_line(random: &mut Random) -> Shape {
    let mut corner = |low, high| {
        let mut coordinate = || random.between(low, high) as i16;
        (coordinate(), coordinate())
    };
    let (near, far) = (corner(0, SIDE.into()), corner(-4096, 4095));
    turned_line(random, near, far)
}

/// A line of 500 to 1,000 columns, all of which the page has, in rows that it has not.
fn missed_line(random: &mut Random) -> Shape {
    let longer = random.between(500, 1000);
    let shorter = random.between(0, longer - 1);
    let along = random.between(0, i64::from(SIDE) - longer);
    // Between the row lines a and b a line touches rows a - 1 to b.
    let before = random.between(-4096, -1 - shorter);
    let behind = random.between(i64::from(SIDE) + 1, 4095 - shorter);
    let low = random.pick(&[before, behind]);
    let (across, over) = random.pick(&[(low, low + shorter), (low + shorter, low)]);
    let first = (along as i16, across as i16);
    let last = ((along + longer) as i16, over as i16);
    turned_line(random, first, last)
}

/// A line between two corners, as they are or with x and y exchanged, from either of them.
fn turned_line(random: &mut Random, one: (i16, i16), other: (i16, i16)) -> Shape {
    let (first, last) = random.pick(&[(one, other), (other, one)]);
    let exact = random.flip();
    let steep = random.flip();
    let turn = |(x, y)| if steep { (y, x) } else { (x, y) };
    let ((x0, y0), (x1, y1)) = (turn(first), turn(last));
    Shape::Line(Line {
        exact,
        x0,
        y0,
        x1,
        y1,
    })
}

/// A disc with its centre on the page and a radius of the range; big where one byte does not hold it.
fn disc(random: &mut Random, radii: RangeInclusive<i64>) -> Disc {
    let x = random.between(0, i64::from(SIDE)) as i16;
    let y = random.between(0, i64::from(SIDE)) as i16;
    let radius = random.between(*radii.start(), *radii.end()) as u16;
    let big = radius > 255;
    Disc { x, y, radius, big }
}

/// A ring of such a disc, of width 1 to `width` or to its radius.
fn ring(random: &mut Random, radii: RangeInclusive<i64>, width: i64) -> Shape {
    let Disc { x, y, radius, big } = disc(random, radii);
    Shape::Ring(Ring {
        x,
        y,
        radius,
        width: random.between(1, width.min(radius.into())) as u16,
        big,
    })
}

/// A triangle with its corners anywhere in a square on the page, of so many columns and rows.
fn triangle_within(random: &mut Random, side: i64) -> Shape {
    let mut corner = |limit| random.between(0, limit) as i16;
    let (left, top) = (
        corner(i64::from(SIDE) - side),
        corner(i64::from(SIDE) - side),
    );
    loop {
        let [a, b, c, d, e, f] = std::array::from_fn(|_| corner(side));
        let straight = i32::from(c - a) * i32::from(f - b) == i32::from(e - a) * i32::from(d - b);
        if !straight {
            return Shape::Triangle(Triangle {
                x0: left + a,
                y0: top + b,
                x1: left + c,
                y1: top + d,
                x2: left + e,
                y2: top + f,
            });
        }
    }
}

fn long_line(random: &mut Random) -> Shape {
    let longer = random.between(500, 1000);
    line_within(random, longer)
}

fn print_line_ratios() {
    let lines: [(&str, &str, Make); 6] = [
        (
            "long_lines",
            "lines of 500 to 1,000 columns, all directions, half exact, ends on the page",
            long_line,
        ),
        (
            "short_lines",
            "lines of 16 columns, all directions, half exact, ends on the page",
            |random| line_within(random, 16),
        ),
        (
            "tiny_lines",
            "lines of 2 columns, all directions, half exact, ends on the page",
            |random| line_within(random, 2),
        ),
        (
            "far_lines",
            "lines with ends 2,000 to 3,300 from the page's middle, all directions, half exact",
            far_line,
        ),
        (
            "flung_lines",
            "lines with one end on the page and the other anywhere in range, half exact",
            flung_line,
        ),
        (
            "missed_lines",
            "lines of 500 to 1,000 columns beside the page, all directions, half exact",
            missed_line,
        ),
    ];
    let ways = with_codes(draw_shape as Draw, baseline::draw_shape);
    for (name, inputs, line) in lines {
        print_shape_ratio(name, inputs, &ways, line);
    }
}

fn print_circle_ratios() {
    let ways = with_codes(draw_shape as Draw, baseline::draw_shape);
    for (name, radii) in [
        ("discs_tiny", 1..=4),
        ("discs_small", 1..=20),
        ("discs", 1..=255),
        ("discs_big", BIG_RADII),
    ] {
        let (least, most) = (radii.start(), radii.end());
        let inputs = format!("discs of radius {least} to {most}, centre on the page");
        print_shape_ratio(name, &inputs, &ways, |random| {
            Shape::Disc(disc(random, radii.clone()))
        });
    }
    for (name, radii) in [
        ("rings_small", 1..=20),
        ("rings", 1..=255),
        ("rings_big", BIG_RADII),
    ] {
        let (least, most) = (radii.start(), *radii.end());
        let inputs =
            format!("rings of radius {least} to {most}, width 1 to the radius, centre on the page");
        print_shape_ratio(name, &inputs, &ways, |random| {
            ring(random, radii.clone(), most)
        });
    }
    print_shape_ratio(
        "rings_thin",
        "rings of radius 1 to 255, width 1 to 3, centre on the page",
        &ways,
        |random| ring(random, 1..=255, 3),
    );
}

fn print_triangle_ratios() {
    let ways = with_codes(draw_shape as Draw, baseline::draw_shape);
    for (name, side) in [("triangles", 127), ("triangles_small", 12)] {
        let inputs = format!("triangles with corners in a square of {side}, which the page has");
        print_shape_ratio(name, &inputs, &ways, |random| triangle_within(random, side));
    }
}

/// The same shapes as in the rows without `_gamma`.
fn print_gamma_ratios() {
    let ways = with_gamma(draw_shape as Draw, baseline::draw_shape_in_light);
    print_shape_ratio(
        "long_lines_gamma",
        "lines of 500 to 1,000 columns, gamma of a screen",
        &ways,
        long_line,
    );
    print_shape_ratio(
        "short_lines_gamma",
        "lines of 16 columns, gamma of a screen",
        &ways,
        |random| line_within(random, 16),
    );
    print_shape_ratio(
        "discs_gamma",
        "discs of radius 1 to 255, gamma of a screen",
        &ways,
        |random| Shape::Disc(disc(random, 1..=255)),
    );
    print_shape_ratio(
        "triangles_gamma",
        "triangles with corners in a square of 127, gamma of a screen",
        &ways,
        |random| triangle_within(random, 127),
    );
}

/// A long or a short line, a far one, a disc or a ring.
fn mixed_shape(random: &mut Random) -> Shape {
    let longer = random.between(16, 1000);
    match random.between(0, 5) {
        0 | 1 => line_within(random, longer),
        2 => line_within(random, 16),
        3 => far_line(random),
        4 => Shape::Disc(disc(random, 1..=255)),
        _ => ring(random, 1..=255, 255),
    }
}

/// Keeps at least half of the columns and of the rows.
fn wide_clip(random: &mut Random) -> Clip {
    let mut edge = |low, high| random.between(low, high) as u16;
    Clip {
        x0: edge(0, 256),
        y0: edge(0, 256),
        x1: edge(768, 1024),
        y1: edge(768, 1024),
    }
}

/// A writer past the header of a list for the largest page.
fn started(list: &mut [u8]) -> Writer<'_> {
    let mut writer = Writer::new(list);
    let header = Header {
        version: LATEST_VERSION,
        size: square(SIDE),
        background: 255,
    };
    writer.write_header(header).expect("a lawful header");
    writer
}

fn write(writer: &mut Writer, record: Record) {
    writer.write_record(record).expect("a lawful record");
}

/// A shape, most with a level of their own, one in eight with a clip, and every eighth of the next
/// player.
fn write_mixed(random: &mut Random, writer: &mut Writer, number: usize) {
    if number.is_multiple_of(8) {
        let player = (number / 8 % PLAYERS) as u8;
        write(writer, Record::Setting(Setting::Player(player)));
    }
    if random.one_in(8) {
        write(writer, Record::Setting(Setting::Clip(wide_clip(random))));
    }
    if !random.one_in(4) {
        let level = random.between(0, 255) as u8;
        write(writer, Record::Setting(Setting::Level(level)));
    }
    write(writer, Record::Shape(mixed_shape(random)));
}

fn mixed_list(shapes: usize) -> Vec<u8> {
    let mut random = Random::new(11);
    let mut list = vec![0; LONGEST_LIST];
    let mut writer = started(&mut list);
    for number in 0..shapes {
        write_mixed(&mut random, &mut writer, number);
    }
    write(&mut writer, Record::End);
    let length = writer.place;
    list.truncate(length);
    list
}

/// A mixed shape behind the clip that a list starts with and the level and player of all others.
fn write_spare(random: &mut Random, writer: &mut Writer) {
    write(
        writer,
        Record::Setting(Setting::Clip(Clip::whole(square(SIDE)))),
    );
    write(writer, Record::Setting(Setting::Level(9)));
    write(writer, Record::Setting(Setting::Player(3)));
    write(writer, Record::Shape(mixed_shape(random)));
}

/// Mixed records to the last byte a list may have.
fn full_list() -> Vec<u8> {
    filled_list(write_mixed)
}

/// Such records to the last byte a list may have; single levels fill what is left.
fn filled_list(write_next: impl Fn(&mut Random, &mut Writer, usize)) -> Vec<u8> {
    let mut random = Random::new(12);
    let mut list = vec![0; LONGEST_LIST];
    let mut writer = started(&mut list);
    let mut number = 0;
    while writer.place + 40 < LONGEST_LIST {
        write_next(&mut random, &mut writer, number);
        number += 1;
    }
    // A ring has seven bytes and a level two, so that the end record comes last.
    if writer.place.is_multiple_of(2) {
        write(&mut writer, Record::Shape(ring(&mut random, 1..=255, 255)));
    }
    while writer.place + 1 < LONGEST_LIST {
        write(&mut writer, Record::Setting(Setting::Level(9)));
    }
    write(&mut writer, Record::End);
    list
}

/// Draws the list each way.
fn print_drawn_list(name: &str, inputs: &str, ways: &[(DrawList, Lights)], list: &[u8]) {
    let jobs: Vec<_> = ways
        .iter()
        .map(|(draw, lights)| {
            move |page: &mut [u8]| draw(page, lights, black_box(list)).expect("a lawful list")
        })
        .collect();
    let times = print_ratio(name, (1, "list"), inputs, &jobs);
    print_over_codes(name, &times);
}

fn print_list_ratios() {
    let list = mixed_list(LISTED_SHAPES);
    let inputs = format!("{LISTED_SHAPES} mixed shapes, checked and drawn, page {SIDE} by {SIDE}");
    let ways = with_codes(draw_list as DrawList, baseline_list::draw_list);
    print_drawn_list("mixed_list", &inputs, &ways, &list);
    let ways = with_gamma(draw_list as DrawList, baseline_list::draw_list_in_light);
    let inputs = format!("{inputs}, gamma of a screen");
    print_drawn_list("mixed_list_gamma", &inputs, &ways, &list);

    let list = full_list();
    let inputs = format!("a list of {} bytes of mixed records, checked", list.len());
    let jobs: Vec<_> = with_codes(check_list as CheckList, baseline_list::check_list)
        .into_iter()
        .map(|(check, lights)| {
            let list = &list;
            move |page: &mut [u8]| {
                check(black_box(list), page.len(), &lights).expect("a lawful list")
            }
        })
        .collect();
    print_ratio("check_list", (1, "list"), &inputs, &jobs);

    let ways: [CheckWithoutPage; 2] = [check_without_page, baseline_list::check_without_page];
    let jobs = ways.map(|check| {
        let list = &list;
        move |_: &mut [u8]| check(black_box(list)).expect("a lawful list")
    });
    let inputs = format!("{inputs} without a page");
    print_ratio("check_without_page", (1, "list"), &inputs, &jobs);
}

/// Squeezes the list into so many bytes, and checks it.
fn print_squeezed_list(name: &str, inputs: &str, list: &[u8], room: usize) {
    let checked: SqueezeList = |_, list| check_without_page(list).map(|_| list.len());
    let jobs = [squeeze_list, baseline_list::squeeze_list, checked].map(|squeeze: SqueezeList| {
        move |page: &mut [u8]| squeeze(&mut page[..room], black_box(list)).expect("a lawful list")
    });
    let inputs = format!(
        "a list of {} bytes, {inputs}, into {room} bytes",
        list.len()
    );
    let times = print_ratio(name, (1, "list"), &inputs, &jobs);
    println!(
        "# {name}: the library's check without a page {:.0} ns",
        times[2]
    );
    println!("over_check {name} {:.2}", times[0] / times[2]);
}

fn print_squeeze_ratios() {
    let squeezed_length = |list: &[u8]| {
        let mut squeezed = vec![0; list.len()];
        squeeze_list(&mut squeezed, list).expect("a lawful list")
    };
    let list = full_list();
    let inputs = "mixed records, squeezed";
    print_squeezed_list("squeeze_list", inputs, &list, list.len());
    print_squeezed_list("squeeze_list_fitted", inputs, &list, squeezed_length(&list));

    let list = filled_list(|random, writer, _| write_spare(random, writer));
    let inputs = "each shape behind a clip, a level and a player that change nothing, squeezed";
    print_squeezed_list("squeeze_spare", inputs, &list, list.len());
}

/// One shape, drawn again and again on a square page.
struct Sample {
    size: u16,
    side: u16,
    page: Vec<u8>,
    jobs: Vec<Job>,
    best: Duration,
}

impl Sample {
    fn new(size: u16, side: u16, shape: Shape) -> Sample {
        let job = |k| Job {
            level: (85 * k) as u8,
            shape,
        };
        Sample {
            size,
            side,
            page: page_of(side),
            jobs: (0..REPEATS).map(job).collect(),
            best: Duration::MAX,
        }
    }
}

/// The best times of the library, in turns, so that a disturbance meets all sizes alike.
fn print_growth(name: &str, mut samples: Vec<Sample>) {
    let codes = Lights::codes();
    let start = Instant::now();
    while start.elapsed() < GROWTH_TIME {
        for sample in &mut samples {
            let (page, side) = (&mut sample.page, sample.side);
            let drawn = || draw_all(draw_shape, &codes, page, side, black_box(&sample.jobs));
            sample.best = sample.best.min(time(drawn));
        }
    }
    for Sample { size, best, .. } in samples {
        println!("growth {name} {size} {:.0}", nanoseconds(best, REPEATS));
    }
}

/// An exact line about the middle of the page, of slope one third.
fn middle_line(length: u16) -> Shape {
    let (middle, length) = ((SIDE / 2) as i16, length as i16);
    Shape::Line(Line {
        exact: true,
        x0: middle - length / 2,
        y0: middle - length / 6,
        x1: middle + length / 2,
        y1: middle + length / 6,
    })
}

fn middle_disc(radius: u16) -> Shape {
    let (x, y) = ((SIDE / 2) as i16, (SIDE / 2) as i16);
    let big = radius > 255;
    Shape::Disc(Disc { x, y, radius, big })
}

fn middle_ring(radius: u16) -> Shape {
    Shape::Ring(Ring {
        x: (SIDE / 2) as i16,
        y: (SIDE / 2) as i16,
        radius,
        width: radius / 8 + 1,
        big: radius > 255,
    })
}

fn print_shape_growth() {
    let on_page = |sizes: &[u16], shape: fn(u16) -> Shape| {
        let sample = |&size: &u16| Sample::new(size, SIDE, shape(size));
        sizes.iter().map(sample).collect()
    };
    println!("# shapes in the middle of a page {SIDE} by {SIDE}, nanoseconds a shape");
    println!("# line_length: an exact line of slope 1/3; the page cuts it to 1,024 columns");
    let lengths = [16, 64, 256, 1024, 2048, 4096];
    print_growth("line_length", on_page(&lengths, middle_line));
    println!("# disc_radius; ring_radius, of width 1 + radius / 8");
    println!("# at 1,023 the page lies inside the disc, and inside the hole of the ring");
    let radii = [1, 4, 16, 64, 128, 255, 511, 1023];
    print_growth("disc_radius", on_page(&radii, middle_disc));
    print_growth("ring_radius", on_page(&radii, middle_ring));
}

fn print_page_growth() {
    println!("# the same shape on square pages of 64 to 1,024, nanoseconds a shape");
    println!("# page_side_line: an exact line (8,8)-(56,24)");
    println!("# page_side_disc, page_side_ring: about (32,32), radius 24, width 6");
    let line = Line {
        exact: true,
        x0: 8,
        y0: 8,
        x1: 56,
        y1: 24,
    };
    let (x, y, radius, width, big) = (32, 32, 24, 6, false);
    let disc = Disc { x, y, radius, big };
    let ring = Ring {
        x,
        y,
        radius,
        width,
        big,
    };
    let shapes = [
        ("page_side_line", Shape::Line(line)),
        ("page_side_disc", Shape::Disc(disc)),
        ("page_side_ring", Shape::Ring(ring)),
    ];
    for (name, shape) in shapes {
        let sides = [64, 128, 256, 512, 1024];
        let samples = sides.map(|side| Sample::new(side, side, shape));
        print_growth(name, samples.into());
    }
}

fn main() {
    print_line_ratios();
    print_circle_ratios();
    print_triangle_ratios();
    print_gamma_ratios();
    print_list_ratios();
    print_squeeze_ratios();
    print_shape_growth();
    print_page_growth();
}
