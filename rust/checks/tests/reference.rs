//! The reference against every stored table and list.

use checks::answers::texts_agree;
use checks::cases::{list_cases, rows, TABLES};
use checks::lights::named;
use checks::reference_page::draw_shape;
use checks::reference_writer::write;
use checks::rows as answers;
use reference::exact::{bound, byte_after, exact_blend, touches_at, within};
use reference::lights::codes;
use reference::list::{check, check_without_page, draw_list, Accepted};
use reference::shape::PLAYERS;
use reference::squeeze::squeeze_list;
use reference::{column, coverage, page, print, reader};

fn answer(table: &str, call: &str) -> String {
    match table {
        "queries" => answers::queries(call, coverage::query),
        "columns" => answers::columns(call, column::last_column),
        "draws" => answers::draws(call, draw_shape),
        "writes" => answers::writes(call, write),
        "reads" => answers::reads(call, reader::read_record),
        "lists" => answers::lists(call, |list, page, lights| {
            draw_list(list, page, lights).map(|drawn| drawn.touched)
        }),
        "ceilings" => answers::ceilings(call, |list| {
            check_without_page(list).map(|accepted| accepted.checked())
        }),
        "squeezes" => answers::squeezes(call, squeeze_list),
        _ => panic!("no table {table}"),
    }
}

#[test]
fn every_row_of_every_table() {
    let mut count = 0;
    for table in TABLES {
        for row in rows(table) {
            let answer = answer(table, &row.call);
            let told = format!("{table} {}: {answer} for {}", row.call, row.answer);
            assert!(texts_agree(&row.call, answer.trim(), &row.answer), "{told}");
            count += 1;
        }
    }
    assert_eq!(count, 679 + 354 + 1150 + 558 + 615 + 787 + 164 + 127);
}

#[test]
fn every_printed_list() {
    let cases = list_cases();
    for case in &cases {
        assert_eq!(print::print(&case.list), case.output, "{}", case.name);
    }
    assert_eq!(cases.len(), 72);
}

/// Each byte is the fold over its touches, and its light lies within the bound of the exact blend.
fn hold_to_exact(accepted: &Accepted, list: &[u8], lights: &[u16]) {
    let header = accepted.header;
    let mut page = vec![0; page::page_length(header.width, header.height)];
    let drawn = draw_list(list, &mut page, lights).expect("the list was accepted");
    let mut touched = [0; PLAYERS];
    for (k, &byte) in page.iter().enumerate() {
        let width = usize::from(header.width);
        let touches = touches_at(accepted, (k % width) as u16, (k / width) as u16);
        let exact = exact_blend(lights, header.background, &touches);
        assert_eq!(byte, byte_after(lights, header.background, &touches));
        let bound = bound(lights, &touches);
        assert!(within(lights, byte, &exact, &bound), "byte {k}");
        for touch in touches {
            touched[usize::from(touch.player)] += 1;
        }
    }
    assert_eq!(drawn.touched, touched);
}

#[test]
fn accepted_lists_keep_the_bound() {
    let mut accepted_lists = 0;
    for case in list_cases() {
        if let Ok(accepted) = check(&case.list, print::PRINT_PAGE, &codes()) {
            for lights in [codes(), named("gamma"), named("gap")] {
                hold_to_exact(&accepted, &case.list, &lights);
            }
            accepted_lists += 1;
        }
    }
    assert_eq!(accepted_lists, 44);
}
