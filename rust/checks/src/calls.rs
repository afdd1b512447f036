//! Answers to table rows through the library.

use crate::{library, rows};

/// The answer to one line `TABLE call`.
pub fn answer(line: &str) -> String {
    let (table, call) = line.split_once(' ').unwrap_or((line, ""));
    match table {
        "queries" => rows::queries(call, library::coverage),
        "columns" => rows::columns(call, library::last_column),
        "draws" => rows::draws(call, library::draw_shape),
        "writes" => rows::writes(call, library::write),
        "reads" => rows::reads(call, library::read_record),
        "lists" => rows::lists(call, |list, page, lights| {
            library::draw_list(list, page, lights).map(|drawn| drawn.touched)
        }),
        "ceilings" => rows::ceilings(call, library::check_without_page),
        "squeezes" => rows::squeezes(call, library::squeeze_list),
        _ => format!("no answers for {table}"),
    }
}
