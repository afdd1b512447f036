//! What the print program writes for a list.

use crate::lights::codes;
use crate::list::{draw_list, Drawn};
use std::fmt::Write;

/// Bytes of the print program's page.
pub const PRINT_PAGE: usize = 65_536;
const LEVELS_A_LINE: usize = 16;

/// The page as plain PGM, or the refusal. The program has lights equal to codes.
pub fn print(list: &[u8]) -> String {
    let mut page = vec![0; PRINT_PAGE];
    match draw_list(list, &mut page, &codes()) {
        Ok(drawn) => plain_pgm(&drawn, &page),
        Err(refusal) => format!("refused {} at {}\n", refusal.number, refusal.place),
    }
}

fn plain_pgm(drawn: &Drawn, page: &[u8]) -> String {
    let (width, height) = (usize::from(drawn.width), usize::from(drawn.height));
    let counts = joined(drawn.touched);
    let mut text = format!("P2\n# touched {counts}\n{width} {height}\n255\n");
    for row in page.chunks(width).take(height) {
        for line in row.chunks(LEVELS_A_LINE) {
            writeln!(text, "{}", joined(line)).expect("a string takes all");
        }
    }
    text
}

/// Numbers parted by one blank.
fn joined(numbers: impl IntoIterator<Item = impl ToString>) -> String {
    let words: Vec<String> = numbers.into_iter().map(|n| n.to_string()).collect();
    words.join(" ")
}
