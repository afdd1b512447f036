//! The page of a list, enlarged, with lights equal to codes as the print program has them.

use crate::png::{png, Channels};
use greystroke::{check_without_page, draw_list, Lights};

/// Each pixel of the page is a square of so many pixels.
const SCALE: usize = 4;

pub fn picture(list: &[u8]) -> Vec<u8> {
    let checked = check_without_page(list).expect("the list is accepted");
    let size = checked.header.size;
    let (width, height) = (usize::from(size.width), usize::from(size.height));
    let mut page = vec![0; width * height];
    draw_list(&mut page, &Lights::codes(), list).expect("the list is accepted");

    let wide = width * SCALE;
    let level = |k: usize| page[k / wide / SCALE * width + k % wide / SCALE];
    let pixels: Vec<u8> = (0..wide * height * SCALE).map(level).collect();
    png(wide, Channels::Grey, &pixels)
}
