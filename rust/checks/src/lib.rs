//! Shared parts of the comparison tests, of the `calls` program and of the benchmark.

pub mod answers;
pub mod baseline;
pub mod baseline_list;
pub mod baseline_page;
mod baseline_triangle;
pub mod calls;
pub mod cases;
pub mod classes;
pub mod drawings;
pub mod flung;
pub mod library;
pub mod lights;
pub mod listings;
pub mod notation;
pub mod pictures;
pub mod random;
pub mod reference_page;
pub mod reference_writer;
pub mod rows;
pub mod spare;
pub mod strokes;
