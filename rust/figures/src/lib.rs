//! The pictures of the documents. What is shaded is what the library answers; outlines, dots and
//! numbers are put over it.

mod canvas;
mod chords;
mod deflate;
mod font;
mod frame;
mod pages;
mod png;
mod sides;

use std::path::{Path, PathBuf};
use std::{fs, io};

/// Each picture that the repository holds: its file, and its bytes.
///
/// # Errors
///
/// An example that cannot be read.
pub fn pictures() -> io::Result<Vec<(PathBuf, Vec<u8>)>> {
    let root = Path::new(env!("CARGO_MANIFEST_DIR")).join("../..");
    let mut pictures = vec![
        (root.join("docs/frame.png"), frame::picture()),
        (root.join("docs/chords.png"), chords::picture()),
        (root.join("docs/sides.png"), sides::picture()),
    ];
    for entry in fs::read_dir(root.join("examples"))? {
        let file = entry?.path();
        if file.extension().is_some_and(|ending| ending == "list") {
            let page = pages::picture(&fs::read(&file)?);
            pictures.push((file.with_extension("png"), page));
        }
    }
    Ok(pictures)
}
