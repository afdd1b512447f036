//! The pictures that the repository holds are those that the library gives.

use std::fs;

#[test]
fn stored_pictures_are_what_the_library_gives() {
    let pictures = figures::pictures().expect("every example is a list");
    assert!(pictures.len() > 2, "no example is drawn");
    for (file, bytes) in pictures {
        let stored = fs::read(&file).unwrap_or_default();
        // Not assert_eq: nobody reads two pictures as numbers.
        assert!(
            stored == bytes,
            "{} is another picture; `cargo run --bin figures` writes it",
            file.display()
        );
    }
}
