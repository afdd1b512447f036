//! Writes every picture of the documents to its file.

use std::{fs, io};

fn main() -> io::Result<()> {
    for (file, bytes) in figures::pictures()? {
        fs::write(&file, bytes)?;
    }
    Ok(())
}
