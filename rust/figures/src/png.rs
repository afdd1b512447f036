//! A PNG of 8 bits a channel.

use crate::deflate::zlib;

#[derive(Clone, Copy)]
pub enum Channels {
    Grey = 1,
    Colour = 3,
}

const MARK: &[u8] = b"\x89PNG\r\n\x1a\n";
/// Each row is stored as its difference from the row above, so that equal rows are rows of zeros.
const UP: u8 = 2;

/// A picture of rows of so many pixels.
pub fn png(width: usize, channels: Channels, pixels: &[u8]) -> Vec<u8> {
    let row_length = width * channels as usize;
    let height = pixels.len() / row_length;
    let (depth, colour_type) = match channels {
        Channels::Grey => (8, 0),
        Channels::Colour => (8, 2),
    };
    let mut header = Vec::new();
    header.extend((width as u32).to_be_bytes());
    header.extend((height as u32).to_be_bytes());
    header.extend([depth, colour_type, 0, 0, 0]);

    let mut rows = Vec::new();
    let mut above = vec![0; row_length];
    for row in pixels.chunks(row_length) {
        rows.push(UP);
        rows.extend(
            row.iter()
                .zip(&above)
                .map(|(byte, up)| byte.wrapping_sub(*up)),
        );
        above = row.to_vec();
    }

    let mut file = MARK.to_vec();
    chunk(&mut file, b"IHDR", &header);
    chunk(&mut file, b"IDAT", &zlib(&rows));
    chunk(&mut file, b"IEND", &[]);
    file
}

fn chunk(file: &mut Vec<u8>, kind: &[u8; 4], data: &[u8]) {
    file.extend((data.len() as u32).to_be_bytes());
    let start = file.len();
    file.extend(kind);
    file.extend(data);
    let sum = crc32(&file[start..]);
    file.extend(sum.to_be_bytes());
}

fn crc32(bytes: &[u8]) -> u32 {
    let mut sum = u32::MAX;
    for &byte in bytes {
        sum ^= u32::from(byte);
        for _ in 0..8 {
            sum = (sum >> 1) ^ (0xEDB8_8320 & (sum & 1).wrapping_neg());
        }
    }
    !sum
}

#[cfg(test)]
mod tests {
    use super::*;

    #[test]
    fn the_check_sum_is_the_standard_one() {
        assert_eq!(crc32(b"123456789"), 0xCBF4_3926);
    }

    #[test]
    fn a_picture_has_its_header_and_its_end() {
        let file = png(3, Channels::Colour, &[7; 3 * 2 * 3]);
        assert_eq!(&file[12..29], b"IHDR\0\0\0\x03\0\0\0\x02\x08\x02\0\0\0");
        assert_eq!(&file[file.len() - 8..], b"IEND\xAE\x42\x60\x82");
    }
}
