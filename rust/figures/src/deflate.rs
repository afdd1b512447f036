//! A zlib stream of one block with the fixed codes, in which a run of one byte is told as the byte
//! and how often it comes again. Nothing else repeats much in the rows of a figure.

const SHORTEST_RUN: usize = 3;
const LONGEST_RUN: usize = 258;

pub fn zlib(bytes: &[u8]) -> Vec<u8> {
    let mut stream = vec![0x78, 0x01];
    stream.extend(deflate(bytes));
    stream.extend(adler32(bytes).to_be_bytes());
    stream
}

fn deflate(bytes: &[u8]) -> Vec<u8> {
    let mut bits = Bits::default();
    bits.put(1, 1); // the last block
    bits.put(1, 2); // with the fixed codes
    let mut at = 0;
    while at < bytes.len() {
        let again = match at {
            0 => 0,
            _ => run_length(bytes[at - 1], &bytes[at..]),
        };
        if again < SHORTEST_RUN {
            bits.put_symbol(u32::from(bytes[at]));
            at += 1;
        } else {
            let (symbol, extra, count) = run_code(again as u32);
            bits.put_symbol(symbol);
            bits.put(extra, count);
            bits.put(0, 5); // the distance 1
            at += again;
        }
    }
    bits.put_symbol(256);
    bits.bytes
}

/// How often a byte stands at the front.
fn run_length(byte: u8, bytes: &[u8]) -> usize {
    let run = bytes.iter().take(LONGEST_RUN);
    run.take_while(|&&next| next == byte).count()
}

/// The symbol of a length, and its extra bits with their count.
fn run_code(length: u32) -> (u32, u32, u32) {
    match length {
        258 => (285, 0, 0),
        3..=10 => (254 + length, 0, 0),
        _ => {
            // Four symbols for each power of two, and the bits below them.
            let past = length - 3;
            let count = past.ilog2() - 2;
            let symbol = 257 + 4 * count + (past >> count);
            (symbol, past & ((1 << count) - 1), count)
        }
    }
}

fn adler32(bytes: &[u8]) -> u32 {
    let step = |(a, b): (u32, u32), &byte: &u8| {
        let a = (a + u32::from(byte)) % 65_521;
        (a, (b + a) % 65_521)
    };
    let (a, b) = bytes.iter().fold((1, 0), step);
    b << 16 | a
}

/// Bits from the lowest of each byte on.
#[derive(Default)]
struct Bits {
    bytes: Vec<u8>,
    /// How many bits of the last byte are taken; 0 where it is full.
    taken: u32,
}

impl Bits {
    /// The low bits of a value, lowest first.
    fn put(&mut self, value: u32, count: u32) {
        for k in 0..count {
            if self.taken == 0 {
                self.bytes.push(0);
            }
            let last = self.bytes.len() - 1;
            self.bytes[last] |= ((value >> k & 1) as u8) << self.taken;
            self.taken = (self.taken + 1) % 8;
        }
    }

    /// The fixed code of a symbol, which goes highest bit first.
    fn put_symbol(&mut self, symbol: u32) {
        let (code, count) = match symbol {
            0..=143 => (0x30 + symbol, 8),
            144..=255 => (0x190 + symbol - 144, 9),
            256..=279 => (symbol - 256, 7),
            _ => (0xC0 + symbol - 280, 8),
        };
        self.put(code.reverse_bits() >> (32 - count), count);
    }
}

#[cfg(test)]
mod tests {
    use super::*;

    #[test]
    fn the_check_sum_is_the_standard_one() {
        assert_eq!(adler32(b"Wikipedia"), 0x11E6_0398);
    }

    /// The symbols and extra bits of the standard, at the ends of its ranges.
    #[test]
    fn lengths_have_the_standard_symbols() {
        let codes = [3, 10, 11, 12, 13, 18, 19, 34, 35, 130, 131, 257, 258].map(run_code);
        let standard = [
            (257, 0, 0),
            (264, 0, 0),
            (265, 0, 1),
            (265, 1, 1),
            (266, 0, 1),
            (268, 1, 1),
            (269, 0, 2),
            (272, 3, 2),
            (273, 0, 3),
            (280, 15, 4),
            (281, 0, 5),
            (284, 30, 5),
            (285, 0, 0),
        ];
        assert_eq!(codes, standard);
    }

    /// The fixed codes of `a`, of nine more at distance 1, and of the end.
    #[test]
    fn a_run_is_a_byte_and_how_often_it_comes_again() {
        assert_eq!(deflate(b"aaaaaaaaaa"), [0x4B, 0x84, 0x03, 0x00]);
    }
}
