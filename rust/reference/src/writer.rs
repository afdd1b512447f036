//! Writing a list: a header at byte 0, records at the place reached.

use crate::format::{
    encode_header, encode_record, kind_of, kind_refusal, Header, HEADER_LENGTH, LONGEST_LIST,
};
use crate::refusal::{Refusal, Refused};
use crate::shape::{Basis, Record};

/// The list being written, the place reached, and the version and page size that are held.
pub struct Writer<'a> {
    pub list: &'a mut [u8],
    pub place: usize,
    pub basis: Basis,
}

impl Writer<'_> {
    /// Tried 2 and 3 for the header's own version and sizes, then 22.
    pub fn write_header(&mut self, header: &Header) -> Result<(), Refused> {
        if let Some(refusal) = header.basis().first_refusal() {
            return Err(refusal.at(0));
        }
        self.put(0, &encode_header(header))?;
        self.basis = header.basis();
        Ok(())
    }

    /// Tried 2 and 3 for what is held, 4 for a kind that the version lacks, then 7, 8, 9, 10, 33,
    /// 11, 31, 34 and 35 as the kind has them, then 22.
    pub fn write_record(&mut self, record: &Record) -> Result<(), Refused> {
        let Basis {
            version,
            width,
            height,
        } = self.basis;
        let refusal = self
            .basis
            .first_refusal()
            .or_else(|| kind_refusal(kind_of(record), version))
            .or_else(|| record.first_refusal(width, height))
            .or_else(|| (self.place < HEADER_LENGTH).then_some(Refusal::NoRoom));
        match refusal {
            Some(refusal) => Err(refusal.at(0)),
            None => self.put(self.place, &encode_record(record)),
        }
    }

    /// Copies the bytes to `start` and puts the place past them. Bytes past 65,536 do not serve.
    fn put(&mut self, start: usize, bytes: &[u8]) -> Result<(), Refused> {
        let serving = self.list.len().min(LONGEST_LIST);
        if start > serving || bytes.len() > serving - start {
            return Err(Refusal::NoRoom.at(0));
        }
        self.place = start + bytes.len();
        self.list[start..self.place].copy_from_slice(bytes);
        Ok(())
    }
}

#[cfg(test)]
mod tests {
    use super::*;
    use crate::reader::read_record;
    use crate::shape::{Disc, Ring, Shape, Triangle};

    fn disc(radius: u16, big: bool) -> Record {
        let (x, y) = (-1, 2);
        Record::Shape(Shape::Disc(Disc { x, y, radius, big }))
    }

    fn ring(radius: u16, width: u16, big: bool) -> Record {
        Record::Shape(Shape::Ring(Ring {
            x: -1,
            y: 2,
            radius,
            width,
            big,
        }))
    }

    fn triangle([x0, y0, x1, y1, x2, y2]: [i16; 6]) -> Record {
        Record::Shape(Shape::Triangle(Triangle {
            x0,
            y0,
            x1,
            y1,
            x2,
            y2,
        }))
    }

    /// What the writer says of a record where there are so many bytes left, and those written.
    fn written(version: u16, record: Record, left: usize) -> Result<Vec<u8>, u64> {
        let mut list = vec![0; HEADER_LENGTH + left];
        let basis = Basis {
            version,
            width: 1,
            height: 1,
        };
        let mut writer = Writer {
            list: &mut list,
            place: HEADER_LENGTH,
            basis,
        };
        let outcome = writer.write_record(&record);
        let place = writer.place;
        outcome.map_err(|refused| refused.number)?;
        assert_eq!(
            read_record(&list[HEADER_LENGTH..place], basis).0,
            Ok(record)
        );
        Ok(list[HEADER_LENGTH..place].to_vec())
    }

    #[test]
    fn a_radius_has_one_byte_or_two() {
        for (record, bytes) in [
            (disc(200, false), vec![5, 255, 255, 2, 0, 200]),
            (disc(200, true), vec![8, 255, 255, 2, 0, 200, 0]),
            (disc(300, true), vec![8, 255, 255, 2, 0, 44, 1]),
            (ring(200, 9, false), vec![6, 255, 255, 2, 0, 200, 9]),
            (ring(200, 9, true), vec![9, 255, 255, 2, 0, 200, 0, 9, 0]),
            (ring(1023, 258, true), vec![9, 255, 255, 2, 0, 255, 3, 2, 1]),
        ] {
            assert_eq!(written(2, record, 9), Ok(bytes));
        }
    }

    #[test]
    fn refusals_of_a_radius_come_in_order() {
        for (version, record, left, number) in [
            (1, disc(300, true), 9, 4),
            (1, ring(0, 0, true), 9, 4),
            (2, disc(0, false), 0, 10),
            (2, ring(0, 0, true), 0, 10),
            (1, disc(256, false), 0, 33),
            (2, disc(300, false), 0, 33),
            (2, ring(300, 0, false), 9, 33),
            (2, ring(1024, 1025, true), 9, 33),
            (2, ring(300, 301, true), 0, 11),
            (2, ring(255, 256, false), 0, 11),
            (2, disc(300, true), 6, 22),
            (2, ring(300, 300, true), 8, 22),
        ] {
            assert_eq!(written(version, record, left), Err(number), "{record:?}");
        }
    }

    #[test]
    fn corners_are_written_in_their_order() {
        let corners = [3968, 2, 4095, 3, 3969, 4];
        let turned = [3969, 4, 4095, 3, 3968, 2];
        let bytes_of = |low: [u8; 6]| {
            let [a, b, c, d, e, f] = low;
            vec![10, a, 15, b, 0, c, 15, d, 0, e, 15, f, 0]
        };
        assert_eq!(
            written(2, triangle(corners), 13),
            Ok(bytes_of([128, 2, 255, 3, 129, 4]))
        );
        assert_eq!(
            written(2, triangle(turned), 13),
            Ok(bytes_of([129, 4, 255, 3, 128, 2]))
        );
    }

    #[test]
    fn refusals_of_a_triangle_come_in_order() {
        for (version, corners, left, number) in [
            (1, [4096, 0, 0, 0, 0, 0], 0, 4),
            (2, [4096, 0, 0, 0, 0, 0], 0, 7),
            (2, [0, 0, 0, 0, 0, -4097], 13, 7),
            (2, [0, 0, 128, 0, 64, 0], 0, 34),
            (2, [0, 0, 1, 64, 0, 128], 13, 34),
            (2, [-4096, 0, 4095, 1, 0, 0], 13, 34),
            (2, [0, 0, 127, 127, 1, 1], 0, 35),
            (2, [5, 5, 5, 5, 9, 8], 13, 35),
            (2, [0, 0, 127, 127, 1, 2], 12, 22),
        ] {
            let outcome = written(version, triangle(corners), left);
            assert_eq!(outcome, Err(number), "{corners:?}");
        }
    }

    #[test]
    fn only_the_first_65536_bytes_serve() {
        let mut list = vec![0xAA; LONGEST_LIST + 100];
        let mut writer = Writer {
            list: &mut list,
            place: LONGEST_LIST - 1,
            basis: Basis {
                version: 2,
                width: 1,
                height: 1,
            },
        };
        assert_eq!(writer.write_record(&Record::End), Ok(()));
        assert_eq!(writer.place, LONGEST_LIST);
        let refusal = Refusal::NoRoom.at(0);
        assert_eq!(writer.write_record(&Record::End), Err(refusal));
        writer.place = usize::MAX;
        assert_eq!(writer.write_record(&Record::End), Err(refusal));
        assert_eq!(writer.place, usize::MAX);
    }
}
