//! The reference's writer on the state that the tables give.

use crate::notation::Writable;
use crate::rows::Writing;
use reference::refusal::Refused;
use reference::writer::Writer;

pub fn write(writing: &mut Writing, what: &Writable) -> Result<(), Refused> {
    let mut writer = Writer {
        list: &mut writing.list,
        place: writing.place,
        basis: writing.basis,
    };
    let outcome = match what {
        Writable::Header(header) => writer.write_header(header),
        Writable::Record(record) => writer.write_record(record),
    };
    (writing.place, writing.basis) = (writer.place, writer.basis);
    outcome
}
