// Made from crates/vectors/src/place.rt by tools/erase: not to be edited.
//! A place in a vector file, which says what line may come next, and the step that a line makes from it.

use crate::vectors::cuts::are_cuts;
use crate::vectors::digits::Digits;
use crate::vectors::fault::Cause;
use crate::vectors::field::{is_gap, value_line};
use crate::vectors::suite::{Algorithm, Field, Format};

// A record as the file writes it, or the part of it that was read so far.
#[derive(Clone, Copy)]
pub(in crate::vectors) struct Entry<'a> {
    pub(in crate::vectors) suite: Algorithm,
    pub(in crate::vectors) key: Digits<'a>,
    pub(in crate::vectors) nonce: Digits<'a>,
    pub(in crate::vectors) aad: Digits<'a>,
    pub(in crate::vectors) sealed: Digits<'a>,
    pub(in crate::vectors) text: Option<Digits<'a>>,
}

impl<'a> Entry<'a> {
    // A record of which only the suite was read.
    fn unread(suite: Algorithm) -> Entry<'a> {
        let none = Digits::none();
        Entry { suite, key: none, nonce: none, aad: none, sealed: none, text: None }
    }

    // The record with the value of a field.
    fn with_field(self, field: Field, value: Digits<'a>) -> Entry<'a> {
        match field {
            Field::Key => Entry { key: value, ..self },
            Field::Nonce => Entry { nonce: value, ..self },
            Field::Aad => Entry { aad: value, ..self },
            Field::Sealed => Entry { sealed: value, ..self },
        }
    }
}

// Which line is expected, with the part of the record that was read so far.
#[derive(Clone, Copy)]
pub(in crate::vectors) enum Place<'a> {
    // The format line, or a line before it.
    Start,
    // The first line of a record, or a line between records.
    Between(Format),
    // The first of the fields that are left, or the end of the record if none is left.
    Fields { format: Format, left: &'static [Field], entry: Entry<'a> },
    // The text line after cuts.
    Text { format: Format, entry: Entry<'a> },
}

// The place after a line, and the record that the line ends, if it ends one.
pub(in crate::vectors) struct Next<'a> {
    // The place after the line.
    pub(in crate::vectors) place: Place<'a>,
    // The record that the line ends.
    pub(in crate::vectors) ended: Option<Entry<'a>>,
}

impl<'a> Next<'a> {
    // The place after a line that doesn't end a record.
    fn at(place: Place<'a>) -> Next<'a> {
        Next { place, ended: None }
    }

    // The place after the last line of a record.
    fn after_record(format: Format, entry: Entry<'a>) -> Next<'a> {
        Next { place: Place::Between(format), ended: Some(entry) }
    }
}

// The value of a line with this name.
fn value_at<'a>(name: &[u8], line: &'a [u8]) -> Result<&'a [u8], Cause> {
    match value_line(line) {
        None => Err(Cause::BadLine),
        Some((found, value)) => {
            if found == name {
                Ok(value)
            } else {
                Err(Cause::WrongName)
            }
        }
    }
}

// The digits of a line with this name.
fn hex_at<'a>(name: &[u8], line: &'a [u8]) -> Result<Digits<'a>, Cause> {
    let value = value_at(name, line)?;
    match Digits::of(value) {
        Some(digits) => Ok(digits),
        None => Err(Cause::BadHex),
    }
}

// The digits of a field.
fn field_at<'a>(suite: Algorithm, field: Field, line: &'a [u8]) -> Result<Digits<'a>, Cause> {
    let digits = hex_at(field.name(), line)?;
    match suite.field_length(field) {
        Some(length) => {
            if digits.byte_count() == length {
                Ok(digits)
            } else {
                Err(Cause::BadLength)
            }
        }
        None => Ok(digits),
    }
}

// The format that a line names.
fn format_at(line: &[u8]) -> Result<Format, Cause> {
    match value_line(line) {
        Some((name, value)) => {
            if name == b"format".as_slice() {
                Format::named(value).ok_or(Cause::BadFormat)
            } else {
                Err(Cause::BadFormat)
            }
        }
        None => Err(Cause::BadFormat),
    }
}

// The suite that a line names.
fn suite_at(format: Format, line: &[u8]) -> Result<Algorithm, Cause> {
    let name = value_at(b"suite", line)?;
    Algorithm::named(format, name).ok_or(Cause::UnknownSuite)
}

// Whether a line is a value line with this name.
fn is_named(name: &[u8], line: &[u8]) -> bool {
    match value_line(line) {
        Some((found, _)) => found == name,
        None => false,
    }
}

// Whether a record may have a line of cuts.
fn may_cut(format: Format, suite: Algorithm) -> bool {
    match format {
        Format::One => false,
        Format::Two => suite.is_aead(),
    }
}

// Handles a text line, which ends its record.
fn text_at<'a>(format: Format, entry: Entry<'a>, line: &'a [u8]) -> Result<Next<'a>, Cause> {
    let text = Some(hex_at(b"text", line)?);
    Ok(Next::after_record(format, Entry { text, ..entry }))
}

// Handles a line of cuts.
fn cuts_at<'a>(format: Format, entry: Entry<'a>, line: &'a [u8]) -> Result<Next<'a>, Cause> {
    let value = value_at(b"cuts", line)?;
    if are_cuts(entry.sealed.byte_count().saturating_sub(16) as u64, value) {
        Ok(Next::at(Place::Text { format, entry }))
    } else {
        Err(Cause::BadCuts)
    }
}

// Handles the line after the last field.
fn end_at<'a>(format: Format, entry: Entry<'a>, line: &'a [u8]) -> Result<Next<'a>, Cause> {
    if line == b"invalid".as_slice() {
        return Ok(Next::after_record(format, Entry { text: None, ..entry }));
    }
    if may_cut(format, entry.suite) && is_named(b"cuts", line) {
        return cuts_at(format, entry, line);
    }
    text_at(format, entry, line)
}

// Handles a line at a place.
pub(in crate::vectors) fn step<'a>(place: Place<'a>, line: &'a [u8]) -> Result<Next<'a>, Cause> {
    match place {
        Place::Start => {
            if is_gap(line) {
                Ok(Next::at(Place::Start))
            } else {
                Ok(Next::at(Place::Between(format_at(line)?)))
            }
        }
        Place::Between(format) => {
            if is_gap(line) {
                Ok(Next::at(Place::Between(format)))
            } else {
                let suite = suite_at(format, line)?;
                Ok(Next::at(Place::Fields { format, left: suite.fields(), entry: Entry::unread(suite) }))
            }
        }
        Place::Fields { format, left, entry } => match left {
            [] => end_at(format, entry, line),
            [field, others @ ..] => {
                let value = field_at(entry.suite, *field, line)?;
                Ok(Next::at(Place::Fields { format, left: others, entry: entry.with_field(*field, value) }))
            }
        },
        Place::Text { format, entry } => text_at(format, entry, line),
    }
}
