//! What the proved programs `cases` and `blocks` are run on, and what they must write: the files `stdin` and `stdout` of
//! crates/cases and crates/blocks.
//!
//! Method: records are drawn with fixed seeds, document 01's cases first. A record is laid out in bytes for the proved
//! program, and answered here by [`crate::bins`] and [`crate::filter`]. The byte formats are those that the two programs
//! describe; nothing else is shared with them.

pub mod blocks;
pub mod cases;

/// The bytes of a program's stored file; nothing for any other names.
pub fn bytes(program: &str, file: &str) -> Option<Vec<u8>> {
    match (program, file) {
        ("cases", "stdin") => Some(joined(&cases::records(), cases::Record::bytes)),
        ("cases", "stdout") => Some(joined(&cases::records(), |record| line(record.answer()))),
        ("blocks", "stdin") => Some(joined(&blocks::records(), |record| record.bytes().to_vec())),
        ("blocks", "stdout") => Some(joined(&blocks::records(), |record| line(record.answer()))),
        _ => None,
    }
}

fn joined<R>(records: &[R], part: impl Fn(&R) -> Vec<u8>) -> Vec<u8> {
    records.iter().flat_map(part).collect()
}

fn line(text: String) -> Vec<u8> {
    (text + "\n").into_bytes()
}
