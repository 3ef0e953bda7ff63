//! What differs between two name tables (02): the sheet that says so, line by line.
//! Each table is laid out by reader number, and every number that is in one of them
//! is looked up in both.

use crate::error::{error, Error, ErrorCode};
use crate::nametable::{self, Fields};
use crate::point::LABEL_MAX;
use crate::scheme::Scheme;
use crate::short_table;
use std::collections::{BTreeMap, BTreeSet};

/// The capacity that a sheet needs, whatever the tables are: the longest one has 500
/// lines of 16 bytes (`only left`), 500 of 17 bytes (`only right`) and the last line.
pub const CAPACITY: usize = 500 * 16 + 500 * 17 + 46;

/// The scheme and the text of each entry of a table, by reader number.
type Entries = BTreeMap<u16, (Scheme, Vec<u32>)>;

/// What the two tables have under a reader number.
#[derive(Clone, Copy, PartialEq, Eq)]
enum Finding {
    Same,
    OtherText,
    Respelled,
    OnlyLeft,
    OnlyRight,
}

/// Stores the sheet of two tables, the left one first, and answers its number of bytes.
/// The error of a table is a sheet too, of one line; the only error here is 1.
pub fn diff(left: &[u8], right: &[u8], sheet: &mut [u8]) -> Result<usize, Error> {
    if sheet.len() < CAPACITY {
        return error(ErrorCode::Capacity);
    }
    let made = sheet_of(left, right);
    sheet[..made.len()].copy_from_slice(&made);
    Ok(made.len())
}

/// The sheet of two tables: what differs, or the line of the first one that is refused.
pub fn sheet_of(left: &[u8], right: &[u8]) -> Vec<u8> {
    let sheet = differences(left, right).unwrap_or_else(|refusal| refusal);
    sheet.into_bytes()
}

/// The sheet of two whole tables, else the line that refuses one.
fn differences(left: &[u8], right: &[u8]) -> Result<String, String> {
    let left = entries_of("left", left)?;
    let right = entries_of("right", right)?;
    let readers: BTreeSet<u16> = left.keys().chain(right.keys()).copied().collect();
    let findings: Vec<_> =
        readers.into_iter().map(|reader| (reader, finding(&left, &right, reader))).collect();
    let lines: String = findings.iter().map(|&(reader, finding)| line(reader, finding)).collect();
    Ok(lines + &last_line(&findings))
}

/// The entries of the table on a side, or the line that refuses it.
fn entries_of(side: &str, table: &[u8]) -> Result<Entries, String> {
    match judged(table) {
        Ok(fields) => Ok(fields.iter().map(by_reader).collect()),
        Err(error) => Err(format!("{side} refused {} at {}\n", error.number(), error.position)),
    }
}

/// Judges a whole table of the form that its first byte tells.
fn judged(table: &[u8]) -> Result<Vec<Fields<'_>>, Error> {
    match table.first() {
        Some(&short_table::HEADER_KIND) => short_table::judged(table),
        _ => nametable::judged(table),
    }
}

/// An entry of a judged table: its reader number, then its scheme and its text.
fn by_reader(fields: &Fields) -> (u16, (Scheme, Vec<u32>)) {
    let mut points = [0; LABEL_MAX];
    let count = fields.scheme.decode(fields.label, &mut points).expect("the label was judged");
    (fields.reader, (fields.scheme, points[..count].to_vec()))
}

/// What two tables have under a reader number that is in one of them.
fn finding(left: &Entries, right: &Entries, reader: u16) -> Finding {
    match (left.get(&reader), right.get(&reader)) {
        (Some((_, one)), Some((_, other))) if one != other => Finding::OtherText,
        (Some((one, _)), Some((other, _))) if one != other => Finding::Respelled,
        (Some(_), Some(_)) => Finding::Same,
        (Some(_), None) => Finding::OnlyLeft,
        (None, _) => Finding::OnlyRight,
    }
}

/// The line of a reader number; none if both tables have the same there.
fn line(reader: u16, finding: Finding) -> String {
    let words = match finding {
        Finding::Same => return String::new(),
        Finding::OtherText => "other text",
        Finding::Respelled => "respelled",
        Finding::OnlyLeft => "only left",
        Finding::OnlyRight => "only right",
    };
    format!("{reader:05} {words}\n")
}

/// The last line: how often each was found.
fn last_line(findings: &[(u16, Finding)]) -> String {
    let count = |wanted| findings.iter().filter(|(_, finding)| *finding == wanted).count();
    format!(
        "same {} other {} respelled {} left {} right {}\n",
        count(Finding::Same),
        count(Finding::OtherText),
        count(Finding::Respelled),
        count(Finding::OnlyLeft),
        count(Finding::OnlyRight),
    )
}
