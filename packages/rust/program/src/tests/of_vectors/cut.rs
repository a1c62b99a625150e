// Made from crates/aeadkit/src/tests/of_vectors/cut.rt by tools/erase: not to be edited.
//! The file of two records, cut off after each line and inside it.
use super::super::vector_files::TWO_RECORDS;
use super::check_gives;
use crate::kit::HostRuntime;

// The results for each line: if the file ends after the whole line, inside its name, or after an even or an odd number
// of digits of its value.
const RESULTS: &str = "\
whole: NoRecords|name: NoRecords
whole: NoRecords|name: BadFormat at line 2|even: BadFormat at line 2|odd: BadFormat at line 2
whole: Unfinished at line 3|name: BadLine at line 3|even: UnknownSuite at line 3|odd: UnknownSuite at line 3
whole: Unfinished at line 4|name: BadLine at line 4|even: BadLength at line 4|odd: BadHex at line 4
whole: Unfinished at line 5|name: BadLine at line 5|even: BadLength at line 5|odd: BadHex at line 5
whole: Unfinished at line 6|name: BadLine at line 6
whole: Unfinished at line 7|name: BadLine at line 7|even: Unfinished at line 7|odd: BadHex at line 7
whole: records 1|name: BadLine at line 8
whole: records 1
whole: Unfinished at line 10|name: BadLine at line 10|even: UnknownSuite at line 10|odd: UnknownSuite at line 10
whole: Unfinished at line 11|name: BadLine at line 11|even: BadLength at line 11|odd: BadHex at line 11
whole: Unfinished at line 12|name: BadLine at line 12|even: BadLength at line 12|odd: BadHex at line 12
whole: Unfinished at line 13|name: BadLine at line 13
whole: Unfinished at line 14|name: BadLine at line 14|even: Unfinished at line 14|odd: BadHex at line 14
whole: records 2|name: BadLine at line 15";

// The name of the result, if the file ends with this line or this part of a line.
fn result_name(part: &str, is_whole: bool) -> &'static str {
    match part.split_once('=') {
        _ if is_whole => "whole: ",
        None => "name: ",
        Some((_, value)) if value.len().saturating_sub(1) % 2 == 0 => "even: ",
        Some(_) => "odd: ",
    }
}

// The result for the first bytes of the file, which end after a whole line or inside one.
fn result_of(kept: &str, is_whole: bool) -> &'static str {
    let Some(part) = kept.lines().last() else {
        return "NoRecords";
    };
    let row = RESULTS.lines().nth(kept.lines().count().saturating_sub(1));
    let name = result_name(part, is_whole);
    for cell in row.unwrap_or("").split('|') {
        if let Some(result) = cell.strip_prefix(name) {
            return result;
        }
    }
    ""
}

// The file is cut off after each line, with its LF and without it, and at each place inside the line.
#[test]
fn cut_at_each_place() {
    let rt = HostRuntime;
    for end in 0..=TWO_RECORDS.len() {
        let kept = TWO_RECORDS.get(..end).unwrap_or("");
        let rest = TWO_RECORDS.get(end..).unwrap_or("");
        let is_whole = kept.ends_with('\n') || rest.starts_with('\n') || rest.is_empty();
        check_gives(&rt, kept.as_bytes(), result_of(kept, is_whole));
    }
}
