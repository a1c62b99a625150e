// Made from crates/aeadkit/src/tests/of_vectors/edited.rt by tools/erase: not to be edited.
//! Files with some lines replaced. Each result is the report, or the first fault and its line.
use super::super::vector_files::{FORMAT_2, TWO_RECORDS, add, with_lines};
use super::check_gives;
use crate::kit::alloc::{Global, Vec};
use crate::kit::{Abort, Alloc, HostRuntime};

// A row has the result, and after a bar the edits for `with_lines`.

// Edits of the file of two records.
const OF_TWO_RECORDS: [&str; 24] = [
    // No line is replaced, or the last one has no LF.
    "records 2|",
    "records 2|15|invalid",
    // No format line, and a format with a leading zero or with carriage returns after it.
    "BadFormat at line 2|2|",
    "BadFormat at line 2|2|format = 01\n",
    "records 2|2|format = 1\r\n",
    "BadFormat at line 2|2|format = 1\r\r\n",
    // No spaces around the equals sign, and some at the end; a space before the name; a suite that is in no format.
    "records 2|3|suite=aes-128-gcm   \n",
    "WrongName at line 3|3| suite = aes-128-gcm\n",
    "UnknownSuite at line 3|3|suite = aes-128-ccm\n",
    // A letter past F, and a comment with an equals sign inside a record.
    "BadHex at line 4|4|key = 0000000000000000000000000000000G\n",
    "BadLine at line 4|4|# a = b\n",
    // A wrong name, also with a wrong value; a nonce of 13 bytes, or of an odd number of digits.
    "WrongName at line 5|5|iv = 000000000000000000000000\n",
    "WrongName at line 5|5|iv = 000\n",
    "BadLength at line 5|5|nonce = 00000000000000000000000000\n",
    "BadHex at line 5|5|nonce = 000\n",
    // The blank line moved into a record; an empty name; a name alone; `invalid` as a name, or with CR in place of LF.
    "BadLine at line 6|6|\naad =\n|9|",
    "WrongName at line 6|6|= 00\n",
    "BadLine at line 8|8|text\n",
    "WrongName at line 15|15|invalid =\n",
    "BadLine at line 15|15|invalid\r",
    // The last lines of the two records exchanged.
    "records 2\nbad 1\nbad 2|8|invalid\n|15|text =\n",
    // Format 2, also with cuts in an empty text, and format 3.
    "records 2|2|format = 2\n",
    "BadCuts at line 8|2|format = 2\n|8|cuts = 1\ntext =\n",
    "BadFormat at line 2|2|format = 3\n",
];

// Edits of the file of format 2.
const OF_FORMAT_2: [&str; 27] = [
    "records 2|",
    // Format 1 has no cuts and no padding, and there is no format 3.
    "WrongName at line 7|1|format = 1\n",
    "UnknownSuite at line 8|1|format = 1\n|7|",
    "BadFormat at line 1|1|format = 3\n",
    // Values that are not valid cuts, and one that is.
    "BadCuts at line 7|7|cuts = \n",
    "BadCuts at line 7|7|cuts = 0\n",
    "BadCuts at line 7|7|cuts = 03\n",
    "BadCuts at line 7|7|cuts = 3,3\n",
    "BadCuts at line 7|7|cuts = 8,3\n",
    "BadCuts at line 7|7|cuts = 9\n",
    "BadCuts at line 7|7|cuts = 3,\n",
    "BadCuts at line 7|7|cuts = ,3\n",
    "BadCuts at line 7|7|cuts = 1, 5\n",
    "BadCuts at line 7|7|cuts = +3\n",
    "BadCuts at line 7|7|cuts = 18446744073709551616\n",
    "records 2|7|cuts=1,2,3,4,5,6,7,8\n",
    // No cuts, and other lines in place of the cuts.
    "records 2|7|",
    "records 2\nbad 1|7||8|invalid\n",
    "WrongName at line 7|7|iv = 3\n",
    // After cuts: cuts again, `invalid`, a blank line, another text, and nothing.
    "WrongName at line 8|7|cuts = 3,8\ncuts = 3,8\n",
    "BadLine at line 8|8|invalid\n",
    "BadLine at line 8|8|\n",
    "records 2\nbad 1|8|text = 01000000000000\n",
    "Unfinished at line 7|8||9||10||11||12|",
    "Unfinished at line 7|7|cuts = 3,8|8||9||10||11||12|",
    // A record of key wrapping has no cuts, and the padding is not part of the text.
    "WrongName at line 12|12|cuts = 1\ntext = 466f7250617369\n",
    "records 2\nbad 2|12|text = 466f725061736900\n",
];

// Checks a file with the edits of a row, and compares the result.
fn has_row(rt: &(impl Abort + Alloc<A = Global>), file: &str, row: &str) {
    let (result, edits) = row.split_once('|').unwrap_or((row, ""));
    check_gives(rt, &with_lines(rt, file, edits), result);
}

#[test]
fn other_lines() {
    let rt = HostRuntime;
    for row in &OF_TWO_RECORDS {
        has_row(&rt, TWO_RECORDS, row);
    }
    for row in &OF_FORMAT_2 {
        has_row(&rt, FORMAT_2, row);
    }
}

#[test]
fn no_records() {
    let rt = HostRuntime;
    for file in ["", "# a comment", "format = 1", "\nformat = 2\n#\n"] {
        check_gives(&rt, file.as_bytes(), "NoRecords");
    }
}

// A carriage return before each line feed makes no difference.
#[test]
fn carriage_returns() {
    let rt = HostRuntime;
    let mut file = Vec::new(rt.alloc());
    for line in TWO_RECORDS.lines() {
        add(&rt, &mut file, &[line.as_bytes(), b"\r"]);
    }
    check_gives(&rt, &file, "records 2");
}

// A comment may have any bytes.
#[test]
fn comments() {
    let rt = HostRuntime;
    let mut file = Vec::new(rt.alloc());
    add(&rt, &mut file, &[b"#\x80\xff\n", TWO_RECORDS.as_bytes()]);
    check_gives(&rt, &file, "records 2");
}
