//! Files of calls as bytes, each at the edge of a rule on lines. They are for tree A.

use crate::calls::LINE_TOP;

const BEFORE: &str = "start 5\narrive 6 1 500\n";
const AFTER: &str = "depart 7\ndepart 8\n";

/// The line among others, after `start`.
fn among(line: &str) -> Vec<u8> {
    format!("{BEFORE}{line}\n{AFTER}").into_bytes()
}

/// A departure with a comment that brings the line to so many bytes.
fn of_length(bytes: usize) -> String {
    let call = "depart 7 #";
    format!("{call}{}", "x".repeat(bytes - call.len()))
}

/// Numbers at 32 bits and past them.
fn numbers() -> Vec<(&'static str, Vec<u8>)> {
    vec![
        ("largest", among("arrive 7 4294967295 4294967295")),
        ("past-start", b"start 4294967296\ndepart 5\n".to_vec()),
        ("past-arrive-stamp", among("arrive 4294967296 1 500")),
        ("past-arrive-class", among("arrive 7 4294967297 500")),
        ("past-arrive-length", among("arrive 7 1 4294967796")),
        ("past-depart", among("depart 4294967303")),
        ("past-second-start", among("start 4294967296")),
        ("past-64-bits", among("depart 18446744073709551623")),
        ("past-many-digits", among(&format!("depart {}", "9".repeat(300)))),
        ("past-beside-word", among("arrive 4294967296 x 500")),
        ("past-then-wrong", among("arrive 7 1 4294967296 # and\narrive 7 1 x")),
        ("past-with-letter", among("depart 4294967296x")),
        ("past-and-extra", among("depart 4294967296 8")),
        ("past-and-missing", among("arrive 4294967296 1")),
        ("past-in-comment", among("depart 7 # 4294967296")),
        ("zeros", among(&format!("arrive {}7 01 {}500", "0".repeat(300), "0".repeat(20)))),
    ]
}

/// Ends of lines and of files, and lines of all lengths.
fn ends() -> Vec<(&'static str, Vec<u8>)> {
    let long = |bytes: usize| among(&of_length(bytes));
    let last = |bytes: usize| format!("{BEFORE}{}", of_length(bytes)).into_bytes();
    vec![
        ("empty", Vec::new()),
        ("blank-lines", b"\n\n \n\t\n".to_vec()),
        ("only-comments", b"# start 5\n #\n#depart 6\n".to_vec()),
        ("comment-at-end", b"start 5\n# depart 6".to_vec()),
        ("no-last-end", b"start 5\narrive 6 1 500\ndepart 7".to_vec()),
        ("no-last-end-wrong", b"start 5\narrive 6 1 500\ndepart".to_vec()),
        ("carriage-returns", b"start 5\r\n\r\narrive 6 1 500 # so\r\n\tdepart 7 \r\n".to_vec()),
        ("carriage-returns-wrong", b"start 5\r\n\r\ndepart\r\n".to_vec()),
        ("carriage-returns-alone", b"start 5\rdepart 6\r".to_vec()),
        ("line-of-4095", long(4_095)),
        ("line-of-4096", long(4_096)),
        ("line-of-4097", long(4_097)),
        ("longest-line", long(LINE_TOP)),
        ("longest-line-last", last(LINE_TOP)),
        ("line-too-long", long(LINE_TOP + 1)),
        ("line-too-long-last", last(LINE_TOP + 1)),
    ]
}

/// Bytes that are neither words nor white space, and words that are near to a call.
fn bytes() -> Vec<(&'static str, Vec<u8>)> {
    vec![
        ("zero-byte-alone", among("\0")),
        ("zero-byte-in-word", among("depart\0 7")),
        ("zero-byte-for-space", among("depart\x007")),
        ("zero-byte-in-comment", among("depart 7 # \0\0")),
        ("zero-byte-first", b"\0start 5\n".to_vec()),
        ("high-bytes", [BEFORE.as_bytes(), b"# \xff\xc3(\ndepart 7\xff\n"].concat()),
        ("byte-order-mark", b"\xef\xbb\xbfstart 5\n".to_vec()),
        ("form-feed", among("depart\x0c7")),
        ("capital", among("Depart 7")),
        ("longer-name", among("departs 7")),
        ("shorter-name", among("depar 7")),
        ("plus", among("depart +7")),
        ("comment-joined", among("depart 7#8")),
    ]
}

/// Start first, and once.
fn starts() -> Vec<(&'static str, Vec<u8>)> {
    vec![
        ("missing-start", b"# no start\ndepart 7\nstart 8\n".to_vec()),
        ("missing-start-arrive", b"\narrive 6 1 500\n".to_vec()),
        ("second-start", among("start 5")),
        ("start-alone", b"start 5".to_vec()),
    ]
}

pub fn text_files() -> Vec<(&'static str, Vec<u8>)> {
    [numbers(), ends(), bytes(), starts()].concat()
}

/// Start first, and once: what stands before it is judged by itself first, and so is a second one. Wrong words before it.
pub fn more_text_files() -> Vec<(&'static str, Vec<u8>)> {
    vec![
        ("before-start-wrong", b"leave 5\nstart 5\n".to_vec()),
        ("before-start-form", b"arrive 5 1\nstart 5\n".to_vec()),
        ("before-start-past", b"arrive 5 1 4294967296\nstart 5\n".to_vec()),
        ("before-start-late", b"# so\n\n \ndepart 5 # now\nstart 5\n".to_vec()),
        ("before-start-no-last-end", b"depart 5".to_vec()),
        ("second-start-late", b"start 5\n\narrive 6 1 500\ndepart 7\n# again\nstart 7\ndepart 8\n".to_vec()),
        ("second-start-wrong", b"start 5\nstart\n".to_vec()),
        ("second-start-no-last-end", b"start 5\nstart 5".to_vec()),
    ]
}
