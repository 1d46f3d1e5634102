//! What the lines of all texts share, a file of calls, the text of a tree and the text of a log: words, numbers, and what is wrong with a line.

use std::fmt;

/// Why a replay, or the reading of a tree's text or a log's, ends at a line.
#[derive(Clone, Copy, Debug, PartialEq, Eq)]
pub enum Fault {
    NotACall,
    NotAClass,
    /// A call or a class in form, with a number past 32 bits.
    TooLarge,
    /// A call before `start`, and a second one.
    StartFirst,
    StartedAlready,
    /// A class before `tree`, and one that is not the next.
    TreeFirst,
    NextClass(usize),
    /// A word of a log that is no number of 32 bits.
    NotANumber,
}

impl fmt::Display for Fault {
    fn fmt(&self, to: &mut fmt::Formatter) -> fmt::Result {
        match self {
            Fault::NotACall => to.write_str("not a call"),
            Fault::NotAClass => to.write_str("not a class"),
            Fault::TooLarge => to.write_str("number past 32 bits"),
            Fault::StartFirst => to.write_str("start comes first"),
            Fault::StartedAlready => to.write_str("started already"),
            Fault::TreeFirst => to.write_str("tree comes first"),
            Fault::NextClass(number) => write!(to, "class {number} comes next"),
            Fault::NotANumber => to.write_str("not a number"),
        }
    }
}

/// A faulty line by its number from 1; all lines count.
#[derive(Clone, Copy, Debug, PartialEq, Eq)]
pub struct FaultyLine {
    pub number: usize,
    pub fault: Fault,
}

impl fmt::Display for FaultyLine {
    fn fmt(&self, to: &mut fmt::Formatter) -> fmt::Result {
        write!(to, "line {}: {}", self.number, self.fault)
    }
}

/// The lines of a file, without their ends, each with its number from 1. A line feed at the very end leaves a line of nothing, which says nothing.
pub fn lines(file: &[u8]) -> impl Iterator<Item = (usize, &[u8])> {
    file.split(|&byte| byte == b'\n').enumerate().map(|(before, line)| (before + 1, line))
}

/// The words of a line, before its comment. White space is a space, a tab or a carriage return.
pub fn words(line: &[u8]) -> Vec<&[u8]> {
    let text = line.split(|&byte| byte == b'#').next().unwrap_or(line);
    text.split(|byte| b" \t\r".contains(byte)).filter(|word| !word.is_empty()).collect()
}

/// Is a word, or all of several put together, decimal digits?
pub fn is_number(word: &[u8]) -> bool {
    word.iter().all(u8::is_ascii_digit)
}

/// A word of decimal digits as a number of 32 bits.
pub fn number(digits: &[u8]) -> Result<u32, Fault> {
    let more = |value: u32, digit: &u8| value.checked_mul(10)?.checked_add(u32::from(digit - b'0'));
    digits.iter().try_fold(0, more).ok_or(Fault::TooLarge)
}

/// A word as a number of 32 bits, if it is one: decimal digits, with zeros in front or without.
pub fn word_as_number(word: &[u8]) -> Option<u32> {
    if word.is_empty() || !is_number(word) {
        return None;
    }
    number(word).ok()
}

/// What a program prints on standard output, and its exit status.
#[derive(Clone, Debug, PartialEq, Eq)]
pub struct Answer {
    pub printed: String,
    pub status: i32,
}

impl Answer {
    /// All was done.
    pub fn done(printed: String) -> Answer {
        Answer { printed, status: 0 }
    }

    /// A refusal of the tree, a faulty line or a wrong record, after what was printed before.
    pub fn ended(printed: String, last: impl fmt::Display) -> Answer {
        Answer { printed: format!("{printed}{last}\n"), status: 1 }
    }

    /// All was done, up to a faulty line where there is one.
    pub fn up_to(printed: String, fault: Option<FaultyLine>) -> Answer {
        match fault {
            Some(line) => Answer::ended(printed, line),
            None => Answer::done(printed),
        }
    }
}
