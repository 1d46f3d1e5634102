//! The text of a log: decimal numbers of 32 bits with white space between them, four to a record, and comments. Line ends mean nothing else. What `judge`
//! prints for such a text, and what `replay --log` prints.

use crate::calls::{print_departure, replayed};
use crate::file;
use crate::judge::{judge_file, records_of, Judgement, RECORD};
use crate::lines::{lines, word_as_number, words, Answer, Fault, FaultyLine};

/// The numbers of a text, up to the first word that is none, and the line of that word.
pub fn read(text: &[u8]) -> (Vec<u32>, Option<FaultyLine>) {
    let mut numbers = Vec::new();
    for (line_number, line) in lines(text) {
        for word in words(line) {
            match word_as_number(word) {
                Some(number) => numbers.push(number),
                None => return (numbers, Some(FaultyLine { number: line_number, fault: Fault::NotANumber })),
            }
        }
    }
    (numbers, None)
}

/// As a log is printed: a record a line.
pub fn print_log(records: &[[u32; RECORD]]) -> String {
    records.iter().map(|[kind, stamp, class, length]| format!("{kind} {stamp} {class} {length}\n")).collect()
}

/// What `replay --log` prints, and its status: the log of the run, up to a faulty line.
pub fn replay_log(tree_file: &[u8], calls: &[u8]) -> Answer {
    match file::read(tree_file) {
        Ok(tree) => {
            let replayed = replayed(&tree, calls);
            let records = replayed.state.map_or(Vec::new(), |state| records_of(&state.history));
            Answer::up_to(print_log(&records), replayed.fault)
        }
        Err(refusal) => Answer::ended(String::new(), refusal),
    }
}

/// What `judge` prints, and its status. The log is judged in the order of its text: a word that is no number is named unless a record that stands
/// before it, whole, is wrong.
pub fn judge_text(tree_file: &[u8], first_stamp: u32, text: &[u8]) -> Answer {
    let (mut numbers, bad_word) = read(text);
    if bad_word.is_some() {
        numbers.truncate(numbers.len() / RECORD * RECORD);
    }
    match (judge_file(tree_file, first_stamp, &numbers), bad_word) {
        (Judgement::Accepted, Some(line)) => Answer::ended(String::new(), line),
        (judgement, _) => print_judgement(judgement, numbers.len() / RECORD),
    }
}

/// The judgement of a log of so many records.
fn print_judgement(judgement: Judgement, records: usize) -> Answer {
    let wrong = match judgement {
        Judgement::Accepted => return Answer::done(format!("accepted {records} records\n")),
        Judgement::TreeRefused(refusal) => refusal.to_string(),
        Judgement::Malformed { record } => format!("record {record}: malformed"),
        Judgement::Refused { record, number } => format!("record {record}: refused {number}"),
        Judgement::AnotherChoice { record, ours } => format!("record {record}: another choice\nour rules: {}", print_departure(Ok(ours))),
    };
    Answer::ended(String::new(), wrong)
}

#[cfg(test)]
mod tests {
    use super::*;
    use crate::calls::{first_stamp, replay};
    use crate::file::{file_of, Order};
    use crate::gen::{case, tree_a};

    #[test]
    fn texts() {
        let says = |text: &str, numbers: &[u32]| assert_eq!(read(text.as_bytes()), (numbers.to_vec(), None), "{text}");
        says("", &[]);
        says("\n \t\r\n# 1 2\n#", &[]);
        says("1 2 3 4", &[1, 2, 3, 4]);
        says("1\n2\r\n3\t4\r5\n", &[1, 2, 3, 4, 5]);
        says("12#x\n#\n3 #4 # 5\n 6", &[12, 3, 6]);
        says("4294967295 0 00 007", &[u32::MAX, 0, 0, 7]);
        says(&format!("1 {}9", "0".repeat(70_000)), &[1, 9]);
    }

    #[test]
    fn words_that_are_no_number() {
        for word in ["x", "-1", "+1", "1.", "1,", "0x1", "1e3", "4294967296", "99999999999999999999999", "1\0", "\x0c", "1\x0b2", "\u{feff}1", "x#", "4294967296#", "1x"] {
            assert_eq!(read(format!("1\n2 3\n\n4 {word} 5\n6").as_bytes()), (vec![1, 2, 3, 4], Some(FaultyLine { number: 4, fault: Fault::NotANumber })), "{word}");
        }
        assert_eq!(read(b"\xff").1.map(|line| line.number), Some(1));
        assert_eq!(read(b"1\r2\rx\n").1.map(|line| line.number), Some(1)); // a carriage return ends no line
    }

    fn says(text: &str, printed: &str, status: i32) {
        let tree = file_of(&tree_a(), Order::Big);
        assert_eq!(judge_text(&tree, 5, text.as_bytes()), Answer { printed: printed.to_string(), status }, "{text}");
    }

    /// A wrong record whose four numbers stand before a bad word is named in its place.
    #[test]
    fn bad_words_among_records() {
        says("3 5 0 0 x", "line 1: not a number\n", 1);
        says("3 5 0 0\n\n3 5 0 x 7 7", "line 3: not a number\n", 1);
        says("3 5 0 0\n4 5 0 0\nx", "record 1: malformed\n", 1);
        says("3 5 0 0\n4 5 0 x\n", "line 2: not a number\n", 1);
        says("3 4 0 0\nx", "record 0: refused 14\n", 1);
        says("2 5 1 9\nx", "record 0: another choice\nour rules: none waits\n", 1);
        says("3 5 0 0\n3 5\n\nx", "line 4: not a number\n", 1);
        says("3 5 0 0\n3 5\n\n", "record 1: malformed\n", 1);
        says("x", "line 1: not a number\n", 1);
    }

    #[test]
    fn what_is_printed() {
        says("", "accepted 0 records\n", 0);
        says("3 5 0 0", "accepted 1 records\n", 0);
        says("1 5 1 500 1 5 2 1000 2 5 1 500 2 525 2 1000 3 1545 0 0\n", "accepted 5 records\n", 0);
        says("1 5 1 500\n3 5 0 0\n", "record 1: another choice\nour rules: packet class 1 number 0 length 500 rule real-time eligible 0 deadline 1040\n", 1);
        assert_eq!(judge_text(&[], 5, b"x"), Answer { printed: "refused 1 class 0\n".to_string(), status: 1 });
    }

    #[test]
    fn logs_of_replays() {
        let tree = file_of(&tree_a(), Order::Big);
        let log = |calls: &str, printed: &str, status| assert_eq!(replay_log(&tree, calls.as_bytes()), Answer { printed: printed.to_string(), status }, "{calls}");
        log("", "", 0);
        log("start 5\n", "", 0);
        log("start 5\narrive 06 1 500\narrive 6 0 500\ndepart 4\ndepart 7\ndepart 7", "1 6 1 500\n2 7 1 500\n3 7 0 0\n", 0);
        log("start 5\ndepart 6\nleave\ndepart 7\n", "3 6 0 0\nline 3: not a call\n", 1);
        log("depart 6\n", "line 1: start comes first\n", 1);
        assert_eq!(replay_log(&[], b"").printed, "refused 1 class 0\n");
    }

    /// The log of a run has a record for each answer that is no refusal, and is accepted; by another way than the history: from the printed answers.
    #[test]
    fn logs_of_runs_are_accepted() {
        for seed in 0..200 {
            let case = case(seed, 60);
            let (Some(calls), tree_file) = (&case.calls, &case.tree_file) else { continue };
            let (answers, log) = (replay(tree_file, calls), replay_log(tree_file, calls));
            assert_eq!(answers.status, log.status, "{seed}");
            let kind = |line: &str| match line.split(' ').next()? {
                "accepted" => Some("1 "),
                "packet" => Some("2 "),
                "none" => Some("3 "),
                _ => None,
            };
            let kinds: Vec<&str> = answers.printed.lines().filter_map(kind).collect();
            let records: Vec<&str> = log.printed.lines().filter(|line| line.starts_with(|first: char| first.is_ascii_digit())).collect();
            assert_eq!(kinds.len(), records.len(), "{seed}");
            assert!(kinds.iter().zip(&records).all(|(kind, record)| record.starts_with(kind)), "{seed}");
            if let (Some(first), 0) = (first_stamp(calls), log.status) {
                assert_eq!(judge_text(tree_file, first, log.printed.as_bytes()), Answer::done(format!("accepted {} records\n", records.len())), "{seed}");
            }
        }
    }
}
