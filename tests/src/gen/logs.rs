//! Logs: those of runs, as they are and damaged in all ways, over right and damaged tree files; and their texts, in all spellings.

use super::damage::{damaged_file, odd_number};
use super::dice::Dice;
use super::runs::{disciplined_run, full_run, late_run, loose_run, same_tick_run, Run};
use super::treetexts::{any_of, remark, spelled_word, white_space};
use crate::calls::{HALF_ROUND, WAITING_TOP};
use crate::file::{file_of, Order};
use crate::judge::{in_c, judge_file, records_of, ARRIVAL, DEPARTURE, FOUND_EMPTY, RECORD};
use crate::lines::Answer;
use crate::logtext::{judge_text, read};
use crate::tree::Tree;

/// A log as numbers, with the tree file and the first stamp that it is judged from.
pub struct Log {
    pub name: String,
    pub tree_file: Vec<u8>,
    pub first: u32,
    pub numbers: Vec<u32>,
}

impl Log {
    /// As a script for `judge.c`: the tree file, and the log.
    pub fn script(&self) -> String {
        let digits: String = self.tree_file.iter().map(|byte| format!("{byte:02x}")).collect();
        let numbers: String = self.numbers.iter().map(|number| format!(" {number}")).collect();
        format!("tree {}\njudge {}{numbers}\n", if digits.is_empty() { "-" } else { &digits }, self.first)
    }

    /// What `judge.c` prints for it.
    pub fn answer(&self) -> String {
        let (answer, [a, b, c, d]) = in_c(judge_file(&self.tree_file, self.first, &self.numbers));
        format!("tree {}\njudge {answer} {a} {b} {c} {d}\n", self.tree_file.len())
    }
}

/// A log as text, for `judge`.
pub struct LogCase {
    pub name: String,
    pub tree_file: Vec<u8>,
    pub first: u32,
    pub text: Vec<u8>,
}

impl LogCase {
    /// What the model answers to it.
    pub fn answer(&self) -> Answer {
        judge_text(&self.tree_file, self.first, &self.text)
    }

    /// The same log as numbers, if all its words are.
    pub fn as_numbers(&self) -> Option<Log> {
        let (numbers, bad_word) = read(&self.text);
        let (name, tree_file) = (self.name.clone(), self.tree_file.clone());
        bad_word.is_none().then_some(Log { name, tree_file, first: self.first, numbers })
    }
}

// Damage to a list of records.

type Record = [u32; RECORD];

fn any_run(dice: &mut Dice, calls: usize) -> Run {
    match dice.below(40) {
        0 | 1 => late_run(dice, calls / 4),
        2 | 3 => full_run(dice),
        4..=13 => disciplined_run(dice, calls),
        14..=17 => same_tick_run(dice, calls),
        _ => loose_run(dice, calls),
    }
}

/// The places of the records of this kind.
fn of_kind(records: &[Record], kind: u32) -> Vec<usize> {
    (0..records.len()).filter(|&at| records[at][0] == kind).collect()
}

fn any_leaf(dice: &mut Dice, tree: &Tree) -> u32 {
    dice.pick(&tree.leaves()) as u32
}

/// A class that is not there, or that has children.
fn no_leaf(dice: &mut Dice, tree: &Tree) -> u32 {
    let count = tree.count() as u32;
    let inside = (0..tree.count()).filter(|&class| !tree.is_leaf(class)).collect::<Vec<usize>>();
    let inside = dice.pick(&inside) as u32;
    dice.pick(&[0, inside, inside, count, count + 1, 64, u32::MAX])
}

/// One number of a record is another: one more or less, a neighbour's, or any.
fn change_number(dice: &mut Dice, records: &mut [Record]) {
    let (at, place) = (any_of(dice, records), dice.below(RECORD as u64) as usize);
    let number = records[at][place];
    let beside = [records[at.saturating_sub(1)][place], records[(at + 1).min(records.len() - 1)][place], records[at][(place + 1) % RECORD]];
    records[at][place] = match dice.below(5) {
        0 => number.wrapping_add(1),
        1 => number.wrapping_sub(1),
        2 | 3 => dice.pick(&beside),
        _ => odd_number(dice),
    };
}

/// A record gets another kind, with its class and length or, as kind 3 wants them, without.
fn change_kind(dice: &mut Dice, tree: &Tree, records: &mut [Record]) {
    let at = any_of(dice, records);
    match (dice.below(4), of_kind(records, DEPARTURE), of_kind(records, FOUND_EMPTY)) {
        (0 | 1, sent, _) if !sent.is_empty() => {
            let at = dice.pick(&sent);
            records[at] = [FOUND_EMPTY, records[at][1], 0, 0];
        }
        (2, _, empty) if !empty.is_empty() => {
            let at = dice.pick(&empty);
            records[at] = [DEPARTURE, records[at][1], any_leaf(dice, tree), 500];
        }
        _ => records[at][0] = dice.pick(&[0, 1, 2, 3, 4, 5, 256, u32::MAX]),
    }
}

/// A departure of another packet: of another leaf, or of another length, with its framing too.
fn change_choice(dice: &mut Dice, tree: &Tree, records: &mut [Record]) {
    let sent = of_kind(records, DEPARTURE);
    if sent.is_empty() {
        return;
    }
    let (at, other) = (dice.pick(&sent), dice.pick(&sent));
    match dice.below(4) {
        0 => records[at][2] = any_leaf(dice, tree),
        1 => records[at][3] += dice.pick(&[1, 20, 65_536]),
        2 => records[at][3] = records[other][3],
        _ => (records[at][2], records[at][3]) = (records[other][2], records[other][3]),
    }
}

/// An arrival that is refused: 11, 12 or, with others before it, 13.
fn put_in_arrivals(dice: &mut Dice, tree: &Tree, first: u32, records: &mut Vec<Record>) {
    let at = dice.below(records.len() as u64 + 1) as usize;
    let stamp = if at == 0 { first } else { records[at - 1][1] };
    let leaf = any_leaf(dice, tree);
    let (class, length, times) = match dice.below(4) {
        0 => (no_leaf(dice, tree), 500, 1),
        1 => (no_leaf(dice, tree), 0, 1),
        2 => (leaf, dice.pick(&[0, 9_001, 65_536 + 500, u32::MAX]), 1),
        _ => (leaf, 60, dice.pick(&[1, WAITING_TOP, WAITING_TOP + 1])),
    };
    records.splice(at..at, std::iter::repeat_n([ARRIVAL, stamp, class, length], times));
}

/// A stamp that goes back, or as far ahead as no stamp may.
fn change_stamp(dice: &mut Dice, records: &mut [Record]) {
    let at = any_of(dice, records);
    let back = dice.between(1, 3_000);
    records[at][1] = records[at][1].wrapping_add(dice.pick(&[HALF_ROUND, HALF_ROUND + 1, u32::MAX, back.wrapping_neg(), HALF_ROUND - 1]));
}

/// More records after the last: departures and empty answers, right or wrong.
fn put_at_end(dice: &mut Dice, tree: &Tree, first: u32, records: &mut Vec<Record>) {
    let stamp = records.last().map_or(first, |last| last[1]).wrapping_add(dice.pick(&[0, 1, 20_000, HALF_ROUND - 1]));
    let leaf = any_leaf(dice, tree);
    let length = records.last().map_or(60, |last| last[3]);
    let more = [[FOUND_EMPTY, stamp, 0, 0], [DEPARTURE, stamp, leaf, length], [ARRIVAL, stamp, leaf, 60], [DEPARTURE, stamp, leaf, 60]];
    for _ in 0..dice.between(1, 3) {
        records.push(dice.pick(&more));
    }
}

/// One change, mostly for the worse.
fn disturb(dice: &mut Dice, tree: &Tree, first: u32, records: &mut Vec<Record>) {
    if records.is_empty() {
        return put_at_end(dice, tree, first, records);
    }
    let at = any_of(dice, records);
    match dice.below(20) {
        0..=2 => change_number(dice, records),
        3..=5 => change_kind(dice, tree, records),
        6 | 7 => change_choice(dice, tree, records),
        8 => drop(records.remove(at)),
        9 => records.insert(at, records[at]),
        10 | 11 => {
            let (next, any) = ((at + 1) % records.len(), any_of(dice, records));
            records.swap(at, dice.pick(&[next, any]));
        }
        12..=14 => put_in_arrivals(dice, tree, first, records),
        15 => change_stamp(dice, records),
        _ => put_at_end(dice, tree, first, records),
    }
}

/// The list ends within a record: the last is cut, or a few numbers stand after it.
fn make_short(dice: &mut Dice, numbers: &mut Vec<u32>) {
    if dice.chance(1, 2) {
        numbers.truncate(numbers.len().saturating_sub(dice.between(1, 3) as usize));
    } else {
        let more = dice.between(1, 3) as usize;
        numbers.extend([dice.pick(&[1, 2, 3, 4]), 0, 0].iter().take(more));
    }
}

/// The log of a seed: a run's as it is, or damaged; at times over a damaged tree file or from another first stamp.
pub fn log(seed: u64, calls: usize) -> Log {
    let dice = &mut Dice::new(seed ^ 0x0106_C0DE);
    let run = any_run(dice, calls.max(8));
    let (tree, mut first) = (run.state.history.tree.clone(), run.state.history.first_stamp);
    let mut records = records_of(&run.state.history);
    let mut tree_file = file_of(&tree, dice.pick(&[Order::Big, Order::Big, Order::Little]));
    let name = match dice.below(20) {
        0..=4 => "as it is",
        5 => {
            let number = dice.between(1, 10);
            tree_file = damaged_file(dice, number);
            "over a damaged tree"
        }
        6 => {
            let any = dice.roll() as u32;
            first = first.wrapping_add(dice.pick(&[1, u32::MAX, HALF_ROUND, any]));
            "from another first stamp"
        }
        _ => {
            disturb(dice, &tree, first, &mut records);
            while dice.chance(1, 6) {
                disturb(dice, &tree, first, &mut records);
            }
            "damaged"
        }
    };
    let mut numbers = records.concat();
    if dice.chance(1, 12) {
        make_short(dice, &mut numbers);
    }
    Log { name: name.to_string(), tree_file, first, numbers }
}

// Texts.

/// A word that is no number of 32 bits.
fn bad_word(dice: &mut Dice) -> String {
    dice.pick(&["x", "-1", "+1", "1.", "0x1", "1,", "4294967296", "4294967297", "99999999999999999999999999", "1\0", "1\x0c2", "record", "1x", "\u{feff}3"]).to_string()
}

/// A bad word in the place of a number, or beside one.
fn put_in_bad_word(dice: &mut Dice, words: &mut Vec<String>) {
    let at = dice.below(words.len() as u64 + 1) as usize;
    if at < words.len() && dice.chance(1, 2) {
        words[at] = bad_word(dice);
    } else {
        words.insert(at, bad_word(dice));
    }
}

/// The end of a line, with or without white space and a remark before it.
fn end_of_line(dice: &mut Dice, chatty: u64) -> Vec<u8> {
    let mut end = if dice.chance(chatty, 24) { white_space(dice, chatty) } else { Vec::new() };
    if dice.chance(chatty, 24) {
        end.extend(remark(dice));
    }
    end.extend(if dice.chance(chatty, 32) { &b"\r\n"[..] } else { b"\n" });
    end
}

/// The words of a log with so many of them to a line, more or less, and more lines that say nothing.
fn spelled(dice: &mut Dice, words: &[String]) -> Vec<u8> {
    let chatty = if dice.chance(1, 3) { 0 } else { dice.pick(&[1, 4, 12]) };
    let to_a_line = dice.pick(&[1, 3, RECORD, RECORD, RECORD, RECORD, 8, 50, usize::MAX]);
    let mut text = Vec::new();
    for (place, word) in words.iter().enumerate() {
        text.extend(spelled_word(dice, word, chatty));
        if (place + 1) % to_a_line != 0 && !dice.chance(chatty, 200) {
            text.extend(white_space(dice, chatty));
            continue;
        }
        text.extend(end_of_line(dice, chatty));
        while dice.chance(chatty, 40) {
            text.extend(end_of_line(dice, chatty));
        }
    }
    if dice.chance(1, 3) && text.last() == Some(&b'\n') {
        text.pop();
    }
    text
}

/// The text of a seed's log; at times with a bad word, or a byte that is another.
pub fn log_case(seed: u64, calls: usize) -> LogCase {
    let Log { name, tree_file, first, numbers } = log(seed, calls);
    let dice = &mut Dice::new(seed ^ 0x7E87_0106);
    let mut words: Vec<String> = numbers.iter().map(u32::to_string).collect();
    if dice.chance(1, 10) {
        put_in_bad_word(dice, &mut words);
    }
    let mut text = spelled(dice, &words);
    if dice.chance(1, 16) && !text.is_empty() {
        let at = any_of(dice, &text);
        text[at] = dice.pick(b"\0\n#\t x09-\xff");
    }
    LogCase { name: name.to_string(), tree_file, first, text }
}
