//! Cases: a tree file and a file of calls, or a tree file alone; by seed, by hand, and for the stored corpus.

use super::damage::{damaged_file, edge_files};
use super::dice::Dice;
use super::long::{long_file, long_files};
use super::runs::{disciplined_run, full_run, late_run, loose_run, same_tick_run, Run};
use super::text::{more_text_files, text_files};
use super::trees::{random_tree, tree_a};
use crate::calls::{replay, show_tree};
use crate::curves::Curve;
use crate::file::{file_of, Order};
use crate::lines::Answer;
use crate::logtext::replay_log;
use crate::tree::{Class, Tree};
use std::borrow::Borrow;

/// A tree file and a file of calls, or a tree file alone, to be printed.
pub struct Case {
    pub name: String,
    pub tree_file: Vec<u8>,
    pub calls: Option<Vec<u8>>,
}

impl Case {
    fn new(name: impl Into<String>, tree_file: Vec<u8>, calls: impl Into<Vec<u8>>) -> Case {
        Case { name: name.into(), tree_file, calls: Some(calls.into()) }
    }

    /// What the model answers to it.
    pub fn answer(&self) -> Answer {
        match &self.calls {
            Some(calls) => replay(&self.tree_file, calls),
            None => show_tree(&self.tree_file),
        }
    }

    /// What the model answers to `replay --log`, where there are calls.
    pub fn log(&self) -> Option<Answer> {
        self.calls.as_ref().map(|calls| replay_log(&self.tree_file, calls))
    }

    /// Whether its log is stored too, where there are calls. Of the trees at the edge of each rule few are.
    pub fn log_is_stored(&self) -> bool {
        !self.name.starts_with("edge-") || ["edge-right", "edge-classes-64", "edge-share-1-0"].contains(&self.name.as_str())
    }
}

/// Comments and blank lines here and there, and at times a line that is no call.
fn as_text(dice: &mut Dice, lines: &[String]) -> String {
    let mut text = String::new();
    let chatty = dice.chance(1, 4);
    let broken = if dice.chance(1, 20) { dice.below(lines.len() as u64) as usize } else { lines.len() };
    for (number, line) in lines.iter().enumerate() {
        if chatty && dice.chance(1, 12) {
            text += dice.pick(&["\n", "# a comment\n", "#\n", "# depart 5\n"]);
        }
        if number == broken {
            text += dice.pick(&[
                "leave 5\n", "depart\n", "arrive 1 2\n", "depart 5 6\n", "depart x\n", "arrive 1 -2 3\n", "depart 4294967296\n", "arrive 1 2 99999999999\n",
            ]);
        }
        let tail = if chatty && dice.chance(1, 12) { " # so far" } else { "" };
        text += &format!("{line}{tail}\n");
    }
    text
}

fn case_of_run(dice: &mut Dice, name: &str, run: &Run) -> Case {
    let order = dice.pick(&[Order::Big, Order::Big, Order::Little]);
    let tree_file = file_of(&run.state.history.tree, order);
    Case::new(name, tree_file, as_text(dice, &run.lines))
}

/// Calls that show what was read, should the file be right.
const FEW_CALLS: &str = "start 5\narrive 6 1 500\narrive 6 2 900\ndepart 7\ndepart 8\ndepart 9\n";

fn case_of_damage(dice: &mut Dice, number: u32) -> Case {
    let tree_file = damaged_file(dice, number);
    Case::new(format!("damaged-{number}"), tree_file, FEW_CALLS)
}

/// A file about as long as the longest right one, now and then a much longer one.
fn case_of_long_file(dice: &mut Dice) -> Case {
    let length = if dice.chance(1, 8) { dice.between(60_000, 140_000) } else { dice.between(2_040, 2_100) };
    Case::new("long", long_file(dice, length as usize), FEW_CALLS)
}

/// The case of a seed: mostly runs, now and then a damaged or a long file, seldom a run to the top of the clock.
pub fn case(seed: u64, calls: usize) -> Case {
    let mut dice = Dice::new(seed);
    let dice = &mut dice;
    let calls = calls.max(8);
    let (name, run) = match dice.below(40) {
        0..=7 => {
            let number = dice.between(1, 10);
            return case_of_damage(dice, number);
        }
        8 => ("late", late_run(dice, calls / 4)),
        9 => return case_of_long_file(dice),
        10..=18 => ("link", disciplined_run(dice, calls)),
        19..=22 => ("same-tick", same_tick_run(dice, calls)),
        _ => ("loose", loose_run(dice, calls)),
    };
    let mut case = case_of_run(dice, name, &run);
    if dice.chance(1, 20) {
        case.calls = case.calls.map(|calls| start_misplaced(dice, &calls));
    }
    case
}

/// The calls with a line more, `start` again, or with one of them before it.
fn start_misplaced(dice: &mut Dice, calls: &[u8]) -> Vec<u8> {
    let mut lines: Vec<&[u8]> = calls.split_inclusive(|&byte| byte == b'\n').collect();
    let at = dice.below(lines.len() as u64) as usize;
    let (at, line) = dice.pick(&[(at, &b"start 5\n"[..]), (0, b"depart 5\n"), (0, b"arrive 5 1 60\n")]);
    lines.insert(at, line);
    lines.concat()
}

/// The files at the edge of each rule, each with a few calls.
pub fn edges() -> Vec<Case> {
    let case = |(name, tree_file)| Case::new(format!("edge-{name}"), tree_file, FEW_CALLS);
    edge_files().into_iter().map(case).collect()
}

fn leaf(parent: u32, share: u32, curve: Curve) -> Class {
    Class { parent, share, curve }
}

fn told<Line: Borrow<str>>(name: &str, tree: &Tree, calls: &[Line]) -> Case {
    Case::new(name, file_of(tree, Order::Big), format!("{}\n", calls.join("\n")))
}

/// The situations of the document's example table, with each departure at the first tick at which the link is free.
fn rows() -> Vec<Case> {
    let a = tree_a();
    let both = ["start 0", "arrive 0 1 500", "arrive 0 2 1000", "depart 0", "depart 520"];
    vec![
        told("row-5000", &a, &[&both[..], &["arrive 5000 1 500", "depart 5000"]].concat()),
        told("row-600", &a, &[&both[..], &["arrive 600 1 500", "depart 600"]].concat()),
        told("row-again", &a, &["start 0", "arrive 0 2 1000", "depart 0", "arrive 1000 2 1000", "depart 1000"]),
        told("row-three", &a, &["start 0", "arrive 0 1 500", "arrive 0 1 500", "arrive 0 1 500", "depart 0", "depart 520", "depart 1040"]),
        told("row-active", &a, &[&both[..], &["arrive 600 2 1000", "arrive 600 1 500", "depart 600", "depart 600", "depart 600"]].concat()),
        told("row-round", &a, &["start 4294967290", "depart 10", "arrive 10 1 500", "depart 2147483658", "depart 2147483657"]),
    ]
}

/// Runs on which a wrong reading of marks and virtual times shows.
fn marks() -> Vec<Case> {
    let plain = leaf(0, 65_536, Curve::None);
    let even = Tree::under_root(&[plain, plain, plain]);
    let kept = Tree::under_root(&[plain, plain, leaf(0, 65_536, Curve::Straight { m: 65_536 }), plain]);
    let thirds = Tree::under_root(&[leaf(0, 49_152, Curve::None), plain]);
    vec![
        // Virtual times 100 and 101, of packets of 80 and 81: half, rounded down, is 100, and leaf 1 has the lowest number there.
        told("mark-half", &even, &[
            "start 0", "arrive 0 2 80", "arrive 0 3 81", "arrive 0 2 50", "arrive 0 3 50", "depart 0", "depart 0", "arrive 0 1 10", "depart 0", "depart 0",
        ]),
        // The mark is 500 when leaf 4 starts; it does not fall back when leaf 1 starts, though the others ask for less.
        told("mark-kept", &kept, &[
            "start 0", "arrive 0 2 80", "arrive 0 2 80", "arrive 0 2 80", "arrive 0 2 80", "arrive 0 2 80", "arrive 0 2 80", "arrive 0 3 980",
            "depart 0", "arrive 0 3 1", "arrive 0 4 10", "depart 0", "depart 1000", "arrive 1000 1 10", "depart 1000", "depart 1000", "depart 1000", "depart 1000",
            "depart 1000", "depart 1000", "depart 1000", "depart 1000",
        ]),
        // Leaf 1 alone turns active at its own last virtual time, 30, which was rounded up from 4·22/3.
        told("mark-own", &thirds, &[
            "start 0", "arrive 0 1 2", "depart 0", "arrive 0 1 2", "arrive 0 1 2", "arrive 0 2 2", "arrive 0 2 2", "depart 0", "depart 0", "depart 0", "depart 0",
        ]),
    ]
}

/// Runs told by hand.
pub fn by_hand() -> Vec<Case> {
    rows().into_iter().chain(marks()).collect()
}

/// A leaf of the lowest rate, which sends 9,000 bytes as soon as it may, eight times, until the first 2^32 ticks are over, and once more then: its
/// pieces are level with one another all along, and the stamp comes round.
fn rate_past_32_bits() -> Case {
    let tree = Tree::under_root(&[leaf(0, 1, Curve::Straight { m: 1 })]);
    let mut calls = vec!["start 0".to_string()];
    for turn in 0..8u64 {
        let now = turn * 9_020 * 65_536;
        calls.extend([format!("arrive {now} 1 9000"), format!("depart {now}")]);
    }
    calls.extend(["arrive 100 1 500".to_string(), "depart 100".to_string()]);
    told("rate-past-32-bits", &tree, &calls)
}

/// Leaf 1, of the lowest share, has sent far more than leaf 2 when it turns active again, at a mark past 2^32: its first fair piece still counts.
fn share_past_32_bits() -> Case {
    let tree = Tree::under_root(&[leaf(0, 1, Curve::Straight { m: 65_536 }), leaf(0, 1, Curve::None)]);
    let mut calls = vec!["start 0".to_string()];
    calls.extend((0..10).map(|_| "arrive 0 2 9000".to_string()));
    calls.extend((0..15).map(|_| "arrive 0 1 9000".to_string()));
    calls.extend((0..15).map(|turn| format!("depart {}", 9_020 * turn)));
    calls.extend((0..8).map(|_| "depart 126280".to_string()));
    calls.push("arrive 126280 1 100".to_string());
    calls.extend((0..4).map(|_| "depart 126281".to_string()));
    told("share-past-32-bits", &tree, &calls)
}

/// More answers than a program can hold back in 65,536 bytes.
fn long_answers() -> Case {
    let mut calls = vec!["start 0".to_string()];
    for _ in 0..800 {
        calls.extend(["arrive 0 1 1".to_string(), "depart 0".to_string()]);
    }
    told("long-answers", &tree_a(), &calls)
}

/// More of them. They stand last in the corpus, so that the other cases keep their numbers.
pub fn more_by_hand() -> Vec<Case> {
    let thirds = Tree::under_root(&[leaf(0, 3, Curve::None), leaf(1, 1, Curve::None), leaf(1, 1, Curve::None), leaf(0, 1, Curve::None)]);
    vec![
        // Class 1 is active when its leaf 2 turns active again: only a class that was passive gets a new start.
        told("ancestor-active", &thirds, &[
            "start 0", "arrive 0 4 100", "arrive 0 2 100", "arrive 0 3 100", "depart 0", "arrive 0 4 100", "depart 0", "arrive 0 2 100", "depart 0", "depart 0",
        ]),
        rate_past_32_bits(),
        share_past_32_bits(),
        long_answers(),
    ]
}

/// Runs on which it shows where framing counts and where it does not (request 2). They stand last in the corpus.
pub fn framed() -> Vec<Case> {
    let a = tree_a();
    let plain = leaf(0, 65_536, Curve::None);
    let even = Tree::under_root(&[plain, plain]);
    let whole = Tree::under_root(&[plain, leaf(0, 65_536, Curve::Straight { m: 65_536 })]);
    let small_and_large: Vec<String> = ["start 0"].into_iter().chain(["arrive 0 1 1"; 60]).chain(["arrive 0 2 1000"; 3]).chain(["depart 0"; 63]).map(String::from).collect();
    vec![
        // At 01's own ticks the third packet is not eligible yet.
        told("framed-row-three", &a, &["start 0", "arrive 0 1 500", "arrive 0 1 500", "arrive 0 1 500", "depart 0", "depart 500", "depart 1000"]),
        // By the fair rule, packets of a byte count for 21 each and those of 1,000 for 1,020.
        told("framed-fair", &even, &small_and_large),
        // The longest packet is of 9,000 bytes still, and leaves with its length.
        told("framed-lengths", &a, &["start 0", "arrive 0 1 9000", "arrive 0 1 9001", "arrive 0 2 8981", "arrive 0 2 9020", "depart 0", "depart 9001", "depart 18021"]),
        // By the real-time rule: each packet of a byte is due 21 ticks after the one before.
        told("framed-real-time", &whole, &[
            "start 0", "arrive 0 2 1", "arrive 0 2 1", "arrive 0 2 1", "arrive 0 1 1", "depart 0", "depart 20", "depart 21", "depart 42", "depart 63",
        ]),
        // A packet leaves in full 9,020 ticks after its deadline.
        told("framed-latest", &whole, &["start 0", "arrive 0 1 9000", "depart 0", "arrive 0 2 1500", "depart 9020", "depart 10540"]),
    ]
}

fn texts_of(files: Vec<(&'static str, Vec<u8>)>) -> Vec<Case> {
    let tree_file = file_of(&tree_a(), Order::Big);
    files.into_iter().map(|(name, calls)| Case::new(format!("text-{name}"), tree_file.clone(), calls)).collect()
}

/// Files of calls at the edge of each rule on lines.
pub fn texts() -> Vec<Case> {
    texts_of(text_files())
}

/// More of them, which stand last in the corpus.
pub fn more_texts() -> Vec<Case> {
    texts_of(more_text_files())
}

/// Tree files to be printed alone: right ones, and some for each refusal.
fn trees_alone(dice: &mut Dice) -> Vec<Case> {
    let mut files: Vec<(String, Vec<u8>)> = Vec::new();
    for (name, order) in [("big", Order::Big), ("little", Order::Little)] {
        files.push((format!("a-{name}"), file_of(&tree_a(), order)));
        files.push((format!("any-{name}"), file_of(&random_tree(dice), order)));
    }
    let told = ["smallest", "count-65", "classes-64", "depth-8", "depth-9", "inside-1", "fit-one-part-over", "root-with-curve", "length-2-long"];
    files.extend(edge_files().into_iter().filter(|(name, _)| told.contains(&name.as_str())));
    for number in 1..=10 {
        files.push((format!("damaged-{number}"), damaged_file(dice, number)));
    }
    files.into_iter().map(|(name, tree_file)| Case { name: format!("alone-{name}"), tree_file, calls: None }).collect()
}

/// Tree files about as long as the longest right one, and longer, to be printed alone. They stand last in the corpus.
pub fn longs() -> Vec<Case> {
    long_files().into_iter().map(|(name, tree_file)| Case { name, tree_file, calls: None }).collect()
}

/// The cases of the stored corpus: some of each sort.
pub fn corpus(seed: u64) -> Vec<Case> {
    let mut dice = Dice::new(seed);
    let dice = &mut dice;
    let mut cases = by_hand();
    cases.extend(edges());
    for number in 1..=10 {
        cases.push(case_of_damage(dice, number));
    }
    for _ in 0..14 {
        let run = loose_run(dice, 120);
        cases.push(case_of_run(dice, "loose", &run));
    }
    for _ in 0..8 {
        let run = disciplined_run(dice, 120);
        cases.push(case_of_run(dice, "link", &run));
    }
    for _ in 0..4 {
        let run = same_tick_run(dice, 80);
        cases.push(case_of_run(dice, "same-tick", &run));
    }
    let (late, full) = (late_run(dice, 30), full_run(dice));
    cases.push(case_of_run(dice, "late", &late));
    cases.push(case_of_run(dice, "full", &full));
    cases.extend(texts());
    cases.extend(trees_alone(dice));
    cases.extend(more_by_hand());
    cases.extend(more_texts());
    cases.extend(longs());
    cases.extend(framed());
    cases
}

/// The sort of a printed line, for counts of what was seen.
pub fn sort_of_answer(line: &str) -> String {
    let words: Vec<&str> = line.split(' ').collect();
    match words[..] {
        ["refused", number, "class", _] => format!("tree refused {number}"),
        ["refused", _] | ["none", "waits"] | ["our", "rules:", "none", "waits"] => line.to_string(),
        ["our", "rules:", "packet", ..] => "our rules: packet".to_string(),
        ["accepted", _, "records"] => "accepted records".to_string(),
        ["record", _, ref why @ ..] => format!("record {}", why.join(" ")),
        [kind @ ("1" | "2" | "3"), _, _, _] => format!("log record of kind {kind}"),
        ["judge", answer, ..] => format!("judge {answer}"),
        [step @ ("end" | "start"), number, "class", ..] => format!("{step} {number}"),
        ["packet", .., "rule", "fair"] => "fair without curve".to_string(),
        ["packet", .., "rule", rule, "eligible", _, "deadline", _] => rule.to_string(),
        ["line", _, "class", _, "comes", "next"] => "class comes next".to_string(),
        ["line", _, ref why @ ..] => why.join(" "),
        [first, ..] => first.to_string(),
        [] => String::new(),
    }
}

