//! Logs told by hand, at the edge of each sentence of request 4 and of each rule on their text. Most are over tree A, from the stamp 0.

use super::damage::edge_files;
use super::logs::{log, log_case, Log, LogCase};
use super::trees::tree_a;
use crate::calls::HALF_ROUND;
use crate::curves::Curve;
use crate::file::{file_of, Order};
use crate::tree::{Class, Tree};

/// A packet waits in leaf 1, and one in each leaf.
const WAITS: &str = "1 0 1 500\n";
const BOTH_WAIT: &str = "1 0 1 500\n1 0 2 1000\n";
/// Both leave as soon as the link is free, and then none waits.
const BOTH: &str = "1 0 1 500\n1 0 2 1000\n2 0 1 500\n2 520 2 1000\n3 1540 0 0\n";
const THREE_WAIT: &str = "1 0 1 500\n1 0 1 500\n1 0 1 500\n";

type Told = (&'static str, Vec<u8>);

/// A case over tree A from the stamp 0.
fn of_tree_a((name, text): Told) -> LogCase {
    over(name, &tree_a(), 0, text)
}

fn over(name: &str, tree: &Tree, first: u32, text: impl Into<Vec<u8>>) -> LogCase {
    LogCase { name: name.to_string(), tree_file: file_of(tree, Order::Big), first, text: text.into() }
}

fn texts<const N: usize>(told: [(&'static str, &str); N]) -> Vec<Told> {
    told.into_iter().map(|(name, text)| (name, text.into())).collect()
}

/// Records one after another.
fn after(before: &str, record: &str) -> String {
    format!("{before}{record}\n")
}

fn accepted() -> Vec<Told> {
    texts([
        ("empty", ""),
        ("blank", "\n\n \t\n\r\n"),
        ("comments", "# a log of nothing\n#\n # 1 0 1 500\n#x"),
        ("one-arrival", WAITS),
        ("one-empty", "3 0 0 0\n"),
        ("both", BOTH),
        ("three", &format!("{THREE_WAIT}2 0 1 500\n2 520 1 500\n2 1040 1 500\n3 1560 0 0\n")),
        ("same-tick", &format!("{BOTH_WAIT}2 0 1 500\n2 0 2 1000\n3 0 0 0\n3 0 0 0\n")),
        ("lengths", "1 0 1 1\n1 0 2 9000\n2 0 1 1\n2 21 2 9000\n3 9041 0 0\n"),
        ("elapsed-longest", "3 2147483647 0 0\n3 4294967294 0 0\n3 2147483645 0 0\n"),
        ("not-to-the-end", &after(BOTH_WAIT, "2 0 1 500")),
    ])
}

/// A record that is malformed alone, whatever waits.
fn malformed() -> Vec<Told> {
    let kinds = [
        ("kind-0", "0 0 1 500"), ("kind-0-zeros", "0 0 0 0"), ("kind-4", "4 0 0 0"), ("kind-4-as-departure", "4 0 1 500"), ("kind-257", "257 0 1 500"), ("kind-65538", "65538 0 1 500"),
        ("kind-2-and-high-bit", "2147483650 0 1 500"), ("kind-largest", "4294967295 0 1 500"),
        ("empty-with-class", "3 0 1 0"), ("empty-with-length", "3 0 0 500"), ("empty-with-both", "3 0 1 500"), ("empty-with-largest-class", "3 0 4294967295 0"),
        ("empty-with-high-length", "3 0 0 65536"),
    ];
    let mut told: Vec<Told> = kinds.map(|(name, record)| (name, after(WAITS, record).into())).to_vec();
    told.extend(texts([
        ("first-malformed", "0 0 0 0\n3 0 0 0\n"),
        ("empty-with-class-none-waits", "3 0 1 0\n"),
        ("empty-with-length-none-waits", "3 0 0 1\n"),
        ("malformed-twice", &format!("{WAITS}4 0 0 0\n5 0 0 0\n")),
        ("short-1-alone", "1"),
        ("short-2-alone", "3 0\n"),
        ("short-3-alone", "3 0 0\n"),
        ("short-1", &after(BOTH, "1")),
        ("short-2", &after(BOTH, "1 1540")),
        ("short-3", &after(BOTH, "1 1540 1")),
        ("short-of-no-kind", &after(BOTH, "9 9")),
        ("short-after-malformed", &format!("{WAITS}7 0 0 0\n1 0\n")),
        ("short-after-refused", &format!("{WAITS}1 0 0 500\n1 0\n")),
        ("short-after-choice", &format!("{WAITS}3 0 0 0\n1 0\n")),
    ]));
    told
}

fn refused() -> Vec<Told> {
    let full = WAITS.repeat(64);
    texts([
        ("11-root", "1 0 0 500\n"),
        ("11-absent", &after(BOTH, "1 1540 3 500")),
        ("11-largest", "1 0 4294967295 500\n"),
        ("11-high-byte", "1 0 257 500\n"),
        ("12-of-0", &after(WAITS, "1 0 1 0")),
        ("12-of-9001", &after(WAITS, "1 0 2 9001")),
        ("12-largest", "1 0 1 4294967295\n"),
        ("12-high-byte", "1 0 1 66036\n"),
        ("13-the-65th", &after(&full, "1 0 1 500")),
        ("13-at-the-last", &format!("{full}2 0 1 500\n1 0 1 60\n1 0 1 60\n")),
        ("14-arrival-back", "3 100 0 0\n1 99 1 500\n"),
        ("14-departure-back", "1 100 1 500\n2 99 1 500\n"),
        ("14-empty-back", "3 100 0 0\n3 99 0 0\n"),
        ("14-before-the-first", "1 4294967295 1 500\n"),
        ("14-half-round", "3 2147483648 0 0\n"),
        ("14-then-11-12", "3 100 0 0\n1 99 9 0\n"),
        ("11-then-12", "1 0 9 0\n"),
        ("12-then-13", &after(&full, "1 0 1 9001")),
        ("refused-twice", "1 0 1 9001\n1 0 9 1\n"),
        ("refused-then-right", "1 0 1 0\n1 0 1 500\n2 0 1 500\n"),
    ])
}

fn another_choice() -> Vec<Told> {
    texts([
        ("class-other", &after(BOTH_WAIT, "2 0 2 1000")),
        ("class-other-same-length", &format!("{WAITS}1 0 2 500\n2 0 2 500\n")),
        ("class-absent", &after(BOTH_WAIT, "2 0 3 500")),
        ("class-largest", &after(BOTH_WAIT, "2 0 4294967295 500")),
        ("class-root", &after(WAITS, "2 0 0 500")),
        ("class-high-byte", &after(WAITS, "2 0 257 500")),
        ("class-high-half", &after(WAITS, "2 0 65537 500")),
        ("length-one-more", &after(WAITS, "2 0 1 501")),
        ("length-one-less", &after(WAITS, "2 0 1 499")),
        ("length-framed", &after(WAITS, "2 0 1 520")),
        ("length-0", &after(WAITS, "2 0 1 0")),
        ("length-high-byte", &after(WAITS, "2 0 1 66036")),
        ("length-of-the-other", &after(BOTH_WAIT, "2 0 1 1000")),
        ("length-of-the-next", "1 0 1 500\n1 0 1 501\n2 0 1 501\n"),
        ("departure-zeros", &after(WAITS, "2 0 0 0")),
        ("none-waits-at-first", "2 0 1 500\n"),
        ("none-waits-zeros", "2 0 0 0\n"),
        ("none-waits-any-more", &after(BOTH, "2 1540 2 1000")),
        ("packet-waits", &after(WAITS, "3 0 0 0")),
        ("packet-waits-fair", &format!("{THREE_WAIT}2 0 1 500\n3 520 0 0\n")),
        ("packet-waits-real-time", &format!("{THREE_WAIT}2 0 1 500\n2 520 1 500\n3 1040 0 0\n")),
        ("too-early", &format!("{BOTH_WAIT}2 0 1 500\n3 519 0 0\n")),
        ("choice-twice", &format!("{WAITS}2 0 2 500\n2 0 2 501\n")),
        ("choice-then-right", &format!("{WAITS}3 0 0 0\n2 0 1 500\n")),
    ])
}

/// The order of faults: of records, and within one.
fn orders() -> Vec<Told> {
    texts([
        ("malformed-and-14", "1 100 1 500\n4 99 1 500\n"),
        ("empty-malformed-and-14", "1 100 1 500\n3 99 1 0\n"),
        ("empty-malformed-and-choice", &after(WAITS, "3 0 0 1")),
        ("departure-14-and-choice", "1 100 1 500\n2 99 2 1\n"),
        ("empty-14-and-choice", "1 100 1 500\n3 99 0 0\n"),
        ("refused-then-malformed", "1 0 0 1\n0 0 0 0\n"),
        ("choice-then-refused", "2 0 1 1\n1 0 0 1\n"),
        ("choice-then-malformed", "2 0 1 1\n0 0 0 0\n"),
        ("malformed-then-refused", "0 0 0 0\n1 0 0 1\n"),
    ])
}

/// What may be spelled in another way.
fn spellings() -> Vec<Told> {
    let mut told = texts([
        ("one-line", &BOTH.replace('\n', " ")),
        ("one-line-and-its-end", &(BOTH.trim_end().replace('\n', " ") + "\n")),
        ("number-a-line", &BOTH.replace(' ', "\n")),
        ("records-over-lines", &BOTH.replace("1000\n", "1000 ").replace("0 2", "0\n\n2")),
        ("no-last-end", BOTH.trim_end()),
        ("carriage-returns", &BOTH.replace('\n', "\r\n")),
        ("carriage-returns-alone", &BOTH.replace([' ', '\n'], "\r")),
        ("tabs", &BOTH.replace(' ', "\t\t").replace('\n', "\t\n\t")),
        ("comments-after", &BOTH.replace('\n', " # so\n")),
        ("comments-joined", &BOTH.replace('\n', "#x\n")),
        ("comments-within", &BOTH.replace(' ', " # 9 x\n")),
        ("comment-with-words", "# record -1 4294967296 x\n3 0 0 0#-1\n"),
        ("comment-last", &format!("{BOTH}# 1 2 3")),
        ("comment-joined-12", "3 12#x\n0 0\n"),
        ("comment-first-byte", "#3 0 0 0\n3 0 0 0\n"),
        ("zeros", &BOTH.trim_end().replace(' ', " 000").replace('\n', "\n0000000000000000000000")),
        ("zeros-and-largest", "3 0000000000002147483647 0 0\n"),
        ("largest", "3 4294967295 0 0\n"),
        ("white-space-before", &format!(" \t\r\n{BOTH} \t")),
    ]);
    told.push(("comment-high-bytes", b"3 0 0 # \xff\xc3(\0\x0b\n0".to_vec()));
    told
}

/// Words that are no number, and which line they are on.
fn bad_words() -> Vec<Told> {
    let words = [
        ("letter", "x"), ("letters", "three"), ("minus", "-1"), ("minus-0", "-0"), ("plus", "+1"), ("point", "1.0"), ("comma", "1,"), ("hexadecimal", "0x1"), ("exponent", "1e3"),
        ("digit-and-letter", "1x"), ("letter-and-digit", "x1"), ("past-32-bits", "4294967296"), ("past-32-bits-by-10", "42949672950"), ("past-64-bits", "18446744073709551617"),
        ("past-with-zeros", "00000000004294967296"), ("past-and-comment", "4294967296#x"), ("letter-and-comment", "x#1"), ("zero-byte", "1\0"), ("zero-byte-alone", "\0"),
        ("form-feed", "\x0c"), ("vertical-tab", "1\x0b1"), ("quote", "'1'"), ("other-digits", "\u{0661}"), ("no-break-space", "1\u{a0}"),
    ];
    let mut told: Vec<Told> = words.map(|(name, word)| (name, format!("3 0 0 0\n\n3 {word} 0 0\n").into())).to_vec();
    told.push(("past-many-digits", format!("3 0 0 0\n3 {} 0 0\n", "9".repeat(300)).into()));
    told.push(("byte-order-mark", format!("\u{feff}{BOTH}").into()));
    told.push(("high-byte", b"3 0 0 0\n\xff\n".to_vec()));
    told.extend(texts([
        ("bad-alone", "x"),
        ("bad-first", "record 3 0 0 0\n"),
        ("bad-on-line-5", "# a log\n\n3 0 0 0\r\n\r\nx"),
        ("bad-after-carriage-returns", "3 0 0 0\r\r\r x\n"),
        ("bad-second", "3 0 0 0\n3 x 0 0\n"),
        ("bad-third", "3 0 0 0\n3 0 x 0\n"),
        ("bad-fourth", "3 0 0 0\n3 0 0\nx\n"),
        ("bad-at-end", &format!("{BOTH}x")),
        ("bad-after-short", "3 0 0 0\n3 0\n\nx\n"),
        ("bad-after-malformed", "3 0 0 0\n4 0 0 0\nx\n"),
        ("bad-after-malformed-joined", "4 0 0 0x\n"),
        ("bad-after-refused", "1 0 0 500\nx\n"),
        ("bad-after-choice", "2 0 1 500\nx\n"),
        ("bad-in-malformed", "3 0 0 0\n4 0 0 x\n"),
        ("bad-in-refused", "1 0 0 x\n"),
        ("bad-in-choice", "2 0 1\nx\n"),
        ("bad-then-malformed", "3 0 0 0\nx\n4 0 0 0\n"),
        ("bad-twice", "3 0 0 0\nx\ny\n"),
        ("bad-same-line-as-malformed", "4 0 0 0 x\n"),
    ]));
    told
}

/// Stamps of 512 empty answers, each as far from the one before as can be: the clock is then 512 ticks before its top.
fn near_the_top() -> (String, u32) {
    let stamp = |turn: u32| turn.wrapping_mul(HALF_ROUND - 1);
    ((1..=512).map(|turn| format!("3 {} 0 0\n", stamp(turn))).collect(), stamp(512))
}

/// The top of the clock, and one past it.
fn about_the_top() -> Vec<Told> {
    let (before, last) = near_the_top();
    let (top, past) = (last.wrapping_add(512), last.wrapping_add(513));
    texts([
        ("to-the-top", &format!("{before}1 {top} 1 500\n2 {top} 1 500\n3 {top} 0 0\n")),
        ("15-arrival", &after(&before, &format!("1 {past} 1 500"))),
        ("15-departure", &after(&before, &format!("2 {past} 1 500"))),
        ("15-empty", &after(&before, &format!("3 {past} 0 0"))),
        ("15-then-11-12", &after(&before, &format!("1 {past} 9 0"))),
        ("15-and-malformed", &after(&before, &format!("3 {past} 0 1"))),
        ("15-after-the-top", &format!("{before}3 {top} 0 0\n3 {past} 0 0\n")),
    ])
}

fn class(parent: u32, share: u32, curve: Curve) -> Class {
    Class { parent, share, curve }
}

/// Other trees and other first stamps.
fn elsewhere() -> Vec<LogCase> {
    let plain = class(0, 65_536, Curve::None);
    let even = Tree::under_root(&[plain, plain]);
    let inside = Tree::under_root(&[class(0, 3, Curve::None), class(1, 1, Curve::None), class(1, 1, Curve::None), class(0, 1, Curve::None)]);
    let first = 4_294_967_290;
    vec![
        over("round", &tree_a(), first, "1 4294967294 1 500\n2 10 1 500\n3 530 0 0\n"),
        over("round-back", &tree_a(), first, "3 10 0 0\n3 4294967295 0 0\n"),
        over("round-before-the-first", &tree_a(), first, "3 4294967289 0 0\n"),
        over("round-longest", &tree_a(), first, "3 2147483641 0 0\n"),
        over("round-half", &tree_a(), first, "3 2147483642 0 0\n"),
        over("another-first", &tree_a(), 1, BOTH),
        over("fair-without-curve", &even, 0, "1 0 1 60\n1 0 2 60\n2 0 2 60\n"),
        over("fair-in-turn", &even, 0, "1 0 1 60\n1 0 1 60\n1 0 2 60\n2 0 1 60\n2 80 1 60\n"),
        over("inside", &inside, 7, "1 7 4 100\n1 7 2 100\n1 7 3 100\n2 7 2 100\n1 7 4 100\n2 127 4 100\n1 127 2 100\n2 247 3 100\n"),
        over("inside-11", &inside, 7, "1 7 2 100\n1 7 1 100\n"),
        over("inside-chosen", &inside, 7, "1 7 2 100\n2 7 1 100\n"),
    ]
}

/// Tree files that are refused, with logs of all sorts: none of them is looked at.
fn refused_trees() -> Vec<LogCase> {
    let wanted = [
        ("bytes-15", BOTH), ("mark-mixed", ""), ("version-2", "x"), ("count-65", "1"), ("total-more", "4 0 0 0\n"), ("length-2-long", "1 0 1 0\n"), ("share-1-0", "3 0 0"), ("depth-9", "2 0 1 1\n"),
        ("inside-1", "4294967296"), ("fit-one-part-over", "# nothing"), ("bytes-0", "3 0\n"),
    ];
    let files = edge_files();
    let case = |(name, text): (&str, &str)| {
        let (_, tree_file) = files.iter().find(|(of, _)| of == name).expect("there is such a file").clone();
        LogCase { name: format!("tree-{name}"), tree_file, first: 0, text: text.into() }
    };
    wanted.into_iter().map(case).collect()
}

/// The logs told by hand. New ones stand last, so that the others keep their numbers.
pub fn logs_by_hand() -> Vec<LogCase> {
    let of_a = [accepted(), malformed(), refused(), another_choice(), orders(), spellings(), bad_words(), about_the_top()].concat();
    of_a.into_iter().map(of_tree_a).chain(elsewhere()).chain(refused_trees()).collect()
}

/// Those of the stored corpus: and short ones at random.
pub fn log_corpus() -> Vec<LogCase> {
    let short = |case: &LogCase| (40..2_000).contains(&case.text.len());
    let random = (0..).map(|seed| log_case(seed, 30)).filter(short).take(24);
    logs_by_hand().into_iter().chain(random.map(|case| LogCase { name: format!("any-{}", case.name.replace(' ', "-")), ..case })).collect()
}

/// The stored scripts for `judge.c`: the logs by hand that are all numbers, and short ones at random.
pub fn log_scripts() -> Vec<Log> {
    let random = (1_000..).map(|seed| log(seed, 30)).filter(|log| log.script().len() < 4_000).take(24);
    let random = random.map(|log| Log { name: format!("any-{}", log.name.replace(' ', "-")), ..log });
    logs_by_hand().iter().filter_map(LogCase::as_numbers).chain(random).collect()
}
