//! Scripts for the reader that takes a file in bursts: files of all sorts cut at random places, and scripts told by hand.

use super::damage::{damaged_file, edge_files};
use super::dice::Dice;
use super::long::{file_of_bodies, long_file, longest_bodies, longest_with, ROOT_OF_24};
use super::trees::{any_tree, tree_a};
use crate::bursts::{answers, Step, COUNT_TOP, KEPT};
use crate::curves::Curve;
use crate::file::{body_words, file_of, Order};
use crate::tree::{Class, ROOT};

/// A script, which begins with `begin`.
pub struct Script {
    pub name: String,
    pub steps: Vec<Step>,
}

impl Script {
    pub fn text(&self) -> String {
        self.steps.iter().map(|step| format!("{step}\n")).collect()
    }

    /// What the model answers, a line a step.
    pub fn answer(&self) -> String {
        answers(&self.steps)
    }
}

// At random.

fn any_order(dice: &mut Dice) -> Order {
    dice.pick(&[Order::Big, Order::Little])
}

fn any_bytes(dice: &mut Dice, length: u64) -> Vec<u8> {
    (0..length).map(|_| dice.below(256) as u8).collect()
}

/// A file and its sort.
fn any_file(dice: &mut Dice) -> (&'static str, Vec<u8>) {
    match dice.below(16) {
        0..=2 => ("right", file_of(&any_tree(dice), any_order(dice))),
        3..=6 => {
            let number = dice.between(1, 10);
            ("damaged", damaged_file(dice, number))
        }
        7 => {
            let length = dice.pick(&[0, 1, 15, 16, 17, 60, 300, 2_052, 2_053]);
            ("random", any_bytes(dice, length))
        }
        8..=13 => {
            let length = dice.between(2_040, 2_100) as usize;
            let length = if dice.chance(1, 2) { length.min(2_064) / 4 * 4 } else { length };
            ("near", long_file(dice, length))
        }
        14 => ("long", long_file(dice, 65_536)),
        _ => {
            let length = dice.between(2_101, 100_000) as usize;
            ("longer", long_file(dice, length))
        }
    }
}

/// A burst; of zeros it may be told by its length.
fn burst(dice: &mut Dice, bytes: &[u8]) -> Step {
    let zeros = !bytes.is_empty() && bytes.iter().all(|&byte| byte == 0);
    if zeros && dice.chance(1, 2) {
        Step::Zeros { bytes: bytes.len() as u64, times: 1 }
    } else {
        Step::Offer(bytes.to_vec())
    }
}

/// A file cut into bursts, empty ones among them: at two places, perhaps where the kept bytes end; byte by byte; or anywhere.
fn cut(dice: &mut Dice, file: &[u8]) -> Vec<Step> {
    let length = file.len() as u64;
    let mut places: Vec<u64> = match dice.below(6) {
        0 => (0..2).map(|_| dice.pick(&[0, 4, 15, 16, KEPT - 1, KEPT, KEPT + 1, length])).collect(),
        1 if length <= 300 || length <= 2_100 && dice.chance(1, 4) => (0..length).collect(),
        2 => (0..20).map(|_| KEPT.saturating_sub(10) + dice.below(20)).collect(),
        3 => vec![],
        _ => (0..dice.between(1, 30)).map(|_| dice.below(length + 1)).collect(),
    };
    places.extend([0, length]);
    places.iter_mut().for_each(|place| *place = (*place).min(length));
    places.sort_unstable();
    if dice.chance(1, 2) {
        places.dedup();
    }
    places.windows(2).map(|ends| burst(dice, &file[ends[0] as usize..ends[1] as usize])).collect()
}

/// The end, told in either way.
fn end(dice: &mut Dice) -> Step {
    if dice.chance(2, 3) { Step::End } else { Step::Start { stamp: dice.roll() as u32 } }
}

/// What may come after the end.
fn afterwards(dice: &mut Dice, file: &[u8]) -> Step {
    match dice.below(5) {
        0 => Step::Offer(vec![]),
        1 => Step::Zeros { bytes: dice.below(3_000), times: dice.below(3) + 1 },
        2 => Step::Offer(file[..file.len().min(100)].to_vec()),
        3 => {
            let length = dice.between(1, 20);
            Step::Offer(any_bytes(dice, length.into()))
        }
        _ => end(dice),
    }
}

/// The script of a seed: a file in bursts, its end, more after the end, perhaps a part of it, and then the file again, cut in another way.
pub fn script(seed: u64) -> Script {
    let dice = &mut Dice::new(seed ^ 0xB025_7500);
    let (name, file) = any_file(dice);
    let mut steps = vec![Step::Begin];
    steps.extend(cut(dice, &file));
    steps.push(end(dice));
    for _ in 0..dice.below(5) {
        steps.push(afterwards(dice, &file));
    }
    steps.push(Step::Begin);
    if dice.chance(1, 4) {
        let part = dice.below(file.len() as u64 + 1) as usize;
        steps.extend(cut(dice, &file[..part]));
        steps.push(Step::Begin);
    }
    steps.extend(cut(dice, &file));
    steps.push(end(dice));
    Script { name: name.to_string(), steps }
}

// By hand.

/// A file whole, its end, and a start.
fn whole(name: &str, file: &[u8]) -> Script {
    told(name, &[Step::Offer(file.to_vec()), Step::End, Step::Start { stamp: 5 }])
}

fn told(name: &str, steps: &[Step]) -> Script {
    Script { name: name.to_string(), steps: [&[Step::Begin], steps].concat() }
}

fn offer(bytes: &[u8]) -> Step {
    Step::Offer(bytes.to_vec())
}

/// The smallest straight tree's file, 60 bytes, with this total stated.
fn smallest(total: u32, order: Order) -> Vec<u8> {
    let leaf = Class { parent: 0, share: 65_536, curve: Curve::Straight { m: 65_536 } };
    file_of_bodies(&[body_words(&ROOT), body_words(&leaf)], &[(3, total)], 60, order)
}

/// A file drawn out with zeros to so many bytes, many more than it has, in bursts of 2^20.
fn drawn_out(file: &[u8], length: u64) -> Vec<Step> {
    let (most, zeros) = (1 << 20, length - file.len() as u64);
    vec![offer(file), Step::Zeros { bytes: zeros % most, times: 1 }, Step::Zeros { bytes: most, times: zeros / most }]
}

/// Lengths at which a count of 32 bits would come round.
fn past_32_bits() -> Vec<Script> {
    let wide = |total: u32| file_of_bodies(&longest_with(0, ROOT_OF_24), &[(3, total)], 2_064, Order::Little);
    let of = |name: &str, file: &[u8], length: u64, after: &[Step]| told(name, &[&drawn_out(file, length)[..], after].concat());
    let ended = [Step::End, Step::Start { stamp: 5 }];
    let more = [Step::Zeros { bytes: 1, times: 3 }, offer(&[7]), offer(&[]), Step::End, offer(&[7; 60]), Step::Zeros { bytes: 1 << 20, times: 2 }, Step::End];
    vec![
        of("round-and-60", &smallest(60, Order::Big), COUNT_TOP + 60, &ended),
        of("round-and-60-little", &smallest(60, Order::Little), COUNT_TOP + 60, &ended),
        of("round-and-5", &smallest(5, Order::Big), COUNT_TOP + 5, &ended),
        of("round-and-5-zeros", &[], COUNT_TOP + 5, &ended),
        of("round-less-1", &smallest(u32::MAX, Order::Big), COUNT_TOP - 1, &ended),
        of("round-less-1-wide", &wide(u32::MAX), COUNT_TOP - 1, &ended),
        of("round-less-1-total", &smallest(60, Order::Big), COUNT_TOP - 1, &ended),
        of("round", &smallest(u32::MAX, Order::Big), COUNT_TOP, &ended),
        of("round-total-0", &smallest(0, Order::Big), COUNT_TOP, &ended),
        of("round-then-more", &smallest(64, Order::Big), COUNT_TOP, &more),
        of("round-less-1-then-1", &smallest(u32::MAX, Order::Little), COUNT_TOP - 1, &more),
        of("twice-round-less-1", &smallest(u32::MAX, Order::Big), 2 * COUNT_TOP - 1, &ended),
        of("twice-round-and-60", &smallest(60, Order::Big), 2 * COUNT_TOP + 60, &ended),
    ]
}

/// Calls in all orders.
fn orders() -> Vec<Script> {
    let (a, little) = (file_of(&tree_a(), Order::Big), file_of(&tree_a(), Order::Little));
    let start = Step::Start { stamp: u32::MAX };
    let bytes: Vec<Step> = a.iter().flat_map(|&byte| [offer(&[byte]), offer(&[])]).collect();
    vec![
        told("empty", &[Step::End, Step::End, start.clone()]),
        told("empty-bursts", &[offer(&[]), offer(&[]), Step::Zeros { bytes: 0, times: 3 }, Step::End, offer(&[]), start.clone()]),
        told("empty-started", &[start.clone(), offer(&a), Step::End, start.clone()]),
        told("empty-then-file", &[Step::End, offer(&a), Step::End, Step::Begin, offer(&a), Step::End]),
        told("byte-by-byte", &[&bytes[..], &[Step::End, start.clone()]].concat()),
        told("two-bursts", &[offer(&a[..13]), offer(&a[13..]), Step::End, start.clone()]),
        told("little", &[offer(&little[..2]), offer(&little[2..50]), offer(&[]), offer(&little[50..]), start.clone(), Step::End]),
        told("zeros-inside", &[offer(&a[..4]), Step::Zeros { bytes: 1, times: 3 }, offer(&a[7..]), Step::End, start.clone()]),
        told("end-twice", &[offer(&a[..95]), Step::End, Step::End, offer(&a[95..]), Step::End, start.clone(), Step::End]),
        told("after-right", &[offer(&a), Step::End, offer(&a), offer(&[]), Step::Zeros { bytes: 3_000, times: 2 }, start.clone(), offer(&a), Step::End]),
        told("after-start", &[offer(&a), start.clone(), offer(&[1]), Step::End, Step::Start { stamp: 0 }, offer(&[1])]),
        told("begin-again", &[offer(&a[..40]), Step::Begin, offer(&little), Step::End, Step::Begin, Step::Begin, offer(&a), start.clone()]),
        told("begin-after-longer", &[offer(&vec![9; 3_000]), Step::End, Step::Begin, offer(&a), Step::End, Step::Begin, Step::End]),
    ]
}

/// Bursts about the place where the kept bytes end.
fn about_kept() -> Vec<Script> {
    let at = |bytes: &[Vec<u32>], length: usize| file_of_bodies(bytes, &[(3, length as u32)], length, Order::Big);
    let (right, wide) = (at(&longest_bodies(), 2_052), at(&longest_with(0, ROOT_OF_24), 2_064));
    let more = |length: usize| at(&longest_bodies(), length);
    vec![
        told("kept-right", &[offer(&right[..2_051]), offer(&right[2_051..]), offer(&[]), Step::End, offer(&[7]), Step::Start { stamp: 5 }]),
        told("kept-and-more", &[offer(&right), offer(&[7, 8]), offer(&[9]), Step::End, offer(&[7]), Step::Start { stamp: 5 }]),
        told("kept-crossed", &[offer(&wide[..2_050]), offer(&wide[2_050..2_055]), offer(&wide[2_055..]), Step::End, Step::Start { stamp: 5 }]),
        told("kept-crossed-once", &[offer(&wide[..2_050]), offer(&wide[2_050..]), Step::End, offer(&wide), Step::End]),
        whole("kept-in-one", &wide),
        told("kept-short", &[offer(&wide[..2_052]), Step::End, offer(&wide[2_052..]), Step::End]),
        told("kept-zeros", &[offer(&more(65_536)[..2_052]), Step::Zeros { bytes: 997, times: 63 }, Step::Zeros { bytes: 673, times: 1 }, Step::End]),
        told("kept-zeros-cross", &[Step::Zeros { bytes: 2_051, times: 2 }, offer(&[7; 9]), Step::End, offer(&[7])]),
        told("kept-high-bytes", &[offer(&[255; 2_049]), offer(&[254; 9]), offer(&[253; 9]), Step::End]),
        told("long-total", &[offer(&at(&longest_bodies(), 2_052)), Step::Zeros { bytes: 63_484, times: 1 }, Step::End]),
        told("long-first-offset", &[offer(&file_of_bodies(&longest_bodies(), &[(3, 65_536), (4, 0)], 2_052, Order::Little)), Step::Zeros { bytes: 63_484, times: 1 }, Step::End]),
    ]
}

/// Two bursts for some of the files at the edges, each refusal among them.
fn edges_cut() -> Vec<Script> {
    let names = ["mark-mixed", "version-2", "count-65", "count-11", "length-2-long", "share-1-0", "depth-9", "inside-1", "fit-one-part-over", "bytes-15", "classes-64"];
    let files = edge_files().into_iter().filter(|(name, _)| names.contains(&name.as_str()));
    let cut = |(name, file): (String, Vec<u8>)| {
        let half = file.len() / 2;
        told(&format!("edge-{name}"), &[offer(&file[..half]), offer(&file[half..]), Step::End, Step::Start { stamp: 5 }])
    };
    files.map(cut).collect()
}

/// The scripts told by hand.
pub fn scripts_by_hand() -> Vec<Script> {
    [orders(), about_kept(), past_32_bits(), edges_cut()].into_iter().flatten().collect()
}

/// The scripts of the stored part: those told by hand, and short ones at random. New ones stand last, so that the others keep their numbers.
pub fn stored_scripts() -> Vec<Script> {
    let short = |script: &Script| script.steps.len() < 60 && script.text().len() < 10_000;
    let random = (0..).map(script).filter(short).take(8).map(|script| Script { name: format!("any-{}", script.name), ..script });
    scripts_by_hand().into_iter().chain(random).collect()
}
