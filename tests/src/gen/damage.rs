//! Damaged tree files: at random, and one by one at the edge of each rule.

use super::dice::Dice;
use super::trees::{any_tree, curved, raised, random_tree, tighten, tree_a};
use crate::calls::HALF_ROUND;
use crate::curves::Curve;
use crate::file::{bytes_of, words_of, Order};
use crate::tree::{Class, Tree, ROOT};

/// A tree file with at least one fault, or perhaps with a harmless change; the kinds follow the refusals 1 to 10.
pub fn damaged_file(dice: &mut Dice, number: u32) -> Vec<u8> {
    let order = dice.pick(&[Order::Big, Order::Big, Order::Little]);
    let mut words = match number {
        8 => words_of(&too_deep(dice)),
        9 => words_of(&curve_inside(dice)),
        10 => words_of(&too_much(dice)),
        _ => words_of(&any_tree(dice)),
    };
    damage_words(dice, &mut words, number);
    let mut bytes = bytes_of(&words, order);
    damage_bytes(dice, &mut bytes, number);
    bytes
}

/// Numbers near the limits of all fields.
pub fn odd_number(dice: &mut Dice) -> u32 {
    let any = dice.roll() as u32;
    dice.pick(&[0, 1, 2, 3, 4, 11, 12, 13, 16, 20, 24, 63, 64, 65, 65_535, 65_536, 65_537, 1_048_576, 1_048_577, HALF_ROUND, u32::MAX, any])
}

fn damage_words(dice: &mut Dice, words: &mut Vec<u32>, number: u32) {
    let count = words[2] as usize;
    match number {
        2 => words[0] = dice.pick(&[0x0403_0201, 0x0102_0305, 0, u32::MAX, 0x0201_0403]).wrapping_add(u32::from(dice.chance(1, 3))),
        3 => words[1] = dice.pick(&[0, 2, 0x0100_0000, u32::MAX]),
        4 => words[2] = dice.pick(&[0, 1, 65, 0x0200_0000, u32::MAX]),
        5 => match dice.below(3) {
            0 => words[3] = words[3].wrapping_add(dice.pick(&[1, 4, u32::MAX, u32::MAX - 3])),
            1 => words[2] = 64.min(words[2] + dice.between(1, 60)),
            _ => {
                // Only the contents don't fit: the total is right.
                words.truncate(4 + dice.below(2 * count as u64) as usize);
                words[3] = 4 * words.len() as u32;
            }
        },
        6 => damage_contents(dice, words, count),
        7 => damage_body(dice, words, count),
        _ => {}
    }
    if dice.chance(1, 4) {
        let at = dice.below(words.len() as u64) as usize;
        words[at] = odd_number(dice);
    }
}

/// Wrong offsets, lengths and ends (6).
fn damage_contents(dice: &mut Dice, words: &mut Vec<u32>, count: usize) {
    let class = dice.below(count as u64) as usize;
    let (offset, length) = (4 + 2 * class, 5 + 2 * class);
    match dice.below(6) {
        0 => words[offset] = words[offset].wrapping_add(dice.pick(&[4, 1, u32::MAX - 3, HALF_ROUND])),
        1 => words[length] = dice.pick(&[0, 4, 8, 13, 14, 28, u32::MAX]),
        2 => words[length] = dice.pick(&[12, 16, 20, 24]),
        3 => {
            words.extend([0, 0]);
            words[3] += 8;
        }
        4 => {
            // The file is cut inside a body, and the total says so.
            let least = 4 + 2 * count;
            let keep = least + dice.below((words.len() - least) as u64) as usize;
            words.truncate(keep);
            words[3] = 4 * keep as u32;
        }
        _ => words.swap(4, 6),
    }
}

/// Wrong parents, shares, kinds and curve numbers (7).
fn damage_body(dice: &mut Dice, words: &mut [u32], count: usize) {
    let class = dice.below(count as u64) as usize;
    let (body, length) = (words[4 + 2 * class] as usize / 4, words[5 + 2 * class] as usize / 4);
    match dice.below(5) {
        0 => words[body] = dice.pick(&[class as u32, class as u32 + 1, u32::MAX]),
        1 => words[body + 1] = dice.pick(&[0, 65_537, u32::MAX]),
        2 => words[body + 2] = dice.pick(&[0, 1, 2, 3, 4, 256, u32::MAX]),
        3 => words[body + 3.min(length - 1)] = odd_number(dice),
        _ => words[body + length - 1] = odd_number(dice),
    }
}

fn damage_bytes(dice: &mut Dice, bytes: &mut Vec<u8>, number: u32) {
    match number {
        1 => bytes.truncate(dice.below(16) as usize),
        5 if dice.chance(1, 3) => bytes.push(0),
        5 if dice.chance(1, 3) => bytes.truncate(bytes.len() - 1),
        _ => {}
    }
    if dice.chance(1, 10) && !bytes.is_empty() {
        let at = dice.below(bytes.len() as u64) as usize;
        bytes[at] ^= 1 << dice.below(8);
    }
}

/// A chain to depth 9 or more somewhere in the tree.
pub fn too_deep(dice: &mut Dice) -> Tree {
    let aside = dice.between(0, 5);
    let chain = dice.between(8, 12);
    let mut classes: Vec<Class> = (0..aside).map(|_| Class { parent: 0, share: 5, curve: Curve::None }).collect();
    for step in 0..chain {
        let parent = if step == 0 { 0 } else { aside + step };
        classes.push(Class { parent, share: 5, curve: Curve::None });
    }
    let last = classes.len() - 1;
    classes[last].curve = Curve::Straight { m: 65_536 };
    Tree::under_root(&classes)
}

/// A curve on a class with children.
pub fn curve_inside(dice: &mut Dice) -> Tree {
    let mut tree = random_tree(dice);
    let inside = dice.between(1, tree.count() as u32 - 1);
    tree.classes[inside as usize].curve = Curve::Straight { m: dice.pick(&[1, 65_536]) };
    if tree.count() < 64 {
        tree.classes.push(Class { parent: inside, share: 9, curve: Curve::None });
    }
    tree
}

/// A tight fit with one part too many.
pub fn too_much(dice: &mut Dice) -> Tree {
    let mut tree = any_tree(dice);
    tighten(dice, &mut tree);
    let candidates = curved(&tree);
    if !candidates.is_empty() {
        let class = dice.pick(&candidates);
        tree.classes[class].curve = raised(tree.curve(class), 1);
    }
    if dice.chance(1, 4) {
        let leaves = [Curve::FrontLoaded { m1: 65_536, d: 1, m2: 1 }, Curve::Straight { m: 1 }];
        return Tree { classes: [vec![ROOT], leaves.map(|curve| Class { parent: 0, share: 1, curve }).to_vec()].concat() };
    }
    tree
}

// One fault at a time, at the edge of each rule.

/// A file of words with a name, in either order.
fn named(name: &str, words: &[u32], order: Order) -> (String, Vec<u8>) {
    (name.to_string(), bytes_of(words, order))
}

/// Tree A as words: header 0 to 3, contents 4 to 9, root 10 to 12, class 1 at 13 to 18, class 2 at 19 to 23.
fn tree_a_with(changes: &[(usize, u32)]) -> Vec<u32> {
    let mut words = words_of(&tree_a());
    for &(at, word) in changes {
        words[at] = word;
    }
    words
}

/// Tree A cut or drawn out to so many words, with the total to match.
fn tree_a_of_words(length: usize) -> Vec<u32> {
    let mut words = words_of(&tree_a());
    words.resize(length, 0);
    words[3] = 4 * length as u32;
    words
}

/// Files with words of tree A changed, each with its name.
const CHANGES: &[(&str, &[(usize, u32)])] = &[
    ("right", &[]),
    ("mark-mixed", &[(0, 0x0201_0403)]),
    ("mark-last-byte", &[(0, 0x0102_0305)]),
    ("version-0", &[(1, 0)]),
    ("version-2", &[(1, 2)]),
    ("version-and-count", &[(1, 2), (2, 0)]),
    ("count-0", &[(2, 0)]),
    ("count-1", &[(2, 1)]),
    ("count-65", &[(2, 65)]),
    ("count-and-total", &[(2, 65), (3, 0)]),
    ("count-10", &[(2, 10)]),
    ("count-11", &[(2, 11)]),
    ("total-more", &[(3, 97)]),
    ("total-less", &[(3, 92)]),
    ("total-and-offset", &[(3, 92), (4, 0)]),
    ("offset-0-late", &[(4, 44)]),
    ("offset-1-early", &[(6, 48)]),
    ("offset-2-round", &[(8, u32::MAX - 3)]),
    ("length-0-of-0", &[(5, 0)]),
    ("length-1-of-28", &[(7, 28)]),
    ("length-1-of-14", &[(7, 14)]),
    ("length-0-moves-next", &[(5, 16)]),
    ("length-2-short", &[(9, 16)]),
    ("length-2-long", &[(9, 24)]),
    ("length-2-and-share-1", &[(9, 16), (14, 0)]),
    ("root-parent-1", &[(10, 1)]),
    ("root-share-65535", &[(11, 65_535)]),
    ("root-share-0", &[(11, 0)]),
    ("root-kind-1", &[(12, 1)]),
    ("parent-1-own", &[(13, 1)]),
    ("parent-1-later", &[(13, 2)]),
    ("parent-2-own", &[(19, 2)]),
    ("parent-2-none", &[(19, u32::MAX)]),
    ("share-1-0", &[(14, 0)]),
    ("share-1-65537", &[(14, 65_537)]),
    ("share-2-65536", &[(20, 65_536)]),
    ("share-2-1", &[(20, 1)]),
    ("kind-1-0", &[(15, 0)]),
    ("kind-1-1", &[(15, 1)]),
    ("kind-1-3", &[(15, 3)]),
    ("kind-1-4", &[(15, 4)]),
    ("kind-2-2", &[(21, 2)]),
    ("kind-2-1", &[(21, 1)]),
    ("kind-2-3-high-byte", &[(21, 0x0100_0003)]),
    ("front-equal-rates", &[(16, 16_384)]),
    ("front-rising", &[(16, 16_383)]),
    ("front-just-falling", &[(16, 16_385)]),
    ("front-first-65537", &[(16, 65_537)]),
    ("front-last-0", &[(18, 0)]),
    ("front-last-1", &[(18, 1)]),
    ("front-bend-0", &[(17, 0)]),
    ("front-bend-1", &[(17, 1)]),
    ("front-bend-top", &[(17, 1_048_576)]),
    ("front-bend-past-top", &[(17, 1_048_577)]),
    ("delayed-bend-0", &[(22, 0)]),
    ("delayed-bend-1", &[(22, 1)]),
    ("delayed-bend-top", &[(22, 1_048_576)]),
    ("delayed-bend-past-top", &[(22, 1_048_577)]),
    ("delayed-rate-0", &[(23, 0)]),
    ("delayed-rate-1", &[(23, 1)]),
    ("delayed-rate-65537", &[(23, 65_537)]),
    ("fit-to-the-last-part", &[(23, 49_152)]),
    ("fit-one-part-over", &[(23, 49_153)]),
    ("inside-1", &[(19, 1)]),
    ("inside-1-and-rate-2", &[(19, 1), (23, 0)]),
    ("inside-1-and-fit", &[(19, 1), (23, 65_536)]),
];

fn leaf(parent: u32, curve: Curve) -> Class {
    Class { parent, share: 16_384, curve }
}

/// A chain of classes, each under the one before, with these curves.
fn chain(curves: &[Curve]) -> Tree {
    let classes: Vec<Class> = curves.iter().enumerate().map(|(above, &curve)| leaf(above as u32, curve)).collect();
    Tree::under_root(&classes)
}

/// Leaves under the root with these curves.
fn flat(curves: &[Curve]) -> Tree {
    let classes: Vec<Class> = curves.iter().map(|&curve| leaf(0, curve)).collect();
    Tree::under_root(&classes)
}

/// Whole trees at the edge of the rules on counts, depth, place of curves and fit.
pub fn edge_trees() -> Vec<(&'static str, Tree)> {
    let straight = |m| Curve::Straight { m };
    let front = |m1, d, m2| Curve::FrontLoaded { m1, d, m2 };
    let none = Curve::None;
    let mut curve_mid_chain = [none; 9];
    curve_mid_chain[4] = straight(1);
    let root_with_curve = Tree { classes: vec![Class { curve: straight(1), ..ROOT }, leaf(0, none)] };
    vec![
        ("smallest", flat(&[straight(65_536)])),
        ("root-alone", Tree::under_root(&[])),
        ("classes-64", flat(&[straight(1); 63])),
        ("classes-65", flat(&[none; 64])),
        ("root-with-curve", root_with_curve),
        ("straight-rate-0", flat(&[straight(0)])),
        ("straight-rate-65537", flat(&[straight(65_537)])),
        ("depth-8", chain(&[none; 8])),
        ("depth-9", chain(&[none; 9])),
        ("depth-12", chain(&[none; 12])),
        ("depth-9-and-inside", chain(&curve_mid_chain)),
        ("inside-and-fit", Tree::under_root(&[leaf(0, none), leaf(0, straight(65_536)), leaf(1, straight(65_536)), leaf(2, none)])),
        ("fit-halves", flat(&[straight(32_768), straight(32_768)])),
        ("fit-slopes", flat(&[straight(32_769), straight(32_768)])),
        ("fit-first-tick", flat(&[front(65_535, 1, 1), straight(1)])),
        ("fit-first-tick-over", flat(&[front(65_536, 1, 1), straight(1)])),
        ("fit-two-bends", flat(&[front(40_000, 10, 1), front(25_536, 30, 2), Curve::Delayed { d: 20, m: 40_000 }])),
        ("fit-two-bends-over", flat(&[front(40_000, 10, 1), front(25_536, 30, 2), Curve::Delayed { d: 20, m: 65_534 }])),
        ("fit-late", flat(&[front(65_536, 1_048_576, 65_535), Curve::Delayed { d: 1_048_576, m: 1 }])),
        ("fit-late-over", flat(&[front(65_536, 1_048_576, 65_535), Curve::Delayed { d: 1_048_576, m: 2 }])),
    ]
}

/// Files at the edge of every rule on files, right ones among them; every third one little-endian.
pub fn edge_files() -> Vec<(String, Vec<u8>)> {
    let changed = CHANGES.iter().map(|(name, changes)| (name.to_string(), tree_a_with(changes)));
    let trees = edge_trees().into_iter().map(|(name, tree)| (name.to_string(), words_of(&tree)));
    let cut = [4, 5, 9, 10, 12, 18, 23, 25, 26].map(|length| (format!("words-{length}"), tree_a_of_words(length)));
    let words = changed.chain(trees).chain(cut).enumerate();
    let mut files: Vec<(String, Vec<u8>)> = words
        .map(|(number, (name, words))| named(&name, &words, if number % 3 == 2 { Order::Little } else { Order::Big }))
        .collect();
    let whole = bytes_of(&words_of(&tree_a()), Order::Big);
    files.extend([0, 1, 15, 16, 95].map(|length| (format!("bytes-{length}"), whole[..length].to_vec())));
    files
}
