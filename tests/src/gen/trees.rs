//! Trees of all shapes, with curves that fit, often just so.

use super::dice::Dice;
use crate::curves::{fits, Curve};
use crate::tree::{Class, Tree};

/// A curve of any kind with rates up to `top` (2 or more) and bends up to `bend_top`.
pub fn random_curve(dice: &mut Dice, top: u32, bend_top: u32) -> Curve {
    let d = dice.between(1, bend_top);
    let m = dice.between(1, top);
    match dice.below(3) {
        0 => Curve::Straight { m },
        1 => {
            let m1 = m.max(2);
            Curve::FrontLoaded { m1, d, m2: dice.between(1, m1 - 1) }
        }
        _ => Curve::Delayed { d, m },
    }
}

fn random_count(dice: &mut Dice) -> u32 {
    match dice.below(10) {
        0 => 2,
        1..=4 => dice.between(3, 6),
        5..=7 => dice.between(7, 20),
        8 => dice.between(21, 64),
        _ => 64,
    }
}

/// Parents by number: flat, a chain to depth 8, mostly deep, or any.
fn random_parents(dice: &mut Dice, count: u32) -> Vec<u32> {
    let shape = dice.below(5);
    let mut depths = vec![0u32];
    let mut parents = vec![0u32];
    for class in 1..count {
        let wanted = match shape {
            0 => 0,
            1 => class - 1,
            2 => dice.between(class.saturating_sub(3), class - 1),
            3 => dice.between(0, (class - 1).min(3)),
            _ => dice.between(0, class - 1),
        };
        let parent = if depths[wanted as usize] < 8 { wanted } else { parents[wanted as usize] };
        parents.push(parent);
        depths.push(depths[parent as usize] + 1);
    }
    parents
}

fn random_share(dice: &mut Dice, style: u64) -> u32 {
    match style {
        0 => 1,
        1 => 16_384,
        2 => dice.pick(&[1, 2, 3, 65_535, 65_536]),
        3 => dice.pick(&[8_192, 16_384, 32_768, 49_152]),
        _ => dice.between(1, 65_536),
    }
}

/// A leaf's curve in the style of the tree.
fn styled_curve(dice: &mut Dice, style: u64, leaves: u32) -> Curve {
    let even = (65_536 / leaves).max(2);
    match style {
        0 => Curve::None,
        1 => Curve::Straight { m: even },
        2 => dice.pick(&[
            Curve::Straight { m: 1 },
            Curve::Delayed { d: 1, m: 1 },
            Curve::FrontLoaded { m1: 2, d: 1, m2: 1 },
            Curve::FrontLoaded { m1: even, d: 1_048_576, m2: 1 },
        ]),
        3 => Curve::Delayed { d: dice.pick(&[1, 500, 2_000, 1_048_576]), m: even },
        4 => Curve::FrontLoaded { m1: even, d: dice.pick(&[1, 500, 2_000]), m2: dice.between(1, even - 1) },
        _ => {
            let bend_top = dice.pick(&[3, 3_000, 30_000, 1_048_576]);
            if dice.chance(1, 4) { Curve::None } else { random_curve(dice, (2 * even).min(65_536), bend_top) }
        }
    }
}

/// The same curve with half the rate.
fn halved(curve: Curve) -> Curve {
    match curve {
        Curve::None => Curve::None,
        Curve::Straight { m } => Curve::Straight { m: (m / 2).max(1) },
        Curve::Delayed { d, m } => Curve::Delayed { d, m: (m / 2).max(1) },
        Curve::FrontLoaded { m1, d, m2 } => {
            let m1 = (m1 / 2).max(2);
            Curve::FrontLoaded { m1, d, m2: (m2 / 2).clamp(1, m1 - 1) }
        }
    }
}

/// The same curve with its (last) rate `more` higher.
pub fn raised(curve: Curve, more: u32) -> Curve {
    match curve {
        Curve::None => Curve::None,
        Curve::Straight { m } => Curve::Straight { m: m + more },
        Curve::Delayed { d, m } => Curve::Delayed { d, m: m + more },
        Curve::FrontLoaded { m1, d, m2 } => Curve::FrontLoaded { m1, d, m2: m2 + more },
    }
}

/// Is the tree right in all ways?
fn right(tree: &Tree) -> bool {
    tree.check().is_ok()
}

pub fn curved(tree: &Tree) -> Vec<usize> {
    (1..tree.count()).filter(|&class| tree.curve(class).is_some()).collect()
}

fn make_fit(dice: &mut Dice, tree: &mut Tree) {
    while !fits(&tree.curves()) {
        let class = dice.pick(&curved(tree));
        tree.classes[class].curve = halved(tree.curve(class));
    }
}

/// Raise the last rate of one curve as far as the tree stays right.
pub fn tighten(dice: &mut Dice, tree: &mut Tree) {
    let candidates = curved(tree);
    if candidates.is_empty() {
        return;
    }
    let class = dice.pick(&candidates);
    let mut step = 32_768;
    while step > 0 {
        let before = tree.curve(class);
        tree.classes[class].curve = raised(before, step);
        if !right(tree) {
            tree.classes[class].curve = before;
            step /= 2;
        }
    }
}

/// A tree that is right in all ways.
pub fn random_tree(dice: &mut Dice) -> Tree {
    let count = random_count(dice);
    let parents = random_parents(dice, count);
    let share_style = dice.below(6);
    let mut tree = Tree::under_root(&[]);
    for parent in &parents[1..] {
        let share = random_share(dice, share_style);
        tree.classes.push(Class { parent: *parent, share, curve: Curve::None });
    }
    let curve_style = dice.below(10);
    let leaves = tree.leaves();
    for &leaf in &leaves {
        tree.classes[leaf].curve = styled_curve(dice, curve_style, leaves.len() as u32);
    }
    make_fit(dice, &mut tree);
    if dice.chance(1, 2) {
        tighten(dice, &mut tree);
    }
    tree
}

/// Tree A of the document.
pub fn tree_a() -> Tree {
    Tree::under_root(&[
        Class { parent: 0, share: 16_384, curve: Curve::FrontLoaded { m1: 32_768, d: 2_000, m2: 16_384 } },
        Class { parent: 0, share: 49_152, curve: Curve::Delayed { d: 2_000, m: 32_768 } },
    ])
}

/// One of few small trees on which real-time and fair rule change places often.
pub fn lively_tree(dice: &mut Dice) -> Tree {
    let class = |parent, share, curve| Class { parent, share, curve };
    let front = Curve::FrontLoaded { m1: 40_000, d: 700, m2: 3_000 };
    let delayed = Curve::Delayed { d: 900, m: 20_000 };
    let straight = Curve::Straight { m: 8_000 };
    let mut tree = match dice.below(4) {
        0 => tree_a(),
        1 => Tree::under_root(&[class(0, 30_000, front), class(0, 10_000, delayed), class(0, 25_536, straight), class(0, 7, Curve::None)]),
        2 => Tree::under_root(&[
            class(0, 40_000, Curve::None),
            class(0, 25_536, Curve::None),
            class(1, 5_000, front),
            class(1, 5_000, delayed),
            class(2, 60_000, delayed),
            class(2, 1, Curve::None),
            class(1, 9_999, Curve::None),
        ]),
        _ => Tree::under_root(&[
            class(0, 16_384, Curve::None),
            class(1, 16_384, Curve::None),
            class(2, 16_384, Curve::None),
            class(3, 16_384, straight),
            class(3, 16_384, straight),
            class(2, 16_384, delayed),
            class(1, 16_384, delayed),
            class(0, 16_384, Curve::None),
        ]),
    };
    make_fit(dice, &mut tree);
    tree
}

pub fn any_tree(dice: &mut Dice) -> Tree {
    if dice.chance(1, 3) { lively_tree(dice) } else { random_tree(dice) }
}
