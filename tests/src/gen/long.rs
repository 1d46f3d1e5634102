//! Tree files about as long as the longest right one, and longer ones. Most state their own length as the total, and their contents and bodies are laid out
//! so that refusal 6 comes late or not at all: then, past 2,052 bytes, the root's body is too long, and 7 names class 0.

use super::damage::odd_number;
use super::dice::Dice;
use crate::curves::Curve;
use crate::file::{body_words, bytes_of, words_of_bodies, Order};
use crate::tree::{Class, ROOT};

/// The most classes, and where their contents end.
const CLASSES: usize = 64;
const CONTENTS_END: usize = 16 + 8 * CLASSES;

/// The longest body, in words, and by how many words one can be shorter.
const BODY: usize = 6;
const SHORTER: usize = 3;

/// A curve whose body has so many words. Sixty-three of them fit.
fn curve_of(dice: &mut Dice, words: usize) -> Curve {
    let (m, d) = (dice.between(2, 1_000), dice.between(1, 30_000));
    match words {
        3 => Curve::None,
        4 => Curve::Straight { m },
        5 => Curve::Delayed { d, m },
        _ => Curve::FrontLoaded { m1: m, d, m2: dice.between(1, m - 1) },
    }
}

/// A root whose body has so many words: of another kind than 0, or of kind 0 against its length.
fn root_of(dice: &mut Dice, words: usize) -> Vec<u32> {
    let mut body = body_words(&Class { curve: curve_of(dice, words), ..ROOT });
    if dice.chance(1, 2) {
        body[2] = 0;
    }
    body
}

/// Bodies of so many words each. Now and then one breaks a rule of its own.
fn bodies(dice: &mut Dice, lengths: &[usize]) -> Vec<Vec<u32>> {
    let mut bodies = vec![root_of(dice, lengths[0])];
    for (class, &words) in lengths.iter().enumerate().skip(1) {
        let curve = curve_of(dice, words);
        let parent = if dice.chance(1, 400) { dice.between(0, class as u32) } else { 0 };
        bodies.push(body_words(&Class { parent, share: dice.between(1, 65_536), curve }));
    }
    if dice.chance(1, 6) {
        let class = dice.below(bodies.len() as u64) as usize;
        let field = dice.below(bodies[class].len() as u64) as usize;
        bodies[class][field] = odd_number(dice);
    }
    bodies
}

/// Lengths of 64 bodies in words that end as near to the file's end as they can. Where the root's can be the right one, it mostly is.
fn lengths_to(dice: &mut Dice, total: usize) -> Vec<usize> {
    let mut lengths = vec![BODY; CLASSES];
    let mut missing = (CONTENTS_END + 4 * BODY * CLASSES).saturating_sub(total) / 4;
    if missing >= SHORTER && dice.chance(3, 4) {
        lengths[0] -= SHORTER;
        missing -= SHORTER;
    }
    while missing > 0 {
        let class = dice.below(CLASSES as u64) as usize;
        if lengths[class] > BODY - SHORTER {
            lengths[class] -= 1;
            missing -= 1;
        }
    }
    lengths
}

/// A fault in the header or the contents, mostly late in them.
fn disturb(dice: &mut Dice, words: &mut [u32], count: usize) {
    let class = (count - 1).saturating_sub(dice.below(4) as usize * dice.below(16) as usize);
    match dice.below(6) {
        0 => words[4 + 2 * class] = words[4 + 2 * class].wrapping_add(dice.pick(&[4, 1, u32::MAX - 3])),
        1 => words[5 + 2 * class] = dice.pick(&[0, 8, 12, 13, 16, 20, 24, 28, 2_052, u32::MAX]),
        2 => words[3] = words[3].wrapping_add(dice.pick(&[1, 4, u32::MAX, u32::MAX - 3])),
        3 => words[3] = dice.pick(&[0, 60, 2_048, 2_052, 2_056, 65_536, u32::MAX]),
        4 => {
            let place = dice.below(4) as usize;
            words[place] = odd_number(dice);
        }
        _ => words[2] = dice.pick(&[2, 63, 64, 65]),
    }
}

/// A file of so many bytes, 2,040 or more, in either order.
pub fn long_file(dice: &mut Dice, total: usize) -> Vec<u8> {
    let lengths = if dice.chance(3, 4) {
        lengths_to(dice, total)
    } else {
        (0..dice.between(2, CLASSES as u32)).map(|_| dice.between(3, BODY as u32) as usize).collect()
    };
    let bodies = bodies(dice, &lengths);
    let mut words = words_of_bodies(&bodies);
    words[3] = total as u32;
    if dice.chance(1, 3) {
        disturb(dice, &mut words, bodies.len());
    }
    let mut bytes = bytes_of(&words, dice.pick(&[Order::Big, Order::Little]));
    let zeros = dice.chance(1, 2);
    while bytes.len() < total {
        bytes.push(if zeros { 0 } else { dice.below(256) as u8 });
    }
    bytes.truncate(total);
    bytes
}

/// The bodies of the longest right tree: a root, and 63 leaves with front-loaded curves; 2,052 bytes.
pub fn longest_bodies() -> Vec<Vec<u32>> {
    let leaf = |class: u32| body_words(&Class { parent: 0, share: class, curve: Curve::FrontLoaded { m1: 1_000, d: class, m2: 1 } });
    std::iter::once(body_words(&ROOT)).chain((1..CLASSES as u32).map(leaf)).collect()
}

/// The same with another body for one class.
pub fn longest_with(class: usize, body: &[u32]) -> Vec<Vec<u32>> {
    let mut bodies = longest_bodies();
    bodies[class] = body.to_vec();
    bodies
}

/// The file of bodies with some words changed, then cut or drawn out with zeros to so many bytes.
pub fn file_of_bodies(bodies: &[Vec<u32>], changes: &[(usize, u32)], length: usize, order: Order) -> Vec<u8> {
    let mut words = words_of_bodies(bodies);
    for &(at, word) in changes {
        words[at] = word;
    }
    let mut bytes = bytes_of(&words, order);
    bytes.resize(length, 0);
    bytes
}

/// A root that is too long, of the kind of its length; it makes the longest tree's file 2,064 bytes long, and class c's body begins at 528 + 24 c.
pub const ROOT_OF_24: &[u32] = &[0, 65_536, 2, 2, 1, 1];

/// A file told by hand: its name, bodies, words that are changed, and its length.
type Told = (&'static str, Vec<Vec<u32>>, &'static [(usize, u32)], usize);

/// Files told by hand, of 2,040 to 2,100 bytes, of 65,536, and one that is longer, each with its name; in turn big-endian and little-endian.
pub fn long_files() -> Vec<(String, Vec<u8>)> {
    let (right, wide) = (longest_bodies, || longest_with(0, ROOT_OF_24));
    let told: [Told; 23] = [
        ("right", right(), &[], 2_052),
        ("right-too", right(), &[], 2_052),
        ("right", longest_with(9, &[0, 1, 0]), &[], 2_040),
        ("share", longest_with(63, &[0, 0, 0]), &[], 2_040),
        ("inside", longest_with(63, &[62, 1, 1, 5]), &[], 2_044),
        ("fit", longest_with(63, &[0, 1, 1, 65_536]), &[], 2_044),
        ("byte-less", right(), &[], 2_051),
        ("byte-more", right(), &[], 2_053),
        ("byte-more-stated", right(), &[(3, 2_053)], 2_053),
        ("word-more-stated", right(), &[(3, 2_056)], 2_056),
        ("root-straight", longest_with(0, &[0, 65_536, 1, 1]), &[], 2_056),
        ("root-kind-0", longest_with(0, &[0, 65_536, 0, 0]), &[], 2_056),
        ("root-delayed", longest_with(0, &[0, 65_536, 3, 1, 1]), &[], 2_060),
        ("root-front", wide(), &[], 2_064),
        ("root-front-total", wide(), &[(3, 2_052)], 2_064),
        ("root-front-length", wide(), &[(5 + 2 * 63, 28)], 2_064),
        ("root-front-offset", wide(), &[(4 + 2 * 62, 528 + 24 * 62 + 4)], 2_064),
        ("root-front-stated", wide(), &[(3, 2_068)], 2_068),
        ("stated", right(), &[(3, 2_100)], 2_100),
        ("total", right(), &[], 2_100),
        ("stated", right(), &[(3, 65_536)], 65_536),
        ("total", right(), &[(3, 65_535)], 65_536),
        ("stated", right(), &[(3, 70_001)], 70_001),
    ];
    let file = |(number, (name, bodies, changes, length)): (usize, Told)| {
        (format!("long-{length}-{name}"), file_of_bodies(&bodies, changes, length, [Order::Big, Order::Little][number % 2]))
    };
    told.into_iter().enumerate().map(file).collect()
}
