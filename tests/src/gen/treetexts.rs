//! Texts of trees: at random, right and wrong, in all spellings; and one by one at the edge of each rule on such texts.

use super::damage::{curve_inside, edge_trees, odd_number, too_deep, too_much};
use super::dice::Dice;
use super::trees::{any_tree, random_tree, tree_a};
use crate::curves::Curve;
use crate::lines::Answer;
use crate::text::{maketree, TEXT_TOP};
use crate::tree::{Class, Tree};

/// A text for `maketree`.
pub struct TextCase {
    pub name: String,
    pub text: Vec<u8>,
}

impl TextCase {
    fn new(name: impl Into<String>, text: impl Into<Vec<u8>>) -> TextCase {
        TextCase { name: name.into(), text: text.into() }
    }

    /// What the model answers, and the file that it writes.
    pub fn answer(&self) -> (Answer, Option<Vec<u8>>) {
        maketree(&self.text)
    }
}

// At random.

/// A line as its words.
type Words = Vec<String>;

fn words_of_tree(tree: &Tree) -> Vec<Words> {
    tree.print().lines().map(|line| line.split(' ').map(str::to_string).collect()).collect()
}

/// A tree that is right, or one that breaks a rule: 4, 8, 9, 10. (7 comes by wrong numbers.)
fn tree_to_write(dice: &mut Dice) -> Tree {
    match dice.below(16) {
        0 => too_deep(dice),
        1 => curve_inside(dice),
        2 => too_much(dice),
        3 => {
            let leaves = dice.pick(&[0, 63, 64, 65, 69]);
            let mut tree = Tree::under_root(&vec![Class { parent: 0, share: 7, curve: Curve::None }; leaves]);
            if dice.chance(1, 5) {
                tree.classes.clear();
            }
            tree
        }
        4..=6 => any_tree(dice),
        _ => random_tree(dice),
    }
}

/// The place of a random element.
pub(super) fn any_of<T>(dice: &mut Dice, of: &[T]) -> usize {
    dice.below(of.len() as u64) as usize
}

/// A number of the text is replaced, if the word that is drawn is one.
fn replace_number(dice: &mut Dice, lines: &mut [Words], with: impl Fn(&mut Dice) -> String) {
    let line = any_of(dice, lines);
    let word = any_of(dice, &lines[line]);
    if lines[line][word].bytes().all(|byte| byte.is_ascii_digit()) {
        lines[line][word] = with(dice);
    }
}

fn past_32_bits(dice: &mut Dice) -> String {
    dice.pick(&["4294967296", "4294967297", "4295032832", "18446744073709551616", "99999999999999999999999999999999"]).to_string()
}

/// A line that is wrong among the others, or only at this place.
fn any_line(dice: &mut Dice) -> Words {
    let line = dice.pick(&[
        "tree", "tree 3", "class", "class 1", "start 5", "none", "class 0 parent 0 share 65536 none", "class 1 parent 0 share 1 none", "Tree", "refused 7 class 3",
    ]);
    line.split(' ').map(str::to_string).collect()
}

/// One change, mostly for the worse.
fn disturb(dice: &mut Dice, lines: &mut Vec<Words>) {
    let line = any_of(dice, lines);
    match dice.below(11) {
        0 => drop(lines.remove(line)),
        1 => lines.insert(line, lines[line].clone()),
        2 => {
            let other = any_of(dice, lines);
            lines.swap(line, other);
        }
        3 => {
            let word = any_of(dice, &lines[line]);
            lines[line][word] = dice.pick(&["none", "straight", "front-loaded", "delayed", "class", "parent", "share", "x", "-1", "+1", "1.", "0x1", "Class"]).to_string();
        }
        4 => replace_number(dice, lines, past_32_bits),
        5 | 6 => replace_number(dice, lines, |dice| odd_number(dice).to_string()),
        7 => {
            let word = any_of(dice, &lines[line]);
            lines[line].remove(word);
        }
        8 => {
            let word = any_of(dice, &lines[line]);
            let more = lines[line][word].clone();
            lines[line].insert(word, more);
        }
        _ => lines.insert(line, any_line(dice)),
    }
}

/// How a text is spelled.
struct Spelling {
    /// Odds in 16 of a remark, of a zero in front and of more white space.
    chatty: u64,
    carriage_returns: bool,
    last_end: bool,
}

fn random_spelling(dice: &mut Dice) -> Spelling {
    let plain = dice.chance(1, 3);
    Spelling {
        chatty: if plain { 0 } else { dice.pick(&[1, 4, 12]) },
        carriage_returns: !plain && dice.chance(1, 3),
        last_end: plain || dice.chance(2, 3),
    }
}

/// At least one space, tab or carriage return.
pub(super) fn white_space(dice: &mut Dice, chatty: u64) -> Vec<u8> {
    let mut space = vec![if dice.chance(chatty, 16) { dice.pick(b" \t\r") } else { b' ' }];
    while dice.chance(chatty, 24) {
        space.push(dice.pick(b" \t\r"));
    }
    space
}

pub(super) fn remark(dice: &mut Dice) -> Vec<u8> {
    let any = vec![b'#', dice.below(256) as u8, dice.below(256) as u8];
    let remark = dice.pick(&[b"#".to_vec(), b"# tree".to_vec(), b"# class 1 parent 0 share 1 none".to_vec(), b"## a remark #".to_vec(), any]);
    remark.into_iter().filter(|&byte| byte != b'\n').collect()
}

pub(super) fn spelled_word(dice: &mut Dice, word: &str, chatty: u64) -> Vec<u8> {
    let mut spelled = Vec::new();
    if word.starts_with(|first: char| first.is_ascii_digit()) && dice.chance(chatty, 32) {
        spelled.resize(dice.pick(&[1, 2, 9, 40]), b'0');
    }
    spelled.extend(word.bytes());
    spelled
}

fn spelled_line(dice: &mut Dice, words: &[String], chatty: u64) -> Vec<u8> {
    let mut line = if dice.chance(chatty, 32) { white_space(dice, chatty) } else { Vec::new() };
    for (place, word) in words.iter().enumerate() {
        if place > 0 {
            line.extend(white_space(dice, chatty));
        }
        line.extend(spelled_word(dice, word, chatty));
    }
    if dice.chance(chatty, 32) {
        line.extend(white_space(dice, chatty));
    }
    if dice.chance(chatty, 32) {
        line.extend(remark(dice));
    }
    line
}

fn spelled(dice: &mut Dice, lines: &[Words]) -> Vec<u8> {
    let spelling = random_spelling(dice);
    let end: &[u8] = if spelling.carriage_returns { b"\r\n" } else { b"\n" };
    let mut text = Vec::new();
    for words in lines {
        while dice.chance(spelling.chatty, 32) {
            let nothing = if dice.chance(1, 2) { remark(dice) } else { white_space(dice, spelling.chatty) };
            text.extend(nothing);
            text.extend(end);
        }
        text.extend(spelled_line(dice, words, spelling.chatty));
        text.extend(end);
    }
    if !spelling.last_end {
        text.truncate(text.len().saturating_sub(end.len()));
    }
    text
}

/// The text of a seed.
pub fn text_case(seed: u64) -> TextCase {
    let mut dice = Dice::new(seed ^ 0x7E87_0F7E_EE00);
    let dice = &mut dice;
    let mut lines = words_of_tree(&tree_to_write(dice));
    if dice.chance(1, 2) {
        disturb(dice, &mut lines);
    }
    let mut text = spelled(dice, &lines);
    if dice.chance(1, 16) && !text.is_empty() {
        let at = any_of(dice, &text);
        text[at] = dice.pick(b"\0\n#\t x0\xff");
    }
    TextCase::new("maketree", text)
}

// By hand.

const HEAD: &str = "tree\n";
const ROOT: &str = "class 0 parent 0 share 65536 none\n";
const LEAF: &str = "class 1 parent 0 share 16384 straight 32768\n";

/// The line after the root.
fn after_root(line: &str) -> String {
    format!("{HEAD}{ROOT}{line}\n")
}

/// A flat tree of so many classes.
fn flat(count: usize) -> String {
    let leaves: String = (1..count).map(|number| format!("class {number} parent 0 share {number} none\n")).collect();
    format!("{HEAD}{ROOT}{leaves}")
}

/// What may be spelled in another way.
fn spellings() -> Vec<(&'static str, Vec<u8>)> {
    let a = tree_a().print();
    let zeros = "0".repeat(300);
    let filled = |bytes: usize| [a.as_bytes(), b"#".repeat(bytes - a.len()).as_slice()].concat();
    vec![
        ("tree-a", a.clone().into()),
        ("no-last-end", a.trim_end().into()),
        ("comments", format!("# tree A\n\n{}#", a.replace('\n', " # so\n \t\n#\n")).into()),
        ("comments-joined", a.replace('\n', "# so\n").into()),
        ("carriage-returns", a.replace('\n', "\r\n").into()),
        ("carriage-returns-in-line", a.replace(' ', "\r").into()),
        ("tabs", a.replace(' ', "\t \t").replace('\n', "\t\n\t").into()),
        ("zeros", format!("{HEAD}class 00 parent {zeros} share {zeros}65536 none\nclass {zeros}1 parent 00 share 01 delayed 02 {zeros}3").into()),
        ("high-bytes-in-comment", [a.as_bytes(), b"# \xff\xc3(\0"].concat()),
        ("longest", filled(TEXT_TOP)),
        ("long-line", format!("{}{}", after_root(&format!("{LEAF}{}", " ".repeat(60_000))), "class 2 parent 0 share 1 none").into()),
        ("long-number", after_root(&format!("class 1 parent 0 share {}1 none", "0".repeat(60_000))).into()),
        ("long-number-past", after_root(&format!("class 1 parent 0 share {} none", "9".repeat(60_000))).into()),
    ]
}

/// Lines that end the reading.
fn wrong_lines() -> Vec<(&'static str, Vec<u8>)> {
    let texts = [
        ("no-head", format!("{ROOT}{LEAF}")),
        ("no-head-comment", format!("# tree\n\n{ROOT}{LEAF}")),
        ("no-head-past", "class 0 parent 0 share 4294967296 none\n".into()),
        ("no-head-wrong", format!("treе\n{ROOT}{LEAF}")), // the last letter is a Cyrillic one
        ("head-late", format!("{ROOT}{HEAD}{LEAF}")),
        ("head-capital", format!("Tree\n{ROOT}{LEAF}")),
        ("head-and-count", format!("tree 2\n{ROOT}{LEAF}")),
        ("head-and-class", format!("tree {ROOT}{LEAF}")),
        ("head-twice", format!("{HEAD}{HEAD}{ROOT}{LEAF}")),
        ("head-twice-late", format!("{HEAD}{ROOT}{LEAF}{HEAD}")),
        ("byte-order-mark", format!("\u{feff}{HEAD}{ROOT}{LEAF}")),
        ("calls", "start 5\narrive 6 1 500\n".into()),
        ("carriage-returns-alone", format!("{HEAD}{ROOT}{LEAF}").replace('\n', "\r")),
        ("number-missing-first", format!("{HEAD}{LEAF}")),
        ("number-twice", format!("{HEAD}{ROOT}{LEAF}{LEAF}")),
        ("number-left-out", after_root("class 2 parent 0 share 1 none")),
        ("number-back", format!("{HEAD}{ROOT}{LEAF}{ROOT}")),
        ("number-past", after_root("class 4294967296 parent 0 share 1 none")),
        ("number-largest", after_root("class 4294967295 parent 0 share 1 none")),
        ("parent-past", after_root("class 1 parent 4294967296 share 1 none")),
        ("share-past", after_root("class 1 parent 0 share 4295032832 none")),
        ("rate-past", after_root("class 1 parent 0 share 1 straight 4294967297")),
        ("front-first-past", after_root("class 1 parent 0 share 1 front-loaded 4294967298 1 1")),
        ("front-bend-past", after_root("class 1 parent 0 share 1 front-loaded 2 4294967297 1")),
        ("front-last-past", after_root("class 1 parent 0 share 1 front-loaded 2 1 4294967297")),
        ("delayed-bend-past", after_root("class 1 parent 0 share 1 delayed 4294967297 1")),
        ("delayed-rate-past", after_root("class 1 parent 0 share 1 delayed 1 4294967297")),
        ("past-and-more", after_root("class 1 parent 0 share 4294967297 none 1")),
        ("past-and-less", after_root("class 1 parent 0 share 4294967297")),
        ("past-and-number-wrong", after_root("class 7 parent 0 share 4294967297 none")),
        ("none-and-number", after_root("class 1 parent 0 share 1 none 5")),
        ("straight-and-none", after_root("class 1 parent 0 share 1 straight")),
        ("straight-and-two", after_root("class 1 parent 0 share 1 straight 5 6")),
        ("front-and-two", after_root("class 1 parent 0 share 1 front-loaded 5 6")),
        ("front-and-four", after_root("class 1 parent 0 share 1 front-loaded 5 6 4 3")),
        ("delayed-and-one", after_root("class 1 parent 0 share 1 delayed 5")),
        ("delayed-and-three", after_root("class 1 parent 0 share 1 delayed 5 6 7")),
        ("kind-missing", after_root("class 1 parent 0 share 1")),
        ("kind-unknown", after_root("class 1 parent 0 share 1 curved 5")),
        ("kind-longer", after_root("class 1 parent 0 share 1 straighter 5")),
        ("kind-shorter", after_root("class 1 parent 0 share 1 delay 5 6")),
        ("kind-in-two", after_root("class 1 parent 0 share 1 front loaded 5 6 4")),
        ("names-swapped", after_root("class 1 share 1 parent 0 none")),
        ("name-missing", after_root("class 1 0 share 1 none")),
        ("number-missing", after_root("class 1 parent share 1 none")),
        ("number-negative", after_root("class 1 parent -0 share 1 none")),
        ("number-with-letter", after_root("class 1 parent 0 share 1x none")),
        ("number-with-plus", after_root("class +1 parent 0 share 1 none")),
        ("comment-in-line", after_root("class 1 parent 0 # share 1 none")),
        ("zero-byte", after_root("class 1 parent 0 share\x001 none")),
        ("form-feed", after_root("class 1 parent 0\x0cshare 1 none")),
        ("wrong-after-rule", after_root("class 1 parent 9 share 0 none\nclass 2")),
        ("classes-65-then-wrong", format!("{}class\n", flat(65))),
        ("classes-64-then-wrong", format!("{}class\n", flat(64))),
        ("classes-64-then-number", format!("{}class 65 parent 0 share 1 none\n", flat(64))),
    ];
    texts.into_iter().map(|(name, text)| (name, text.into())).collect()
}

/// Texts whose tree is refused, besides the trees at the edge of the rules.
fn refused() -> Vec<(&'static str, Vec<u8>)> {
    let texts = [
        ("empty", String::new()),
        ("blank", "\n \n# nothing\n".into()),
        ("head-alone", "tree".into()),
        ("root-share-65535", format!("{HEAD}class 0 parent 0 share 65535 none\n{LEAF}")),
        ("root-parent-1", format!("{HEAD}class 0 parent 1 share 65536 none\n{LEAF}")),
        ("parent-own", after_root("class 1 parent 1 share 1 none")),
        ("parent-largest", after_root("class 1 parent 4294967295 share 1 none")),
        ("share-0", after_root("class 1 parent 0 share 0 none")),
        ("share-65537", after_root("class 1 parent 0 share 65537 none")),
        ("bend-0", after_root("class 1 parent 0 share 1 delayed 0 1")),
        ("bend-past-top", after_root("class 1 parent 0 share 1 front-loaded 2 1048577 1")),
        ("rates-equal", after_root("class 1 parent 0 share 1 front-loaded 2 1 2")),
        ("classes-66", flat(66)),
        ("classes-100", flat(100)),
    ];
    texts.into_iter().map(|(name, text)| (name, text.into())).collect()
}

/// The texts of the stored corpus. New ones stand last, so that the others keep their numbers.
pub fn text_corpus() -> Vec<TextCase> {
    let told = [spellings(), wrong_lines(), refused()].concat().into_iter().map(|(name, text)| TextCase::new(name, text));
    let edges = edge_trees().into_iter().map(|(name, tree)| TextCase::new(format!("edge-{name}"), tree.print()));
    let random = (0..20).map(|seed| TextCase::new("any", text_case(seed).text));
    told.chain(edges).chain(random).collect()
}
