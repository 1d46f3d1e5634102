//! The text of a tree, read back: the form that `replay TREE` prints, with blank lines, comments and any white space.

use crate::curves::Curve;
use crate::file::{file_of, Order};
use crate::lines::{is_number, lines, number, words, Answer, Fault, FaultyLine};
use crate::tree::{Class, Refusal, Tree};
use std::fmt;

/// The longest text, in bytes.
pub const TEXT_TOP: usize = 65_536;

/// The most classes of a tree: of a text with more, nothing is read after one more.
const MOST: usize = 64;

/// What a line says.
#[derive(Clone, Copy, Debug, PartialEq, Eq)]
pub enum Entry {
    Nothing,
    Head,
    ClassOf(u32, Class),
}

/// Why a text gives no file.
#[derive(Clone, Copy, Debug, PartialEq, Eq)]
pub enum Wrong {
    Line(FaultyLine),
    Tree(Refusal),
}

impl fmt::Display for Wrong {
    fn fmt(&self, to: &mut fmt::Formatter) -> fmt::Result {
        match self {
            Wrong::Line(line) => line.fmt(to),
            Wrong::Tree(refusal) => refusal.fmt(to),
        }
    }
}

/// Is the word at this place of a class line a number? The others are names.
fn wants_number(place: usize) -> bool {
    [1, 3, 5].contains(&place) || place > 6
}

/// `class N parent P share S`, a kind, and as many numbers as that has.
fn is_class_in_form(words: &[&[u8]]) -> bool {
    let named = |place: usize, name: &str| words.get(place).is_some_and(|word| *word == name.as_bytes());
    let numbers_after = match words.get(6) {
        Some(&b"none") => 0,
        Some(&b"straight") => 1,
        Some(&b"front-loaded") => 3,
        Some(&b"delayed") => 2,
        _ => return false,
    };
    let numbers_right = words.iter().enumerate().all(|(place, word)| !wants_number(place) || is_number(word));
    named(0, "class") && named(2, "parent") && named(4, "share") && words.len() == 7 + numbers_after && numbers_right
}

/// A line without its end. The form is judged first, then the size of the numbers.
pub fn parse_entry(line: &[u8]) -> Result<Entry, Fault> {
    let words = words(line);
    match words[..] {
        [] => return Ok(Entry::Nothing),
        [b"tree"] => return Ok(Entry::Head),
        _ if !is_class_in_form(&words) => return Err(Fault::NotAClass),
        _ => {}
    }
    let of = |place: usize| number(words[place]);
    let numbers = (0..words.len()).filter(|&place| wants_number(place)).map(of).collect::<Result<Vec<u32>, Fault>>()?;
    let curve = match numbers[3..] {
        [] => Curve::None,
        [m] => Curve::Straight { m },
        [d, m] => Curve::Delayed { d, m },
        [m1, d, m2] => Curve::FrontLoaded { m1, d, m2 },
        _ => unreachable!("the form was judged"),
    };
    Ok(Entry::ClassOf(numbers[0], Class { parent: numbers[1], share: numbers[2], curve }))
}

/// The classes of a text, no rule of a tree asked yet: `tree` comes first, then the classes in number order from 0.
pub fn read_classes(text: &[u8]) -> Result<Tree, FaultyLine> {
    let mut tree = Tree::of_no_classes();
    let mut begun = false;
    for (line_number, line) in lines(text) {
        let wrong = |fault| Err(FaultyLine { number: line_number, fault });
        match parse_entry(line) {
            Ok(Entry::Nothing) => {}
            Ok(Entry::Head) if !begun => begun = true,
            Ok(Entry::Head) => return wrong(Fault::NotAClass),
            Ok(Entry::ClassOf(..)) if !begun => return wrong(Fault::TreeFirst),
            Ok(Entry::ClassOf(number, class)) if number as usize == tree.count() => tree.classes.push(class),
            Ok(Entry::ClassOf(..)) => return wrong(Fault::NextClass(tree.count())),
            Err(fault) => return wrong(fault),
        }
        if tree.count() > MOST {
            break;
        }
    }
    Ok(tree)
}

/// The file that a text gives: the tree is checked as the writer checks it, 4, 7, 8, 9, 10.
pub fn file_of_text(text: &[u8]) -> Result<Vec<u8>, Wrong> {
    let tree = read_classes(text).map_err(Wrong::Line)?;
    tree.check().map_err(Wrong::Tree)?;
    Ok(file_of(&tree, Order::Big))
}

/// What `maketree` answers for a text, and the file that it writes, if it writes one.
pub fn maketree(text: &[u8]) -> (Answer, Option<Vec<u8>>) {
    match file_of_text(text) {
        Ok(file) => (Answer::done(String::new()), Some(file)),
        Err(wrong) => (Answer::ended(String::new(), wrong), None),
    }
}

#[cfg(test)]
mod tests {
    use super::*;
    use crate::file::read;
    use crate::gen::{random_tree, tree_a, Dice};
    use crate::tree::ROOT;

    const ROOT_LINE: &str = "class 0 parent 0 share 65536 none\n";
    const LEAF_LINE: &str = "class 1 parent 0 share 1 none\n";

    #[test]
    fn lines_of_a_text() {
        let says = |line: &str, number, parent, share, curve| {
            assert_eq!(parse_entry(line.as_bytes()), Ok(Entry::ClassOf(number, Class { parent, share, curve })), "{line}");
        };
        for nothing in ["", " \t\r", "# tree", "  #", "\r"] {
            assert_eq!(parse_entry(nothing.as_bytes()), Ok(Entry::Nothing), "{nothing}");
        }
        for head in ["tree", " tree\t", "tree#", "tree # of a studio", "tree\r"] {
            assert_eq!(parse_entry(head.as_bytes()), Ok(Entry::Head), "{head}");
        }
        assert_eq!(parse_entry(ROOT_LINE.trim_end().as_bytes()), Ok(Entry::ClassOf(0, ROOT)));
        says("class 1 parent 2 share 3 none", 1, 2, 3, Curve::None);
        says("class 1 parent 2 share 3 straight 4", 1, 2, 3, Curve::Straight { m: 4 });
        says("class 1 parent 2 share 3 front-loaded 4 5 6", 1, 2, 3, Curve::FrontLoaded { m1: 4, d: 5, m2: 6 });
        says("class 1 parent 2 share 3 delayed 4 5", 1, 2, 3, Curve::Delayed { d: 4, m: 5 });
        says("\tclass  01 parent\t002 share 0003 none# so\r", 1, 2, 3, Curve::None);
        says(&format!("class {}7 parent 4294967295 share 0 none", "0".repeat(500)), 7, u32::MAX, 0, Curve::None);
    }

    #[test]
    fn lines_that_are_no_class() {
        let wrong = [
            "trees", "Tree", "tree 2", "tree tree", "class", "class 1", "class 1 parent 2 share 3", "1 parent 2 share 3 none", "class 1 share 3 parent 2 none",
            "Class 1 parent 2 share 3 none", "class one parent 2 share 3 none", "class 1 parent -2 share 3 none", "class 1 parent 2 share +3 none",
            "class 1 parent 2 share 3 nothing", "class 1 parent 2 share 3 none 4", "class 1 parent 2 share 3 straight", "class 1 parent 2 share 3 straight 4 5",
            "class 1 parent 2 share 3 straight x", "class 1 parent 2 share 3 front-loaded 4 5", "class 1 parent 2 share 3 front-loaded 4 5 6 7",
            "class 1 parent 2 share 3 front loaded 4 5 6", "class 1 parent 2 share 3 delayed 4", "class 1 parent 2 share 3 delayed 4 5 6", "class 1 parent 2 share 3 4",
            "class1 parent 2 share 3 none", "class 1 parent 2 share 3 none\0", "class 1 parent 2 share\x0b3 none", "class 1 # parent 2 share 3 none", "depart 5",
        ];
        for line in wrong {
            assert_eq!(parse_entry(line.as_bytes()), Err(Fault::NotAClass), "{line}");
        }
    }

    /// The form is judged before the size of the numbers.
    #[test]
    fn numbers_past_32_bits() {
        let large = [
            "class 4294967296 parent 2 share 3 none", "class 1 parent 4294967296 share 3 none", "class 1 parent 2 share 4294967296 none",
            "class 1 parent 2 share 3 straight 99999999999999999999", "class 1 parent 2 share 3 front-loaded 4294967296 5 6",
            "class 1 parent 2 share 3 front-loaded 4 4294967296 6", "class 1 parent 2 share 3 front-loaded 4 5 4294967296",
            "class 1 parent 2 share 3 delayed 4294967296 5", "class 1 parent 2 share 3 delayed 4 4294967296",
        ];
        for line in large {
            assert_eq!(parse_entry(line.as_bytes()), Err(Fault::TooLarge), "{line}");
        }
        for line in ["class 4294967296 parent 2 share 3", "class 1 parent 4294967296 share 3 none 4", "class 1 parent x share 4294967296 none", "tree 4294967296"] {
            assert_eq!(parse_entry(line.as_bytes()), Err(Fault::NotAClass), "{line}");
        }
    }

    fn answers(text: &str, printed: &str) {
        let (answer, file) = maketree(text.as_bytes());
        assert_eq!(answer, Answer { printed: printed.to_string(), status: 1 }, "{text}");
        assert_eq!(file, None, "{text}");
    }

    #[test]
    fn messages() {
        answers(ROOT_LINE, "line 1: tree comes first\n");
        answers(&format!("# no head\n\n{ROOT_LINE}tree\n"), "line 3: tree comes first\n");
        answers("start 5\ntree\n", "line 1: not a class\n");
        answers("class 0 parent 0 share 4294967296 none\n", "line 1: number past 32 bits\n");
        answers(&format!("tree\n{ROOT_LINE}\ntree\n"), "line 4: not a class\n");
        answers("tree\ntree", "line 2: not a class\n");
        answers(&format!("tree\n{LEAF_LINE}"), "line 2: class 0 comes next\n");
        answers(&format!("tree\n{ROOT_LINE}{LEAF_LINE}{LEAF_LINE}"), "line 4: class 2 comes next\n");
        answers(&format!("tree\n{ROOT_LINE}class 3 parent 0 share 1 none"), "line 3: class 1 comes next\n");
        answers(&format!("tree\n{ROOT_LINE}class 4294967296 parent 0 share 1 none"), "line 3: number past 32 bits\n");
        answers(&format!("tree\n{ROOT_LINE}class 1 parent 7 share 1 none\nclas 2"), "line 4: not a class\n"); // lines before rules
        answers("tree\r\n\r\ntree\r", "line 3: not a class\n");
        answers("tree\rtree", "line 1: not a class\n");
    }

    #[test]
    fn refusals() {
        for none in ["", "\n", "# nothing", "tree", "tree\n", "tree\n# no class"] {
            answers(none, "refused 4 class 0\n");
        }
        answers(&format!("tree\n{ROOT_LINE}"), "refused 4 class 0\n");
        answers(&format!("tree\nclass 0 parent 0 share 1 none\n{LEAF_LINE}"), "refused 7 class 0\n");
        answers(&format!("tree\n{ROOT_LINE}class 1 parent 1 share 1 none\n"), "refused 7 class 1\n");
        answers(&format!("tree\n{ROOT_LINE}class 1 parent 0 share 1 front-loaded 4 5 4\n"), "refused 7 class 1\n");
        answers(&format!("tree\n{ROOT_LINE}class 1 parent 0 share 1 straight 1\nclass 2 parent 1 share 1 none"), "refused 9 class 1\n");
        answers(&format!("tree\n{ROOT_LINE}class 1 parent 0 share 1 straight 65536\nclass 2 parent 0 share 1 straight 1"), "refused 10 class 0\n");
        let chain: String = (1..=9).map(|number| format!("class {number} parent {} share 1 none\n", number - 1)).collect();
        answers(&format!("tree\n{ROOT_LINE}{chain}"), "refused 8 class 9\n");
    }

    /// After a 65th class nothing more is read.
    #[test]
    fn the_most_classes() {
        let flat = |count: usize| -> String {
            let leaves: String = (1..count).map(|number| format!("class {number} parent 0 share 1 none\n")).collect();
            format!("tree\n{ROOT_LINE}{leaves}")
        };
        assert!(maketree(flat(64).as_bytes()).1.is_some());
        answers(&format!("{}tree\n", flat(64)), "line 66: not a class\n");
        answers(&flat(65), "refused 4 class 0\n");
        answers(&format!("{}tree\n", flat(65)), "refused 4 class 0\n");
        answers(&flat(66), "refused 4 class 0\n");
        answers(&format!("{}class 66 parent 0 share 1 none\n", flat(64)), "line 66: class 64 comes next\n");
        answers(&format!("{}class 0064 parent 9 share 4294967296 none\n", flat(64)), "line 66: number past 32 bits\n");
    }

    /// Text to file to text, and file to text to file.
    #[test]
    fn round_trips() {
        for seed in 0..2_000 {
            let tree = random_tree(&mut Dice::new(seed));
            let (text, file) = (tree.print(), file_of(&tree, Order::Big));
            assert_eq!(maketree(text.as_bytes()), (Answer::done(String::new()), Some(file.clone())));
            assert_eq!(read(&file).map(|tree| tree.print()), Ok(text));
        }
        let chatty = tree_a().print().replace('\n', " \t# a remark\r\n\n") + "#";
        assert_eq!(file_of_text(chatty.as_bytes()), Ok(file_of(&tree_a(), Order::Big)));
        let text = tree_a().print();
        assert_eq!(file_of_text(text.trim_end().as_bytes()), Ok(file_of(&tree_a(), Order::Big)));
    }
}
