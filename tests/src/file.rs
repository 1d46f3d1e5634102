//! The class-tree file: read in either order, written big-endian.

use crate::curves::Curve;
use crate::tree::{class_allowed, count_allowed, refusal, Class, Refusal, Tree};

const MARK: u32 = 0x0102_0304;
const HEADER_BYTES: u64 = 16;
const ENTRY_BYTES: u64 = 8;

#[derive(Clone, Copy, Debug, PartialEq, Eq)]
pub enum Order {
    Big,
    Little,
}

/// The bytes given: how many there are, and the one at a place. So a file that ends in very many zeros needs no memory.
pub trait Given {
    fn length(&self) -> u64;
    fn byte(&self, at: u64) -> u8;
}

impl Given for &[u8] {
    fn length(&self) -> u64 {
        self.len() as u64
    }

    fn byte(&self, at: u64) -> u8 {
        self[at as usize]
    }
}

/// Offset and length of a body as the contents state them.
#[derive(Clone, Copy)]
struct Entry {
    offset: u64,
    length: u64,
}

/// Read a file that is in memory.
pub fn read(bytes: &[u8]) -> Result<Tree, Refusal> {
    read_given(&bytes)
}

/// Read a file: the checks 1 to 10 in that order, each over all classes before the next.
pub fn read_given(bytes: &dyn Given) -> Result<Tree, Refusal> {
    if bytes.length() < HEADER_BYTES {
        return Err(refusal(1, 0));
    }
    let order = order_of(bytes).ok_or(refusal(2, 0))?;
    if word(bytes, order, 4) != 1 {
        return Err(refusal(3, 0));
    }
    let count = word(bytes, order, 8) as usize;
    if !count_allowed(count) {
        return Err(refusal(4, 0));
    }
    let contents_end = contents_end(count);
    if u64::from(word(bytes, order, 12)) != bytes.length() || contents_end > bytes.length() {
        return Err(refusal(5, 0));
    }
    let entries = contents(bytes, order, count);
    check_bodies(&entries, contents_end, bytes.length())?;
    let tree = read_bodies(bytes, order, &entries)?;
    tree.check_depths()?;
    tree.check_curves_on_leaves()?;
    tree.check_fit()?;
    Ok(tree)
}

/// The file's own order, which its first word shows.
fn order_of(bytes: &dyn Given) -> Option<Order> {
    [Order::Big, Order::Little].into_iter().find(|&order| word(bytes, order, 0) == MARK)
}

/// The 32-bit word at this byte.
fn word(bytes: &dyn Given, order: Order, at: u64) -> u32 {
    let four = [at, at + 1, at + 2, at + 3].map(|at| bytes.byte(at));
    match order {
        Order::Big => u32::from_be_bytes(four),
        Order::Little => u32::from_le_bytes(four),
    }
}

/// Where the contents of so many classes end.
fn contents_end(count: usize) -> u64 {
    HEADER_BYTES + ENTRY_BYTES * count as u64
}

fn contents(bytes: &dyn Given, order: Order, count: usize) -> Vec<Entry> {
    let entry = |class: usize| {
        let at = contents_end(class);
        Entry { offset: word(bytes, order, at).into(), length: word(bytes, order, at + 4).into() }
    };
    (0..count).map(entry).collect()
}

/// Refusal 6: each body where the one before ended, of a known length, within the total, the last at its end.
fn check_bodies(entries: &[Entry], contents_end: u64, total: u64) -> Result<(), Refusal> {
    let mut end = contents_end;
    for (class, entry) in entries.iter().enumerate() {
        let length_known = [12, 16, 20, 24].contains(&entry.length);
        let entry_end = entry.offset + entry.length;
        if entry.offset != end || !length_known || entry_end > total {
            return Err(refusal(6, class));
        }
        end = entry_end;
    }
    if end == total {
        Ok(())
    } else {
        Err(refusal(6, entries.len() - 1))
    }
}

/// Refusal 7 names the lowest class with any fault in its body.
fn read_bodies(bytes: &dyn Given, order: Order, entries: &[Entry]) -> Result<Tree, Refusal> {
    let body = |(class, entry): (usize, &Entry)| {
        read_body(bytes, order, entry).filter(|body| class_allowed(class, body)).ok_or(refusal(7, class))
    };
    let classes = entries.iter().enumerate().map(body).collect::<Result<Vec<Class>, Refusal>>()?;
    Ok(Tree { classes })
}

/// Parent, share, kind, then numbers; nothing if the kind is unknown or against the length.
fn read_body(bytes: &dyn Given, order: Order, entry: &Entry) -> Option<Class> {
    let field = |number: u64| word(bytes, order, entry.offset + 4 * number);
    let curve = match (field(2), entry.length) {
        (0, 12) => Curve::None,
        (1, 16) => Curve::Straight { m: field(3) },
        (2, 24) => Curve::FrontLoaded { m1: field(3), d: field(4), m2: field(5) },
        (3, 20) => Curve::Delayed { d: field(3), m: field(4) },
        _ => return None,
    };
    Some(Class { parent: field(0), share: field(1), curve })
}

/// Write a tree into the lent buffer: the checks 4, 7, 8, 9, 10, 17, then the total bytes and no byte beyond.
pub fn write(tree: &Tree, buffer: &mut [u8]) -> Result<usize, Refusal> {
    tree.check()?;
    let file = file_of(tree, Order::Big);
    if buffer.len() < file.len() {
        return Err(refusal(17, 0));
    }
    buffer[..file.len()].copy_from_slice(&file);
    Ok(file.len())
}

/// The bytes of a tree in either order, with no check: the generator makes wrong files with it too.
pub fn file_of(tree: &Tree, order: Order) -> Vec<u8> {
    bytes_of(&words_of(tree), order)
}

pub fn bytes_of(words: &[u32], order: Order) -> Vec<u8> {
    let four = |word: &u32| match order {
        Order::Big => word.to_be_bytes(),
        Order::Little => word.to_le_bytes(),
    };
    words.iter().flat_map(four).collect()
}

/// The file as words: header, contents, bodies.
pub fn words_of(tree: &Tree) -> Vec<u32> {
    let bodies: Vec<Vec<u32>> = tree.classes.iter().map(body_words).collect();
    words_of_bodies(&bodies)
}

/// Header and contents before bodies of any words, one after another: the generator makes wrong bodies too.
pub fn words_of_bodies(bodies: &[Vec<u32>]) -> Vec<u32> {
    let mut end = contents_end(bodies.len()) as u32;
    let mut entries = Vec::new();
    for body in bodies {
        entries.extend([end, 4 * body.len() as u32]);
        end += 4 * body.len() as u32;
    }
    let header = vec![MARK, 1, bodies.len() as u32, end];
    [header, entries, bodies.concat()].concat()
}

/// Parent, share, kind, numbers.
pub fn body_words(class: &Class) -> Vec<u32> {
    let numbers = match class.curve {
        Curve::None => vec![0],
        Curve::Straight { m } => vec![1, m],
        Curve::FrontLoaded { m1, d, m2 } => vec![2, m1, d, m2],
        Curve::Delayed { d, m } => vec![3, d, m],
    };
    [vec![class.parent, class.share], numbers].concat()
}
