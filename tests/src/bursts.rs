//! Request 1: a reader that takes a class-tree file in bursts and is told when it ends. The model has every byte that it was given, and judges the whole
//! file by document 01 when the end was told. A script is a list of steps over it, and each step answers a line: `bursts.c` beside `src` takes and prints the same.

use crate::calls::{Departure, State};
use crate::file::{read_given, Given};
use crate::history::Rule;
use crate::tree::{Refusal, Tree};
use std::fmt;

/// The bytes of the longest right file: those that may be kept.
pub const KEPT: u64 = 2_052;

/// Where the count of bytes seen stops: one more than any total a file can state.
pub const COUNT_TOP: u64 = 1 << 32;

/// The classes that a started state is asked about, one more than there can be, and the ticks between its departures.
const ASKED: u32 = 65;
const APART: u32 = 1_000;

/// Bytes of a file that came one after another.
#[derive(Clone, Debug)]
enum Stretch {
    Bytes(Vec<u8>),
    Zeros(u64),
}

impl Stretch {
    fn length(&self) -> u64 {
        match self {
            Stretch::Bytes(bytes) => bytes.len() as u64,
            Stretch::Zeros(zeros) => *zeros,
        }
    }

    fn byte(&self, at: u64) -> u8 {
        match self {
            Stretch::Bytes(bytes) => bytes[at as usize],
            Stretch::Zeros(_) => 0,
        }
    }
}

/// All that came, in order.
#[derive(Clone, Debug, Default)]
struct Came(Vec<Stretch>);

impl Given for Came {
    fn length(&self) -> u64 {
        self.0.iter().map(Stretch::length).sum()
    }

    fn byte(&self, at: u64) -> u8 {
        let mut before = 0;
        for stretch in &self.0 {
            if at - before < stretch.length() {
                return stretch.byte(at - before);
            }
            before += stretch.length();
        }
        panic!("the file has no byte {at}")
    }
}

impl Came {
    fn add(&mut self, burst: &[u8]) {
        match self.0.last_mut() {
            Some(Stretch::Bytes(bytes)) => bytes.extend(burst),
            _ => self.0.push(Stretch::Bytes(burst.to_vec())),
        }
    }

    fn add_zeros(&mut self, more: u64) {
        match self.0.last_mut() {
            Some(Stretch::Zeros(zeros)) => *zeros += more,
            _ => self.0.push(Stretch::Zeros(more)),
        }
    }
}

/// The reader between two calls.
#[derive(Clone, Debug, Default)]
pub struct Reader {
    came: Came,
    end_told: bool,
}

impl Reader {
    pub fn begin() -> Reader {
        Reader::default()
    }

    /// A burst, perhaps of nothing. After the end it changes nothing and is answered with the same result.
    pub fn offer(&mut self, burst: &[u8]) -> Option<Result<Tree, Refusal>> {
        if !self.end_told {
            self.came.add(burst);
        }
        self.result()
    }

    /// So many bursts, of so many zeros each.
    pub fn offer_zeros(&mut self, bytes: u64, times: u64) -> Option<Result<Tree, Refusal>> {
        if !self.end_told {
            self.came.add_zeros(bytes * times);
        }
        self.result()
    }

    /// The reader is told that the file ends, or told so again.
    pub fn end(&mut self) -> Result<Tree, Refusal> {
        self.end_told = true;
        read_given(&self.came)
    }

    fn result(&self) -> Option<Result<Tree, Refusal>> {
        self.end_told.then(|| read_given(&self.came))
    }

    /// The bytes that may be kept: the file's first, zeros where none came.
    pub fn kept(&self) -> Vec<u8> {
        let came = self.came.0.iter().flat_map(|stretch| (0..stretch.length().min(KEPT)).map(|at| stretch.byte(at)));
        came.chain(std::iter::repeat(0)).take(KEPT as usize).collect()
    }

    /// What else may be kept: a count of bytes seen, which stops, and the note that the end was told.
    pub fn seen(&self) -> [u64; 2] {
        [self.came.length().min(COUNT_TOP), u64::from(self.end_told)]
    }
}

// Scripts.

#[derive(Clone, Debug, PartialEq, Eq)]
pub enum Step {
    Begin,
    Offer(Vec<u8>),
    Zeros { bytes: u64, times: u64 },
    End,
    Start { stamp: u32 },
}

/// As a script has it.
impl fmt::Display for Step {
    fn fmt(&self, to: &mut fmt::Formatter) -> fmt::Result {
        match self {
            Step::Begin => to.write_str("begin"),
            Step::Offer(burst) if burst.is_empty() => to.write_str("offer -"),
            Step::Offer(burst) => write!(to, "offer {}", burst.iter().map(|byte| format!("{byte:02x}")).collect::<String>()),
            Step::Zeros { bytes, times } => write!(to, "zeros {bytes} {times}"),
            Step::End => to.write_str("end"),
            Step::Start { stamp } => write!(to, "start {stamp}"),
        }
    }
}

/// The line of a step: its name, the refusal or 0 (also for `nothing yet`), for the end and a start the class, then the count and the note, and a sum
/// over the kept bytes; for a start a sum over what its state answers.
pub fn answer(reader: &mut Reader, step: &Step) -> String {
    let number = |result: &Option<Result<Tree, Refusal>>| match result {
        Some(Err(refusal)) => refusal.number,
        _ => 0,
    };
    let with_class = |result: &Result<Tree, Refusal>| match result {
        Ok(_) => "0 class 0".to_string(),
        Err(Refusal { number, class }) => format!("{number} class {class}"),
    };
    let mut calls = String::new();
    let said = match step {
        Step::Begin => {
            *reader = Reader::begin();
            "begin".to_string()
        }
        Step::Offer(burst) => format!("offer {}", number(&reader.offer(burst))),
        Step::Zeros { bytes, times } => format!("zeros {}", number(&reader.offer_zeros(*bytes, *times))),
        Step::End => format!("end {}", with_class(&reader.end())),
        Step::Start { stamp } => {
            let result = reader.end();
            calls = format!(" calls {:016x}", fnv(&asked(&result, *stamp)));
            format!("start {}", with_class(&result))
        }
    };
    let [count, told] = reader.seen();
    format!("{said} seen {count} {told} kept {:016x}{calls}\n", fnv(&reader.kept()))
}

/// What a script prints.
pub fn answers(steps: &[Step]) -> String {
    let mut reader = Reader::begin();
    steps.iter().map(|step| answer(&mut reader, step)).collect()
}

/// The 64-bit FNV-1a sum.
pub fn fnv(bytes: &[u8]) -> u64 {
    bytes.iter().fold(0xCBF2_9CE4_8422_2325, |sum, &byte| (sum ^ u64::from(byte)).wrapping_mul(0x0000_0100_0000_01B3))
}

/// What a state answers to a packet for each class, a tick apart, then to as many departures; last the classes' virtual times, which show the shares, and
/// the clock. Every number is eight bytes, the lowest first.
fn asked(result: &Result<Tree, Refusal>, stamp: u32) -> Vec<u8> {
    let mut state = match result {
        Ok(tree) => State::start(tree, stamp).expect("a tree that was read starts"),
        Err(_) => State::refused_start(stamp),
    };
    let arrivals: Vec<u64> = (0..ASKED).flat_map(|class| arrival_numbers(state.arrive(stamp.wrapping_add(class), class, 9_000 - class))).collect();
    let departures: Vec<u64> = (1..=ASKED).flat_map(|turn| departure_numbers(state.depart(stamp.wrapping_add(APART * turn)))).collect();
    let virtual_times = (0..ASKED).map(|class| state.history.virtual_time(class as usize) as u64);
    let numbers = arrivals.into_iter().chain(departures).chain(virtual_times).chain([state.history.clock() as u64]);
    numbers.flat_map(u64::to_le_bytes).collect()
}

/// The refusal or 0, and the packet's number.
fn arrival_numbers(arrival: Result<usize, u32>) -> [u64; 2] {
    match arrival {
        Ok(number) => [0, number as u64],
        Err(refusal) => [refusal.into(), 0],
    }
}

/// The refusal or 0, then as the header of the C functions lists them.
fn departure_numbers(departure: Result<Departure, u32>) -> [u64; 9] {
    let packet = match departure {
        Ok(Departure::Packet(packet)) => packet,
        Ok(Departure::NoneWaits) => return [0; 9],
        Err(refusal) => return [refusal.into(), 0, 0, 0, 0, 0, 0, 0, 0],
    };
    let rule = match packet.rule {
        Rule::RealTime => 1,
        Rule::Fair => 2,
    };
    let (timed, eligible, deadline) = packet.times.map_or((0, 0, 0), |(eligible, deadline)| (1, eligible as u64, deadline as u64));
    [0, 1, packet.class as u64, packet.number as u64, packet.length as u64, rule, timed, eligible, deadline]
}

#[cfg(test)]
mod tests {
    use super::*;
    use crate::curves::Curve;
    use crate::file::{bytes_of, file_of, read, words_of, Order};
    use crate::gen::{damaged_file, tree_a, Dice};
    use crate::tree::{refusal, Class};

    fn smallest() -> Tree {
        Tree::under_root(&[Class { parent: 0, share: 65_536, curve: Curve::Straight { m: 65_536 } }])
    }

    /// The smallest tree's file with this total stated.
    fn stating(total: u32) -> Vec<u8> {
        let mut words = words_of(&smallest());
        words[3] = total;
        bytes_of(&words, Order::Big)
    }

    fn after(bursts: &[&[u8]]) -> Reader {
        let mut reader = Reader::begin();
        bursts.iter().for_each(|burst| assert_eq!(reader.offer(burst), None));
        reader
    }

    /// However the bytes are cut.
    #[test]
    fn any_cut_answers_as_the_whole_file() {
        for seed in 0..200 {
            let dice = &mut Dice::new(seed);
            let number = dice.between(1, 10);
            let file = damaged_file(dice, number);
            let (one, two) = (dice.below(file.len() as u64 + 1) as usize, dice.below(file.len() as u64 + 1) as usize);
            let (one, two) = (one.min(two), one.max(two));
            let mut reader = after(&[&file[..one], &[], &file[one..two], &file[two..], &[]]);
            assert_eq!(reader.end(), read(&file));
            assert_eq!(reader.kept()[..file.len()], file);
            assert_eq!(reader.seen(), [file.len() as u64, 1]);
        }
    }

    #[test]
    fn after_the_end_nothing_changes() {
        let file = file_of(&tree_a(), Order::Little);
        let mut reader = after(&[&file[..95]]);
        let (ended, kept) = (reader.end(), reader.kept());
        assert_eq!(ended, Err(refusal(5, 0)));
        for _ in 0..2 {
            assert_eq!(reader.offer(&file[95..]), Some(Err(refusal(5, 0))));
            assert_eq!(reader.offer(&[]), Some(Err(refusal(5, 0))));
            assert_eq!(reader.offer_zeros(5, 7), Some(Err(refusal(5, 0))));
            assert_eq!(reader.end(), Err(refusal(5, 0)));
        }
        assert_eq!((reader.kept(), reader.seen()), (kept, [95, 1]));
        let mut reader = after(&[&file]);
        assert_eq!(reader.end(), Ok(tree_a()));
        assert_eq!(reader.offer(&file), Some(Ok(tree_a())));
    }

    #[test]
    fn nothing_is_a_file_under_16_bytes() {
        assert_eq!(after(&[]).end(), Err(refusal(1, 0)));
        let mut reader = after(&[&[], &[]]);
        assert_eq!((reader.end(), reader.seen()), (Err(refusal(1, 0)), [0, 1]));
        assert_eq!(reader.kept(), [0; KEPT as usize]);
    }

    /// The count stops, and no total is ever equal to it again.
    #[test]
    fn files_past_32_bits() {
        let judged = |file: &[u8], length: u64| {
            let mut reader = after(&[file]);
            assert_eq!(reader.offer_zeros(length - file.len() as u64, 1), None);
            assert_eq!(reader.seen(), [length.min(COUNT_TOP), 0]);
            reader.end()
        };
        assert_eq!(judged(&stating(60), 60), Ok(smallest()));
        assert_eq!(judged(&stating(60), COUNT_TOP + 60), Err(refusal(5, 0)));
        assert_eq!(judged(&stating(5), COUNT_TOP + 5), Err(refusal(5, 0)));
        assert_eq!(judged(&stating(u32::MAX), COUNT_TOP - 1), Err(refusal(6, 1)));
        assert_eq!(judged(&stating(u32::MAX), COUNT_TOP), Err(refusal(5, 0)));
        assert_eq!(judged(&stating(u32::MAX), 2 * COUNT_TOP - 1), Err(refusal(5, 0)));
        assert_eq!(judged(&stating(0), COUNT_TOP), Err(refusal(5, 0)));
        assert_eq!(judged(&[], COUNT_TOP + 60), Err(refusal(2, 0)));
    }

    /// Zeros that are not at the end count as any others.
    #[test]
    fn zeros_inside_a_file() {
        let file = stating(60);
        let mut reader = after(&[&file[..4]]);
        reader.offer_zeros(1, 3);
        reader.offer(&file[7..]);
        assert_eq!((reader.end(), &reader.kept()[..60]), (Ok(smallest()), &file[..]));
    }

    #[test]
    fn lines() {
        let steps = [Step::Begin, Step::Offer(vec![]), Step::Offer(vec![1, 0xA0]), Step::Zeros { bytes: 2, times: 3 }, Step::End, Step::Start { stamp: 9 }];
        assert_eq!(steps.clone().map(|step| step.to_string()), ["begin", "offer -", "offer 01a0", "zeros 2 3", "end", "start 9"]);
        let printed = answers(&steps);
        let lines: Vec<&str> = printed.lines().collect();
        assert!(lines[1].starts_with("offer 0 seen 0 0 kept "));
        assert!(lines[3].starts_with("zeros 0 seen 8 0 kept "));
        assert!(lines[4].starts_with("end 1 class 0 seen 8 1 kept "));
        assert!(lines[5].starts_with("start 1 class 0 seen 8 1 kept "));
        assert_eq!(fnv(b""), 0xCBF2_9CE4_8422_2325);
        assert_eq!(fnv(b"foobar"), 0x8594_4171_F739_67E8);
    }

    /// The sum over a state's answers tells trees apart, curves, parents and shares too.
    #[test]
    fn a_state_shows_its_tree() {
        let shown = |tree: &Tree| fnv(&asked(&Ok(tree.clone()), 7));
        let mut seen = vec![fnv(&asked(&Err(refusal(5, 0)), 7)), shown(&tree_a())];
        for change in [
            |tree: &mut Tree| tree.classes[1].share += 9_000,
            |tree: &mut Tree| tree.classes[1].curve = Curve::FrontLoaded { m1: 32_768, d: 2_000, m2: 16_383 },
            |tree: &mut Tree| tree.classes[2].curve = Curve::None,
            |tree: &mut Tree| tree.classes.push(Class { parent: 0, share: 1, curve: Curve::None }),
        ] {
            let mut tree = tree_a();
            change(&mut tree);
            let sum = shown(&tree);
            assert!(!seen.contains(&sum), "{tree:?}");
            seen.push(sum);
        }
        assert_eq!(shown(&tree_a()), fnv(&asked(&Ok(tree_a()), u32::MAX)));
    }
}
