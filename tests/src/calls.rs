//! Start, arrive and depart with their refusals, and the text forms of calls and answers.

use crate::file;
use crate::history::{held, History, Rule};
use crate::lines::{is_number, lines, number, words, Answer, Fault, FaultyLine};
use crate::tree::{Refusal, Tree};

pub const HALF_ROUND: u32 = 1 << 31;
pub const CLOCK_TOP: u128 = 1 << 40;
pub const BYTES_TOP: u128 = 1 << 40;
pub const LENGTH_TOP: u128 = 9_000;
pub const WAITING_TOP: usize = 64;
/// The longest line that a replay takes, in bytes without its end. A longer one is not a call, whatever it says.
pub const LINE_TOP: usize = 65_535;

/// A packet that leaves, with the head's times as they stood before it left.
#[derive(Clone, Copy, Debug, PartialEq, Eq)]
pub struct Packet {
    pub class: usize,
    pub number: usize,
    pub length: u128,
    pub rule: Rule,
    /// Eligible time and deadline, for a leaf with a real-time curve.
    pub times: Option<(u128, u128)>,
}

#[derive(Clone, Copy, Debug, PartialEq, Eq)]
pub enum Departure {
    Packet(Packet),
    NoneWaits,
}

/// A state comes only from start or an earlier call.
#[derive(Clone, Debug, PartialEq, Eq)]
pub struct State {
    pub history: History,
    /// 2^40; a test lowers it, since no test can send so many packets.
    bytes_top: u128,
}

impl State {
    /// Start checks 4, 7, 8, 9, 10.
    pub fn start(tree: &Tree, stamp: u32) -> Result<State, Refusal> {
        tree.check()?;
        Ok(State::over(tree.clone(), stamp))
    }

    /// What a refused start gives: no classes, time 0, the first stamp kept.
    pub fn refused_start(stamp: u32) -> State {
        State::over(Tree::of_no_classes(), stamp)
    }

    fn over(tree: Tree, stamp: u32) -> State {
        State { history: History::new(tree, stamp), bytes_top: BYTES_TOP }
    }

    /// Elapsed ticks: the stamp less the last kept stamp, modulo 2^32.
    pub fn elapsed(&self, stamp: u32) -> u32 {
        stamp.wrapping_sub(self.history.last_kept_stamp())
    }

    /// Refusals 14 and 15, else the clock that the call makes.
    fn clock_at(&self, stamp: u32) -> Result<u128, u32> {
        let elapsed = self.elapsed(stamp);
        if elapsed >= HALF_ROUND {
            return Err(14);
        }
        let clock = self.history.clock() + u128::from(elapsed);
        if clock > CLOCK_TOP {
            return Err(15);
        }
        Ok(clock)
    }

    /// An arrival checks 14, 15, 11, 12, 13, 16 and answers the packet's number within its leaf.
    pub fn arrive(&mut self, stamp: u32, class: u32, length: u32) -> Result<usize, u32> {
        let at = self.clock_at(stamp)?;
        let (leaf, length) = (class as usize, u128::from(length));
        if !self.history.tree.is_leaf(leaf) {
            return Err(11);
        }
        if !(1..=LENGTH_TOP).contains(&length) {
            return Err(12);
        }
        if self.history.waiting(leaf) >= WAITING_TOP {
            return Err(13);
        }
        if self.history.accepted_bytes() + held(length) > self.bytes_top {
            return Err(16);
        }
        let number = self.history.count_came(leaf);
        self.history.came(stamp, at, leaf, length);
        Ok(number)
    }

    /// A departure checks 14, 15.
    pub fn depart(&mut self, stamp: u32) -> Result<Departure, u32> {
        let at = self.clock_at(stamp)?;
        let Some((leaf, rule)) = self.history.choice(at) else {
            self.history.idle(stamp, at);
            return Ok(Departure::NoneWaits);
        };
        let packet = self.packet(leaf, rule);
        self.history.left(stamp, at, leaf, packet.length, rule);
        Ok(Departure::Packet(packet))
    }

    /// The head of a chosen leaf as an answer.
    fn packet(&self, leaf: usize, rule: Rule) -> Packet {
        let head = self.history.head(leaf).expect("a chosen leaf has a head");
        let times = self.history.eligible_time(leaf).zip(self.history.deadline(leaf));
        Packet { class: leaf, number: head.number, length: head.length, rule, times }
    }
}

// Text.

/// A line of a file of calls.
#[derive(Clone, Copy, Debug, PartialEq, Eq)]
pub enum Call {
    Start { stamp: u32 },
    Arrive { stamp: u32, class: u32, length: u32 },
    Depart { stamp: u32 },
}

/// A line without its end: nothing for a blank line or a comment. The form is judged first, then the size of the numbers.
pub fn parse_line(line: &[u8]) -> Result<Option<Call>, Fault> {
    if line.len() > LINE_TOP {
        return Err(Fault::NotACall);
    }
    let words = words(line);
    let Some((&name, operands)) = words.split_first() else { return Ok(None) };
    let in_form = match name {
        b"start" | b"depart" => operands.len() == 1,
        b"arrive" => operands.len() == 3,
        _ => false,
    };
    if !in_form || !is_number(&operands.concat()) {
        return Err(Fault::NotACall);
    }
    let numbers = operands.iter().map(|digits| number(digits)).collect::<Result<Vec<u32>, Fault>>()?;
    Ok(Some(match (name, &numbers[..]) {
        (b"start", &[stamp]) => Call::Start { stamp },
        (b"arrive", &[stamp, class, length]) => Call::Arrive { stamp, class, length },
        (b"depart", &[stamp]) => Call::Depart { stamp },
        _ => unreachable!("the form was judged"),
    }))
}

pub fn print_call(call: Call) -> String {
    match call {
        Call::Start { stamp } => format!("start {stamp}"),
        Call::Arrive { stamp, class, length } => format!("arrive {stamp} {class} {length}"),
        Call::Depart { stamp } => format!("depart {stamp}"),
    }
}

pub fn print_arrival(answer: Result<usize, u32>) -> String {
    match answer {
        Ok(number) => format!("accepted number {number}"),
        Err(refusal) => format!("refused {refusal}"),
    }
}

pub fn print_departure(answer: Result<Departure, u32>) -> String {
    match answer {
        Ok(Departure::Packet(packet)) => print_packet(packet),
        Ok(Departure::NoneWaits) => "none waits".to_string(),
        Err(refusal) => format!("refused {refusal}"),
    }
}

fn print_packet(packet: Packet) -> String {
    let rule = match packet.rule {
        Rule::RealTime => "real-time",
        Rule::Fair => "fair",
    };
    let times = packet.times.map_or(String::new(), |(e, d)| format!(" eligible {e} deadline {d}"));
    format!("packet class {} number {} length {} rule {rule}{times}", packet.class, packet.number, packet.length)
}

/// One call on the state there is so far; start comes first, and once.
fn answer(tree: &Tree, state: &mut Option<State>, call: Call) -> Result<String, Fault> {
    match (state.as_mut(), call) {
        (None, Call::Start { stamp }) => {
            *state = Some(State::start(tree, stamp).expect("a tree that was read starts"));
            Ok(format!("started {}", tree.count()))
        }
        (Some(state), Call::Arrive { stamp, class, length }) => Ok(print_arrival(state.arrive(stamp, class, length))),
        (Some(state), Call::Depart { stamp }) => Ok(print_departure(state.depart(stamp))),
        (None, _) => Err(Fault::StartFirst),
        (Some(_), Call::Start { .. }) => Err(Fault::StartedAlready),
    }
}

/// A replay up to its end or to a faulty line: what was printed for the calls, and the state after them, where there was a start.
pub struct Replayed {
    pub answers: String,
    pub state: Option<State>,
    pub fault: Option<FaultyLine>,
}

/// The lines of a file of calls, in their order.
pub fn replayed(tree: &Tree, calls: &[u8]) -> Replayed {
    let (mut answers, mut state) = (String::new(), None);
    for (number, line) in lines(calls) {
        let answered = match parse_line(line) {
            Ok(None) => continue,
            Ok(Some(call)) => answer(tree, &mut state, call),
            Err(fault) => Err(fault),
        };
        match answered {
            Ok(text) => answers += &(text + "\n"),
            Err(fault) => return Replayed { answers, state, fault: Some(FaultyLine { number, fault }) },
        }
    }
    Replayed { answers, state, fault: None }
}

/// What a replay of these calls on this tree file prints, and its status. A refused call is an answer.
pub fn replay(tree_file: &[u8], calls: &[u8]) -> Answer {
    match file::read(tree_file) {
        Ok(tree) => {
            let replayed = replayed(&tree, calls);
            Answer::up_to(replayed.answers, replayed.fault)
        }
        Err(refusal) => Answer::ended(String::new(), refusal),
    }
}

/// The stamp with which a file of calls starts, if its first call is `start`.
pub fn first_stamp(calls: &[u8]) -> Option<u32> {
    match lines(calls).find_map(|(_, line)| parse_line(line).transpose())? {
        Ok(Call::Start { stamp }) => Some(stamp),
        _ => None,
    }
}

/// What `replay TREE` alone prints, and its status.
pub fn show_tree(tree_file: &[u8]) -> Answer {
    match file::read(tree_file) {
        Ok(tree) => Answer::done(tree.print()),
        Err(refusal) => Answer::ended(String::new(), refusal),
    }
}

#[cfg(test)]
mod tests {
    use super::*;
    use crate::curves::Curve;
    use crate::tree::Class;

    fn two_leaves() -> Tree {
        let leaf = Class { parent: 0, share: 1, curve: Curve::None };
        Tree::under_root(&[leaf, leaf])
    }

    #[test]
    fn lines() {
        let says = |line: &str, call| assert_eq!(parse_line(line.as_bytes()), Ok(Some(call)), "{line}");
        for nothing in ["", " \t\r", "  # depart 5", "#", "\r"] {
            assert_eq!(parse_line(nothing.as_bytes()), Ok(None));
        }
        says("depart 5 # the fifth", Call::Depart { stamp: 5 });
        says("depart 5# the fifth", Call::Depart { stamp: 5 });
        says("start 4294967295\r", Call::Start { stamp: u32::MAX });
        says("\tarrive  1\t2 \r3 ", Call::Arrive { stamp: 1, class: 2, length: 3 });
        says(&format!("start {}7", "0".repeat(100)), Call::Start { stamp: 7 });
        for wrong in ["arrive 1 2", "arrive 1 2 3 4", "depart", "depart x", "depart -1", "depart +1", "Depart 1", "wait 3", "5", "start\x0b1", "start 1\0"] {
            assert_eq!(parse_line(wrong.as_bytes()), Err(Fault::NotACall), "{wrong}");
        }
    }

    /// The form is judged before the size of the numbers.
    #[test]
    fn numbers_past_32_bits() {
        for large in ["start 4294967296", "depart 99999999999999999999999999", "arrive 4294967296 1 2", "arrive 1 4294967296 2", "arrive 1 2 4294967296"] {
            assert_eq!(parse_line(large.as_bytes()), Err(Fault::TooLarge), "{large}");
        }
        for wrong in ["arrive 4294967296 x 2", "arrive x 1 4294967296", "arrive 4294967296 1", "depart 4294967296 1", "wait 4294967296", "depart 4294967296x"] {
            assert_eq!(parse_line(wrong.as_bytes()), Err(Fault::NotACall), "{wrong}");
        }
    }

    #[test]
    fn lines_have_a_longest() {
        let line = |length: usize| format!("depart 5 #{}", "x".repeat(length - 10));
        assert_eq!(parse_line(line(LINE_TOP).as_bytes()), Ok(Some(Call::Depart { stamp: 5 })));
        assert_eq!(parse_line(line(LINE_TOP + 1).as_bytes()), Err(Fault::NotACall));
        assert_eq!(parse_line("#".repeat(LINE_TOP + 1).as_bytes()), Err(Fault::NotACall));
    }

    #[test]
    fn replays_of_text() {
        let tree = file::file_of(&two_leaves(), file::Order::Big);
        let answers = |calls: &str, printed: &str, status| {
            assert_eq!(replay(&tree, calls.as_bytes()), Answer { printed: printed.to_string(), status }, "{calls}");
        };
        answers("# first\n\nstart 5\ndepart 6\nleave 7\ndepart 8\n", "started 3\nnone waits\nline 5: not a call\n", 1);
        answers("start 5\r\n\r\ndepart 6", "started 3\nnone waits\n", 0);
        answers("start 5\rdepart 6\n", "line 1: not a call\n", 1);
        answers("start 5\narrive 6 0 1\ndepart 4\n", "started 3\nrefused 11\nrefused 14\n", 0);
        answers("", "", 0);
        assert_eq!(replay(&[], b"start 5\n"), Answer { printed: "refused 1 class 0\n".to_string(), status: 1 });
    }

    /// A line is judged by itself first, before `start` too.
    #[test]
    fn start_comes_first_and_once() {
        let tree = file::file_of(&two_leaves(), file::Order::Big);
        let ends = |calls: &str, printed: &str| assert_eq!(replay(&tree, calls.as_bytes()).printed, printed, "{calls}");
        ends("depart 6\n", "line 1: start comes first\n");
        ends("\n# so\narrive 6 9 0\nstart 7", "line 3: start comes first\n");
        ends("depart 4294967296\n", "line 1: number past 32 bits\n");
        ends("depart 6 7\n", "line 1: not a call\n");
        ends("start 4294967296\ndepart 6\n", "line 1: number past 32 bits\n");
        ends("start 5\nstart 5\n", "started 3\nline 2: started already\n");
        ends("start 5\ndepart 6\n\nstart 6 # again\ndepart 7", "started 3\nnone waits\nline 4: started already\n");
        ends("start 5\nstart 4294967296\n", "started 3\nline 2: number past 32 bits\n");
        ends("start 5\nstart\n", "started 3\nline 2: not a call\n");
    }

    /// 2^40 accepted bytes are out of reach, so the limit is lowered to 10,000: exactly that is allowed, 9,020 for the one packet and 980 for the other.
    #[test]
    fn accepted_bytes_have_a_top() {
        let mut state = State::start(&two_leaves(), 0).unwrap();
        state.bytes_top = 10_000;
        assert_eq!(state.arrive(0, 1, 9_000), Ok(0));
        let before = state.clone();
        assert_eq!(state.arrive(5, 2, 961), Err(16));
        assert_eq!(state, before);
        assert_eq!(state.arrive(5, 2, 960), Ok(0));
        state.depart(5).unwrap();
        assert_eq!(state.arrive(5, 2, 1), Err(16)); // departures give no bytes back
        for _ in 2..65 {
            assert_eq!(state.arrive(5, 1, 9_001), Err(12));
        }
    }

    #[test]
    fn refusals_come_in_their_order() {
        let mut state = State::start(&two_leaves(), 0).unwrap();
        for number in 0..64 {
            assert_eq!(state.arrive(0, 1, 1), Ok(number));
        }
        let full = state.clone();
        assert_eq!(state.arrive(0, 1, 1), Err(13));
        assert_eq!(state.arrive(0, 1, 0), Err(12));
        assert_eq!(state.arrive(0, 1, 9_001), Err(12));
        assert_eq!(state.arrive(0, 3, 0), Err(11));
        assert_eq!(state.arrive(0, 0, 1), Err(11));
        assert_eq!(state.arrive(0, u32::MAX, 1), Err(11));
        assert_eq!(state.arrive(HALF_ROUND, 3, 0), Err(14));
        assert_eq!(state.depart(u32::MAX), Err(14));
        assert_eq!(state, full);
        state.depart(0).unwrap();
        assert_eq!(state.arrive(0, 1, 1), Ok(64)); // freed room is used again
    }

    #[test]
    fn the_clock_has_a_top() {
        let mut state = State::start(&two_leaves(), 77).unwrap();
        let mut stamp = 77u32;
        for _ in 0..512 {
            stamp = stamp.wrapping_add(HALF_ROUND - 1);
            assert_eq!(state.depart(stamp), Ok(Departure::NoneWaits));
        }
        assert_eq!(state.history.clock(), CLOCK_TOP - 512);
        assert_eq!(state.depart(stamp.wrapping_add(513)), Err(15));
        assert_eq!(state.arrive(stamp.wrapping_add(513), 9, 0), Err(15));
        assert_eq!(state.arrive(stamp.wrapping_sub(1), 9, 0), Err(14));
        assert_eq!(state.arrive(stamp.wrapping_add(512), 1, 9_000), Ok(0));
        assert_eq!(state.history.clock(), CLOCK_TOP);
        assert_eq!(state.depart(stamp.wrapping_add(513)), Err(15));
        assert!(matches!(state.depart(stamp.wrapping_add(512)), Ok(Departure::Packet(_))));
    }

    #[test]
    fn a_refused_start_has_no_classes() {
        let mut state = State::refused_start(10);
        assert_eq!(state.arrive(11, 0, 1), Err(11));
        assert_eq!(state.arrive(11, 1, 0), Err(11));
        assert_eq!(state.arrive(9, 1, 0), Err(14));
        assert_eq!(state.depart(12), Ok(Departure::NoneWaits));
        assert_eq!(state.history.clock(), 2);
        assert_eq!(state.depart(11), Err(14));
    }
}
