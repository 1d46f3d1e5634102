//! Request 4: a log of another box, judged. A log is a list of 32-bit numbers, four to a record: kind, stamp, class, length. It is replayed from a tree and
//! a first stamp, record by record, over a state that keeps the whole history.

use crate::calls::{Departure, State};
use crate::file;
use crate::history::{Deed, Event, History};
use crate::tree::{Refusal, Tree};

/// The numbers of a record.
pub const RECORD: usize = 4;

/// The kinds of a record.
pub const ARRIVAL: u32 = 1;
pub const DEPARTURE: u32 = 2;
pub const FOUND_EMPTY: u32 = 3;

/// What is said of a log. Records are numbered from 0.
#[derive(Clone, Copy, Debug, PartialEq, Eq)]
pub enum Judgement {
    Accepted,
    /// Start's refusal, before any record is read.
    TreeRefused(Refusal),
    Malformed { record: usize },
    Refused { record: usize, number: u32 },
    /// With the answer that our rules give there.
    AnotherChoice { record: usize, ours: Departure },
}

/// What is wrong with one record.
enum Wrong {
    Malformed,
    Refused(u32),
    AnotherChoice(Departure),
}

impl Wrong {
    fn at(self, record: usize) -> Judgement {
        match self {
            Wrong::Malformed => Judgement::Malformed { record },
            Wrong::Refused(number) => Judgement::Refused { record, number },
            Wrong::AnotherChoice(ours) => Judgement::AnotherChoice { record, ours },
        }
    }
}

/// The log is judged in order, so an earlier fault is named first. Where its length isn't a multiple of four, its last record is short.
pub fn judge(tree: &Tree, first_stamp: u32, log: &[u32]) -> Judgement {
    let mut state = match State::start(tree, first_stamp) {
        Ok(state) => state,
        Err(refusal) => return Judgement::TreeRefused(refusal),
    };
    for (record, numbers) in log.chunks(RECORD).enumerate() {
        if let Some(wrong) = replay_record(&mut state, numbers) {
            return wrong.at(record);
        }
    }
    Judgement::Accepted
}

/// The same from a class-tree file: one that is refused is no tree.
pub fn judge_file(tree_file: &[u8], first_stamp: u32, log: &[u32]) -> Judgement {
    match file::read(tree_file) {
        Ok(tree) => judge(&tree, first_stamp, log),
        Err(refusal) => Judgement::TreeRefused(refusal),
    }
}

/// One record, and what is wrong with it: malformed comes before refused, and refused before another choice.
fn replay_record(state: &mut State, numbers: &[u32]) -> Option<Wrong> {
    let &[kind, stamp, class, length] = numbers else { return Some(Wrong::Malformed) };
    match kind {
        ARRIVAL => state.arrive(stamp, class, length).err().map(Wrong::Refused),
        DEPARTURE => replay_departure(state, stamp, Some((class, length))),
        FOUND_EMPTY if class == 0 && length == 0 => replay_departure(state, stamp, None),
        _ => Some(Wrong::Malformed),
    }
}

/// The answer must be the one our rules give, class and length both; none is that none waits.
fn replay_departure(state: &mut State, stamp: u32, theirs: Option<(u32, u32)>) -> Option<Wrong> {
    match state.depart(stamp) {
        Ok(ours) if told(ours) == theirs => None,
        Ok(ours) => Some(Wrong::AnotherChoice(ours)),
        Err(number) => Some(Wrong::Refused(number)),
    }
}

/// What a log tells of a departure: the packet's class and length, or that none waits.
fn told(departure: Departure) -> Option<(u32, u32)> {
    match departure {
        Departure::Packet(packet) => Some((packet.class as u32, packet.length as u32)),
        Departure::NoneWaits => None,
    }
}

// The log of a run.

fn record_of(event: &Event) -> [u32; RECORD] {
    match event.deed {
        Deed::Came { leaf, length } => [ARRIVAL, event.stamp, leaf as u32, length as u32],
        Deed::Left { leaf, length, .. } => [DEPARTURE, event.stamp, leaf as u32, length as u32],
        Deed::Idle => [FOUND_EMPTY, event.stamp, 0, 0],
    }
}

/// The records of a run of ours: one for each call that was not refused.
pub fn records_of(history: &History) -> Vec<[u32; RECORD]> {
    history.events.iter().map(record_of).collect()
}

// As the function for hosts in C answers.

/// The answer, and the four numbers that are written.
pub fn in_c(judgement: Judgement) -> (u32, [u64; 4]) {
    match judgement {
        Judgement::Accepted => (0, [0; 4]),
        Judgement::TreeRefused(Refusal { number, class }) => (1, [0, number.into(), class as u64, 0]),
        Judgement::Malformed { record } => (2, [record as u64, 0, 0, 0]),
        Judgement::Refused { record, number } => (3, [record as u64, number.into(), 0, 0]),
        Judgement::AnotherChoice { record, ours } => {
            let (sends, class, length) = told(ours).map_or((0, 0, 0), |(class, length)| (1, class, length));
            (4, [record as u64, sends, class.into(), length.into()])
        }
    }
}

#[cfg(test)]
mod tests {
    use super::*;
    use crate::calls::HALF_ROUND;
    use crate::gen::{log, tree_a, Log};
    use crate::tree::refusal;

    /// The request's first sentence once more: the calls of a log, made one after another, refused ones too, give a run whose log is the same.
    fn is_accepted(tree: &Tree, first_stamp: u32, log: &[u32]) -> bool {
        let mut state = State::start(tree, first_stamp).unwrap();
        for numbers in log.chunks(RECORD) {
            match *numbers {
                [ARRIVAL, stamp, class, length] => drop(state.arrive(stamp, class, length)),
                [_, stamp, ..] => drop(state.depart(stamp)),
                _ => return false,
            }
        }
        records_of(&state.history).concat() == log
    }

    fn logs(seeds: u64) -> impl Iterator<Item = (Tree, Log)> {
        (0..seeds).map(|seed| log(seed, 60)).filter_map(|log| Some((file::read(&log.tree_file).ok()?, log)))
    }

    fn record(judgement: Judgement) -> usize {
        match judgement {
            Judgement::Malformed { record } | Judgement::Refused { record, .. } | Judgement::AnotherChoice { record, .. } => record,
            other => panic!("{other:?} names no record"),
        }
    }

    #[test]
    fn accepted_exactly_if_the_calls_give_the_log() {
        let (mut accepted, mut wrong) = (0, 0);
        for (tree, log) in logs(600) {
            let judgement = judge(&tree, log.first, &log.numbers);
            assert_eq!(judgement == Judgement::Accepted, is_accepted(&tree, log.first, &log.numbers), "{}", log.name);
            if judgement == Judgement::Accepted { accepted += 1 } else { wrong += 1 }
        }
        assert!(accepted > 100 && wrong > 100, "{accepted} {wrong}");
    }

    /// The record that is named is the first: the log before it is accepted, and with it is not.
    #[test]
    fn the_first_wrong_record_is_named() {
        for (tree, log) in logs(600) {
            let judgement = judge(&tree, log.first, &log.numbers);
            if judgement == Judgement::Accepted {
                continue;
            }
            let from = record(judgement) * RECORD;
            assert!(from < log.numbers.len());
            assert!(is_accepted(&tree, log.first, &log.numbers[..from]), "{}", log.name);
            let to = log.numbers.len().min(from + RECORD);
            assert!(!is_accepted(&tree, log.first, &log.numbers[..to]), "{}", log.name);
            assert_eq!(judge(&tree, log.first, &log.numbers[..to]), judgement, "{}", log.name);
        }
    }

    #[test]
    fn an_accepted_log_is_accepted_up_to_any_record() {
        for (tree, log) in logs(100) {
            if log.numbers.len() > 300 || judge(&tree, log.first, &log.numbers) != Judgement::Accepted {
                continue;
            }
            for to in 0..=log.numbers.len() {
                let short = (to % RECORD != 0).then_some(Judgement::Malformed { record: to / RECORD });
                assert_eq!(judge(&tree, log.first, &log.numbers[..to]), short.unwrap_or(Judgement::Accepted), "{} to {to}", log.name);
            }
        }
    }

    fn of_a(log: &[[u32; RECORD]]) -> Judgement {
        judge(&tree_a(), 100, &log.concat())
    }

    #[test]
    fn kinds() {
        for kind in [0, 4, 5, 257, 65_537, HALF_ROUND + 1, u32::MAX] {
            assert_eq!(of_a(&[[kind, 100, 1, 500]]), Judgement::Malformed { record: 0 }, "{kind}");
            assert_eq!(of_a(&[[3, 100, 0, 0], [kind, 100, 0, 0]]), Judgement::Malformed { record: 1 }, "{kind}");
        }
        for (class, length) in [(1, 0), (0, 1), (1, 500), (u32::MAX, 0), (0, u32::MAX)] {
            assert_eq!(of_a(&[[3, 100, class, length]]), Judgement::Malformed { record: 0 });
        }
        assert_eq!(of_a(&[]), Judgement::Accepted);
        assert_eq!(of_a(&[[3, 100, 0, 0]]), Judgement::Accepted);
        // Kinds 1 and 2 are never malformed by their numbers.
        assert_eq!(of_a(&[[1, 100, u32::MAX, u32::MAX]]), Judgement::Refused { record: 0, number: 11 });
        assert_eq!(of_a(&[[2, 100, u32::MAX, 0]]), Judgement::AnotherChoice { record: 0, ours: Departure::NoneWaits });
        assert_eq!(of_a(&[[2, 100, 0, 0]]), Judgement::AnotherChoice { record: 0, ours: Departure::NoneWaits });
    }

    /// Within one record.
    #[test]
    fn malformed_then_refused_then_another_choice() {
        let waits = [1, 100, 1, 500];
        assert_eq!(of_a(&[waits, [3, 99, 1, 0]]), Judgement::Malformed { record: 1 });
        assert_eq!(of_a(&[waits, [4, 99, 2, 1]]), Judgement::Malformed { record: 1 });
        assert_eq!(of_a(&[waits, [3, 99, 0, 0]]), Judgement::Refused { record: 1, number: 14 });
        assert_eq!(of_a(&[waits, [2, 99, 2, 1]]), Judgement::Refused { record: 1, number: 14 });
        assert_eq!(of_a(&[waits, [1, 99, 9, 0]]), Judgement::Refused { record: 1, number: 14 });
        assert!(matches!(of_a(&[waits, [3, 100, 0, 0]]), Judgement::AnotherChoice { record: 1, ours: Departure::Packet(_) }));
        assert!(matches!(of_a(&[waits, [2, 100, 1, 501]]), Judgement::AnotherChoice { record: 1, .. }));
        assert!(matches!(of_a(&[waits, [2, 100, 2, 500]]), Judgement::AnotherChoice { record: 1, .. }));
        assert_eq!(of_a(&[waits, [2, 100, 1, 500]]), Judgement::Accepted);
    }

    /// Start's refusal comes before any record is read, and before the length of the list is looked at.
    #[test]
    fn the_tree_comes_first() {
        let mut tree = tree_a();
        tree.classes[2].share = 0;
        for log in [&[][..], &[1, 2, 3], &[9, 9, 9, 9], &[1, 100, 1, 500]] {
            assert_eq!(judge(&tree, 100, log), Judgement::TreeRefused(refusal(7, 2)));
        }
        assert_eq!(judge_file(&[], 100, &[1]), Judgement::TreeRefused(refusal(1, 0)));
        assert_eq!(judge(&Tree::of_no_classes(), 100, &[]), Judgement::TreeRefused(refusal(4, 0)));
    }

    #[test]
    fn numbers_in_c() {
        let log = |records: &[[u32; RECORD]]| in_c(of_a(records));
        assert_eq!(log(&[]), (0, [0, 0, 0, 0]));
        assert_eq!(in_c(Judgement::TreeRefused(refusal(7, 2))), (1, [0, 7, 2, 0]));
        assert_eq!(log(&[[3, 100, 0, 0], [3, 100, 0, 1]]), (2, [1, 0, 0, 0]));
        assert_eq!(log(&[[3, 100, 0, 0], [3, 99, 0, 0]]), (3, [1, 14, 0, 0]));
        assert_eq!(log(&[[1, 100, 2, 900], [3, 100, 0, 0]]), (4, [1, 1, 2, 900]));
        assert_eq!(log(&[[3, 100, 0, 0], [2, 100, 2, 900]]), (4, [1, 0, 0, 0]));
    }
}
