//! Document 01's example tree and all rows of its table, worked again by hand for request 2 (docs/notes/02-framing.md), and the rows on stamps.

use outside::calls::{Departure, Packet, State};
use outside::curves::Curve;
use outside::gen::tree_a;
use outside::history::Rule;
use outside::tree::{refusal, Class, Tree};

fn started() -> State {
    State::start(&tree_a(), 0).unwrap()
}

fn times(state: &State, leaf: usize) -> (u128, u128) {
    (state.history.eligible_time(leaf).unwrap(), state.history.deadline(leaf).unwrap())
}

fn depart(state: &mut State, stamp: u32) -> Packet {
    let Ok(Departure::Packet(packet)) = state.depart(stamp) else { panic!("no packet at {stamp}") };
    packet
}

/// Both wait at 0, and leave at 0 and 520, as soon as the link is free.
fn both_sent() -> State {
    let mut state = started();
    state.arrive(0, 1, 500).unwrap();
    state.arrive(0, 2, 1_000).unwrap();
    let (first, second) = (depart(&mut state, 0), depart(&mut state, 520));
    assert_eq!((first.class, first.rule), (1, Rule::RealTime));
    assert_eq!((second.class, second.rule), (2, Rule::RealTime));
    state
}

#[test]
fn first_packets() {
    let mut state = started();
    assert_eq!(state.arrive(0, 1, 500), Ok(0));
    assert_eq!(times(&state, 1), (0, 1_040));
    let mut state = started();
    assert_eq!(state.arrive(0, 2, 1_000), Ok(0));
    assert_eq!(times(&state, 2), (0, 4_040));
}

#[test]
fn both_wait() {
    let state = both_sent();
    assert_eq!((state.history.virtual_time(1), state.history.virtual_time(2)), (2_080, 1_360));
}

#[test]
fn then_leaf_1_at_5000_or_at_600() {
    let mut state = both_sent();
    state.arrive(5_000, 1, 500).unwrap();
    assert_eq!(times(&state, 1), (5_000, 6_040));
    let mut state = both_sent();
    state.arrive(600, 1, 500).unwrap();
    assert_eq!(times(&state, 1), (1_040, 2_160));
}

#[test]
fn leaf_2_again_at_1000() {
    let mut state = started();
    state.arrive(0, 2, 1_000).unwrap();
    assert_eq!(depart(&mut state, 0).rule, Rule::RealTime);
    state.arrive(1_000, 2, 1_000).unwrap();
    assert_eq!(times(&state, 2), (2_040, 6_080));
}

#[test]
fn leaf_1_alone_with_three() {
    let mut state = started();
    for number in 0..3 {
        assert_eq!(state.arrive(0, 1, 500), Ok(number));
    }
    let left = [depart(&mut state, 0), depart(&mut state, 520), depart(&mut state, 1_040)];
    assert_eq!(left.map(|packet| packet.rule), [Rule::RealTime, Rule::Fair, Rule::RealTime]);
    assert_eq!(left.map(|packet| packet.number), [0, 1, 2]);
    assert_eq!(left[2].times, Some((1_040, 2_160)));
}

/// At 01's own ticks, 500 and 1,000, the link would still send. The definitions then give the same for the two, and a third packet by the fair rule.
#[test]
fn at_the_ticks_of_01() {
    let mut state = started();
    state.arrive(0, 1, 500).unwrap();
    state.arrive(0, 2, 1_000).unwrap();
    let left = [depart(&mut state, 0), depart(&mut state, 500)];
    assert_eq!(left.map(|packet| (packet.class, packet.rule)), [(1, Rule::RealTime), (2, Rule::RealTime)]);
    assert_eq!((state.history.virtual_time(1), state.history.virtual_time(2)), (2_080, 1_360));
    let mut state = started();
    for _ in 0..3 {
        state.arrive(0, 1, 500).unwrap();
    }
    let left = [depart(&mut state, 0), depart(&mut state, 500), depart(&mut state, 1_000)];
    assert_eq!(left.map(|packet| packet.rule), [Rule::RealTime, Rule::Fair, Rule::Fair]);
    assert_eq!(left[2].times, Some((1_040, 2_160)));
}

#[test]
fn both_passive_then_active_again() {
    let mut state = both_sent();
    assert_eq!((state.history.active(1), state.history.active(2)), (false, false));
    state.arrive(600, 2, 1_000).unwrap();
    state.arrive(600, 1, 500).unwrap();
    assert_eq!((state.history.virtual_time(1), state.history.virtual_time(2)), (2_080, 2_080));
}

#[test]
fn fits() {
    let tree = |curves: &[Curve]| {
        let classes: Vec<Class> = curves.iter().map(|&curve| Class { parent: 0, share: 1, curve }).collect();
        Tree::under_root(&classes).check()
    };
    let straight = |m| Curve::Straight { m };
    let front = |m1| Curve::FrontLoaded { m1, d: 1, m2: 1 };
    assert_eq!(tree_a().check(), Ok(()));
    assert_eq!(tree(&[straight(32_768), straight(32_768)]), Ok(()));
    assert_eq!(tree(&[straight(32_769), straight(32_768)]), Err(refusal(10, 0)));
    assert_eq!(tree(&[front(65_535), straight(1)]), Ok(()));
    assert_eq!(tree(&[front(65_536), straight(1)]), Err(refusal(10, 0)));
}

#[test]
fn stamps() {
    let mut state = State::start(&tree_a(), 4_294_967_290).unwrap();
    assert_eq!(state.elapsed(10), 16);
    assert_eq!(state.depart(10), Ok(Departure::NoneWaits));
    assert_eq!(state.history.clock(), 16);
    let mut state = State::start(&tree_a(), 0).unwrap();
    assert_eq!(state.depart(2_147_483_648), Err(14));
    assert_eq!(state.depart(2_147_483_647), Ok(Departure::NoneWaits));
    assert_eq!(state.history.clock(), 2_147_483_647);
}

/// The replay form of the first rows, as text.
#[test]
fn as_lines() {
    let file = outside::file::file_of(&tree_a(), outside::file::Order::Little);
    let printed = outside::calls::replay(&file, b"start 7\narrive 7 1 500\narrive 7 2 1000\ndepart 7\ndepart 527\ndepart 1547\n");
    let expected = "started 3\naccepted number 0\naccepted number 0\n\
        packet class 1 number 0 length 500 rule real-time eligible 0 deadline 1040\n\
        packet class 2 number 0 length 1000 rule real-time eligible 0 deadline 4040\nnone waits\n";
    assert_eq!(printed.printed, expected);
    let tree = "tree\nclass 0 parent 0 share 65536 none\nclass 1 parent 0 share 16384 front-loaded 32768 2000 16384\n\
        class 2 parent 0 share 49152 delayed 2000 32768\n";
    assert_eq!(outside::calls::show_tree(&file).printed, tree);
}
