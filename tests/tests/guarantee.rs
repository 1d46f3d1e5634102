//! Demand 3 on runs that keep the link's discipline: no head leaves in full later than 9,020 ticks after its deadline (request 2), on a link that a packet of n bytes holds for n + 20 ticks.

use outside::calls::{parse_line, Call, Departure, Packet, State};
use outside::curves::Curve;
use outside::gen::{disciplined_run, Dice};
use outside::tree::{Class, Tree};

/// What was met on the way.
#[derive(Default)]
struct Met {
    packets_with_curve: usize,
    by_deadline: usize,
    latest: i128,
}

/// The calls of a run once more on a fresh state, with the discipline and the demand checked at each.
struct Checker {
    state: State,
    link_free: u128,
    met: Met,
}

impl Checker {
    /// While a packet waits the clock does not pass the tick at which the link is free.
    fn disciplined(&self, before: u128, waited: bool) {
        assert!(!waited || self.state.history.clock() <= before.max(self.link_free));
    }

    /// At every moment a waiting head can still leave in full in time.
    fn nobody_is_late(&self) {
        let history = &self.state.history;
        for leaf in history.waiting_leaves() {
            if let (Some(head), Some(deadline)) = (history.head(leaf), history.deadline(leaf)) {
                assert!(history.clock() + head.length + 20 <= deadline + 9_020);
            }
        }
    }

    fn packet_left(&mut self, packet: Packet) {
        let now = self.state.history.clock();
        assert!(self.link_free <= now);
        self.link_free = now + packet.length + 20;
        if let Some((_, deadline)) = packet.times {
            let late = self.link_free as i128 - deadline as i128;
            assert!(late <= 9_020, "{late} ticks late");
            self.met.packets_with_curve += 1;
            self.met.by_deadline += usize::from(late <= 0);
            self.met.latest = self.met.latest.max(late);
        }
    }

    fn call(&mut self, call: Call) {
        let before = self.state.history.clock();
        let waited = !self.state.history.waiting_leaves().is_empty();
        match call {
            Call::Start { .. } => {}
            Call::Arrive { stamp, class, length } => drop(self.state.arrive(stamp, class, length)),
            Call::Depart { stamp } => {
                let answer = self.state.depart(stamp);
                self.disciplined(before, waited);
                if let Ok(Departure::Packet(packet)) = answer {
                    self.packet_left(packet);
                }
            }
        }
        self.disciplined(before, waited);
        self.nobody_is_late();
    }
}

fn check(tree: &Tree, lines: &[String]) -> Met {
    let mut checker = None;
    for line in lines {
        let call = parse_line(line.as_bytes()).unwrap().unwrap();
        if let Call::Start { stamp } = call {
            checker = Some(Checker { state: State::start(tree, stamp).unwrap(), link_free: 0, met: Met::default() });
        }
        checker.as_mut().unwrap().call(call);
    }
    let checker = checker.unwrap();
    assert!(checker.state.history.waiting_leaves().is_empty());
    checker.met
}

#[test]
fn no_head_is_later_than_9020_ticks() {
    let (mut runs, mut packets, mut by_deadline, mut latest) = (0, 0, 0, i128::MIN);
    for seed in 0..1_500 {
        let mut dice = Dice::new(50_000 + seed);
        let run = disciplined_run(&mut dice, 100);
        let met = check(&run.state.history.tree, &run.lines);
        runs += 1;
        packets += met.packets_with_curve;
        by_deadline += met.by_deadline;
        latest = latest.max(met.latest);
    }
    println!("{runs} disciplined runs, {packets} packets with a deadline, {by_deadline} in full by it, latest {latest} after");
    assert!(packets > 10_000 && latest > 8_000);
}

/// A leaf without a curve sends 9,000 at 0, until 9,020; then a straight 65,536 leaf gets a packet at 0.
#[test]
fn the_bound_is_attained() {
    let leaf = |curve| Class { parent: 0, share: 1, curve };
    let tree = Tree::under_root(&[leaf(Curve::None), leaf(Curve::Straight { m: 65_536 })]);
    for length in [1, 500, 9_000] {
        let calls = ["start 3", "arrive 3 1 9000", "depart 3", &format!("arrive 3 2 {length}"), "depart 9023"];
        let met = check(&tree, &calls.map(String::from));
        assert_eq!((met.packets_with_curve, met.latest), (1, 9_020));
    }
}

/// The studio's afternoon keeps the discipline too.
#[test]
fn the_studio_is_in_time() {
    let examples = concat!(env!("CARGO_MANIFEST_DIR"), "/../examples");
    let tree = outside::file::read(&std::fs::read(format!("{examples}/studio.tree")).unwrap()).unwrap();
    let text = std::fs::read_to_string(format!("{examples}/studio.calls")).unwrap();
    let lines: Vec<String> = text.lines().filter(|line| !line.starts_with('#')).map(String::from).collect();
    assert!(check(&tree, &lines).packets_with_curve >= 15);
}
