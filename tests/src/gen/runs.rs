//! Runs of calls, made call by call beside the model, so that they can aim at full leaves, emptied leaves, the
//! top of the clock and each refusal.

use super::dice::Dice;
use super::trees::{any_tree, lively_tree};
use crate::calls::{print_call, Call, Departure, State, CLOCK_TOP, HALF_ROUND};
use crate::history::held;
use crate::tree::Tree;

/// A run as it grows: the lines of the calls file, the model's state and the tick at which the link is free.
pub struct Run {
    pub state: State,
    pub lines: Vec<String>,
    link_free: u128,
    length_style: u64,
}

impl Run {
    fn start(dice: &mut Dice, tree: &Tree) -> Run {
        let any = dice.roll() as u32;
        let stamp = dice.pick(&[0, 1, u32::MAX, 4_294_967_290, HALF_ROUND, u32::MAX - 20_000, any]);
        let lines = vec![print_call(Call::Start { stamp })];
        let state = State::start(tree, stamp).expect("the generator makes right trees");
        Run { state, lines, link_free: 0, length_style: dice.below(6) }
    }

    fn now(&self) -> u128 {
        self.state.history.clock()
    }

    fn stamp_after(&self, elapsed: u32) -> u32 {
        self.state.history.last_kept_stamp().wrapping_add(elapsed)
    }

    fn arrive(&mut self, elapsed: u32, class: u32, length: u32) {
        let stamp = self.stamp_after(elapsed);
        self.lines.push(print_call(Call::Arrive { stamp, class, length }));
        let _ = self.state.arrive(stamp, class, length);
    }

    fn depart(&mut self, elapsed: u32) -> Option<Departure> {
        let stamp = self.stamp_after(elapsed);
        self.lines.push(print_call(Call::Depart { stamp }));
        let answer = self.state.depart(stamp).ok();
        if let Some(Departure::Packet(packet)) = answer {
            self.link_free = self.now() + held(packet.length);
        }
        answer
    }

    fn something_waits(&self) -> bool {
        !self.state.history.waiting_leaves().is_empty()
    }

    fn leaf(&self, dice: &mut Dice) -> u32 {
        dice.pick(&self.state.history.tree.leaves()) as u32
    }

    fn length(&self, dice: &mut Dice) -> u32 {
        match self.length_style {
            0 => 500,
            1 => dice.between(1, 4),
            2 => dice.pick(&[1, 9_000]),
            3 => dice.pick(&[500, 1_000]),
            _ => match dice.below(3) {
                0 => dice.between(1, 9_000),
                1 => dice.between(40, 1_500),
                _ => dice.pick(&[1, 64, 500, 1_500, 9_000]),
            },
        }
    }

    /// Ticks until the link is free, as far as a stamp can say.
    fn until_free(&self) -> u32 {
        self.link_free.saturating_sub(self.now()) as u32
    }
}

/// Elapsed ticks for a call of a loose run: mostly none or few, seldom a leap.
fn random_elapsed(dice: &mut Dice) -> u32 {
    match dice.below(20) {
        0..=8 => 0,
        9..=11 => dice.between(1, 30),
        12..=16 => dice.between(1, 3_000),
        17..=18 => dice.between(1, 60_000),
        _ => dice.pick(&[1_048_576, 5_000_000, 600_000_000, HALF_ROUND - 1]),
    }
}

/// Several packets into few leaves within one tick.
fn burst(dice: &mut Dice, run: &mut Run) {
    let elapsed = random_elapsed(dice);
    let leaves = [run.leaf(dice), run.leaf(dice), run.leaf(dice)];
    for number in 0..dice.between(2, 9) {
        let (leaf, length) = (dice.pick(&leaves), run.length(dice));
        run.arrive(if number == 0 { elapsed } else { 0 }, leaf, length);
    }
}

/// Departures at the link's pace, at once, or at any time, perhaps until none waits and once more.
fn drain(dice: &mut Dice, run: &mut Run) {
    let pace = dice.below(3);
    for _ in 0..dice.between(1, 14) {
        let elapsed = match pace {
            0 => run.until_free(),
            1 => 0,
            _ => random_elapsed(dice),
        };
        if run.depart(elapsed) == Some(Departure::NoneWaits) {
            return;
        }
    }
}

/// One leaf emptied and filled again and again, sometimes within one tick.
fn empty_and_refill(dice: &mut Dice, run: &mut Run) {
    let leaf = run.leaf(dice);
    let still = dice.chance(1, 2);
    for _ in 0..dice.between(2, 5) {
        let length = run.length(dice);
        let (first, second) = if still { (0, 0) } else { (dice.between(0, 2_000), run.until_free()) };
        run.arrive(first, leaf, length);
        run.depart(second);
    }
}

/// Single calls of any sort.
fn mixture(dice: &mut Dice, run: &mut Run) {
    for _ in 0..dice.between(1, 10) {
        let elapsed = random_elapsed(dice);
        if dice.chance(1, 2) {
            let (leaf, length) = (run.leaf(dice), run.length(dice));
            run.arrive(elapsed, leaf, length);
        } else {
            run.depart(elapsed);
        }
    }
}

/// A call that is refused with 11, 12 or 14, with other faults beside it at times.
fn refused_call(dice: &mut Dice, run: &mut Run) {
    let count = run.state.history.tree.count() as u32;
    let leaf = run.leaf(dice);
    let wrong_class = dice.pick(&[0, count, count + 1, 64, u32::MAX, run.state.history.tree.parent(leaf as usize) as u32]);
    let wrong_length = dice.pick(&[0, 9_001, 10_000, 65_536 + 500, u32::MAX]);
    let long = dice.pick(&[HALF_ROUND, HALF_ROUND + 1, u32::MAX, u32::MAX - 500]);
    let elapsed = dice.pick(&[0, 7]);
    match dice.below(6) {
        0 => run.arrive(elapsed, wrong_class, 500),
        1 => run.arrive(elapsed, wrong_class, wrong_length),
        2 => run.arrive(elapsed, leaf, wrong_length),
        3 => run.arrive(long, leaf, 500),
        4 => run.arrive(long, wrong_class, wrong_length),
        _ => {
            run.depart(long);
        }
    }
}

/// A leaf filled to 64 and one beyond (13); then a little drained and the room used again.
fn fill(dice: &mut Dice, run: &mut Run) {
    let leaf = run.leaf(dice);
    while run.state.history.waiting(leaf as usize) < 64 {
        let length = run.length(dice);
        run.arrive(0, leaf, length);
    }
    run.arrive(3, leaf, 500);
    run.arrive(0, leaf, 9_001);
    drain(dice, run);
    run.arrive(0, leaf, 500);
    run.arrive(0, leaf, 501);
}

/// A run with no regard to the link, of about so many calls.
pub fn loose_run(dice: &mut Dice, calls: usize) -> Run {
    let tree = any_tree(dice);
    let mut run = Run::start(dice, &tree);
    loose_calls(dice, &mut run, calls);
    run
}

fn loose_calls(dice: &mut Dice, run: &mut Run, calls: usize) {
    let end = run.lines.len() + calls;
    while run.lines.len() < end {
        match dice.below(20) {
            0..=4 => burst(dice, run),
            5..=9 => drain(dice, run),
            10..=13 => empty_and_refill(dice, run),
            14..=16 => mixture(dice, run),
            17..=18 => refused_call(dice, run),
            _ if dice.chance(1, 8) => fill(dice, run),
            _ => mixture(dice, run),
        }
    }
}

/// Every call with nothing elapsed.
pub fn same_tick_run(dice: &mut Dice, calls: usize) -> Run {
    let tree = any_tree(dice);
    let mut run = Run::start(dice, &tree);
    while run.lines.len() < calls {
        if dice.chance(1, 2) {
            let (leaf, length) = (run.leaf(dice), run.length(dice));
            run.arrive(0, leaf, length);
        } else {
            run.depart(0);
        }
    }
    run
}

/// A run that keeps the link's discipline: while a packet waits, a departure is called at the tick at which
/// the link is free, and none before; at the end all that waits is sent.
pub fn disciplined_run(dice: &mut Dice, calls: usize) -> Run {
    let tree = any_tree(dice);
    let mut run = Run::start(dice, &tree);
    let load = dice.between(1, 5);
    disciplined_calls(dice, &mut run, calls, load);
    run
}

fn disciplined_calls(dice: &mut Dice, run: &mut Run, calls: usize, load: u32) {
    let end = run.lines.len() + calls;
    while run.lines.len() < end {
        disciplined_call(dice, run, load);
    }
    while run.something_waits() {
        run.depart(run.until_free());
    }
}

fn disciplined_call(dice: &mut Dice, run: &mut Run, load: u32) {
    let free = run.until_free();
    if !run.something_waits() {
        let quiet = if dice.chance(1, 2) { dice.between(0, free + 20) } else { random_elapsed(dice).min(1 << 20) };
        if dice.chance(1, 15) {
            run.depart(free.max(quiet));
        } else {
            let (leaf, length) = (run.leaf(dice), run.length(dice));
            run.arrive(quiet, leaf, length);
        }
    } else if dice.chance(u64::from(load), 8) {
        let elapsed = if dice.chance(1, 2) { 0 } else { dice.between(0, free) };
        let (leaf, length) = (run.leaf(dice), run.length(dice));
        run.arrive(elapsed, leaf, length);
    } else {
        run.depart(free);
    }
}

/// A run that goes to the top of the clock, and is refused there (15).
pub fn late_run(dice: &mut Dice, calls: usize) -> Run {
    let tree = any_tree(dice);
    let mut run = Run::start(dice, &tree);
    loose_calls(dice, &mut run, calls);
    while run.now() + u128::from(HALF_ROUND) <= CLOCK_TOP - 1_000 {
        if dice.chance(1, 40) {
            let (leaf, length) = (run.leaf(dice), run.length(dice));
            run.arrive(HALF_ROUND - 1, leaf, length);
        } else {
            run.depart(HALF_ROUND - 1);
        }
    }
    let near = dice.pick(&[0, 1, 5_000, 100_000]);
    let left = (CLOCK_TOP - run.now()) as u32;
    run.depart(left.saturating_sub(near));
    burst_at_top(dice, &mut run);
    run
}

/// Calls around the last tick: past it (15), at it, and some within it.
fn burst_at_top(dice: &mut Dice, run: &mut Run) {
    for _ in 0..20 {
        let left = (CLOCK_TOP - run.now()) as u32;
        let elapsed = dice.pick(&[0, left / 2, left, left + 1, left + 700, HALF_ROUND - 1, HALF_ROUND]);
        let (leaf, length) = (run.leaf(dice), run.length(dice));
        match dice.below(5) {
            0 | 1 => run.arrive(elapsed, leaf, length),
            2 => run.arrive(elapsed, leaf, 0),
            _ => {
                run.depart(elapsed);
            }
        }
    }
}

/// A leaf filled to the top on a small tree.
pub fn full_run(dice: &mut Dice) -> Run {
    let tree = lively_tree(dice);
    let mut run = Run::start(dice, &tree);
    fill(dice, &mut run);
    run
}
