//! A history is the tree, the first stamp, the calls that were accepted and the turns of classes to active
//! and passive that followed from them. Nothing is ever taken out. Each definition of document 01 is a
//! function that goes over the whole of it.

use crate::curves::{least_from, PARTS};
use crate::tree::Tree;

/// Request 2: 8 bytes of preamble and start mark before a packet, a gap of 12 byte-times after it.
const AROUND: u128 = 8 + 12;

/// The ticks for which a packet of n bytes holds the link. Every count of bytes sent, every deadline and virtual time and the limit of accepted bytes
/// use it in the place of n.
pub fn held(n: u128) -> u128 {
    n + AROUND
}

#[derive(Clone, Copy, Debug, PartialEq, Eq)]
pub enum Rule {
    RealTime,
    Fair,
}

/// What an accepted call did.
#[derive(Clone, Copy, Debug, PartialEq, Eq)]
pub enum Deed {
    Came { leaf: usize, length: u128 },
    Left { leaf: usize, length: u128, rule: Rule },
    Idle,
}

/// An accepted call: its stamp, which is kept, and the clock that it made.
#[derive(Clone, Copy, Debug, PartialEq, Eq)]
pub struct Event {
    pub stamp: u32,
    pub at: u128,
    pub deed: Deed,
}

/// A class turns active at its parent's mark with so many bytes sent, or passive at a virtual time.
#[derive(Clone, Copy, Debug, PartialEq, Eq)]
pub enum Turn {
    Active { class: usize, mark: u128, sent: u128 },
    Passive { class: usize, virtual_time: u128 },
}

/// A backlog instant and the bytes sent from the leaf by the real-time rule before it.
#[derive(Clone, Copy, Debug, PartialEq, Eq)]
pub struct Piece {
    pub b: u128,
    pub c: u128,
}

/// A start of a class: the mark it started at and the bytes sent from it before.
#[derive(Clone, Copy, Debug, PartialEq, Eq)]
pub struct FairPiece {
    pub mark: u128,
    pub sent: u128,
}

/// The head packet of a leaf: its number within the leaf and its length.
#[derive(Clone, Copy, Debug, PartialEq, Eq)]
pub struct Head {
    pub number: usize,
    pub length: u128,
}

#[derive(Clone, Debug, PartialEq, Eq)]
pub struct History {
    pub tree: Tree,
    pub first_stamp: u32,
    pub events: Vec<Event>,
    pub turns: Vec<Turn>,
}

impl History {
    pub fn new(tree: Tree, first_stamp: u32) -> History {
        History { tree, first_stamp, events: Vec::new(), turns: Vec::new() }
    }

    // Clock and stamps.

    pub fn clock(&self) -> u128 {
        self.events.last().map_or(0, |event| event.at)
    }

    /// Start's stamp, or that of the last call that was not refused.
    pub fn last_kept_stamp(&self) -> u32 {
        self.events.last().map_or(self.first_stamp, |event| event.stamp)
    }

    // Packets.

    /// Lengths of all packets ever accepted into a leaf, in order.
    fn came_to(&self, leaf: usize) -> impl Iterator<Item = u128> + '_ {
        self.events.iter().filter_map(move |event| match event.deed {
            Deed::Came { leaf: into, length } if into == leaf => Some(length),
            _ => None,
        })
    }

    /// Lengths of all packets that left, with their leaf and rule.
    fn all_left(&self) -> impl Iterator<Item = (usize, u128, Rule)> + '_ {
        self.events.iter().filter_map(|event| match event.deed {
            Deed::Left { leaf, length, rule } => Some((leaf, length, rule)),
            _ => None,
        })
    }

    fn count_left(&self, leaf: usize) -> usize {
        self.all_left().filter(|&(from, _, _)| from == leaf).count()
    }

    pub fn count_came(&self, leaf: usize) -> usize {
        self.came_to(leaf).count()
    }

    pub fn waiting(&self, leaf: usize) -> usize {
        self.count_came(leaf) - self.count_left(leaf)
    }

    /// Packets leave a leaf in the order they came, so the head is the first that has not left.
    pub fn head(&self, leaf: usize) -> Option<Head> {
        let number = self.count_left(leaf);
        self.came_to(leaf).nth(number).map(|length| Head { number, length })
    }

    pub fn waiting_leaves(&self) -> Vec<usize> {
        self.tree.leaves().into_iter().filter(|&leaf| self.waiting(leaf) > 0).collect()
    }

    pub fn accepted_bytes(&self) -> u128 {
        let bytes = |event: &Event| match event.deed {
            Deed::Came { length, .. } => held(length),
            _ => 0,
        };
        self.events.iter().map(bytes).sum()
    }

    // The real-time side.

    /// c: the bytes sent from a leaf by the real-time rule.
    pub fn sent_by_real_time(&self, leaf: usize) -> u128 {
        let counts = |&(from, _, rule): &(usize, u128, Rule)| from == leaf && rule == Rule::RealTime;
        self.all_left().filter(counts).map(|(_, length, _)| held(length)).sum()
    }

    /// The pieces of a leaf: a backlog instant whenever a packet is accepted while none waits.
    pub fn pieces(&self, leaf: usize) -> Vec<Piece> {
        let (mut pieces, mut waiting, mut c) = (Vec::new(), 0, 0);
        for event in &self.events {
            match event.deed {
                Deed::Came { leaf: into, .. } if into == leaf => {
                    if waiting == 0 {
                        pieces.push(Piece { b: event.at, c });
                    }
                    waiting += 1;
                }
                Deed::Left { leaf: from, length, rule } if from == leaf => {
                    waiting -= 1;
                    if rule == Rule::RealTime {
                        c += held(length);
                    }
                }
                _ => {}
            }
        }
        pieces
    }

    /// The least whole t, not before the last instant, at which every piece, read `lead` ticks ahead,
    /// is at least 65,536 times `bytes`.
    fn least_over_pieces(&self, leaf: usize, lead: u128, bytes: u128) -> Option<u128> {
        let curve = self.tree.curve(leaf);
        let pieces = self.pieces(leaf);
        let last_instant = pieces.last().filter(|_| curve.is_some())?.b;
        let reached = |t: u128| pieces.iter().all(|p| PARTS * p.c + curve.amount(t + lead - p.b) >= PARTS * bytes);
        Some(least_from(last_instant, reached))
    }

    /// The deadline of a leaf's head; none without a curve or a head.
    pub fn deadline(&self, leaf: usize) -> Option<u128> {
        let head = self.head(leaf)?;
        self.least_over_pieces(leaf, 0, self.sent_by_real_time(leaf) + held(head.length))
    }

    /// The eligible time of a leaf's head; none without a curve or a head.
    pub fn eligible_time(&self, leaf: usize) -> Option<u128> {
        self.head(leaf)?;
        let lead = self.tree.curve(leaf).eligible_lead();
        self.least_over_pieces(leaf, lead, self.sent_by_real_time(leaf))
    }

    // The fair side.

    /// A leaf is active while a packet waits in it, an interior class while a child is active.
    pub fn active(&self, class: usize) -> bool {
        if self.tree.is_leaf(class) {
            self.waiting(class) > 0
        } else {
            self.active_children(class).next().is_some()
        }
    }

    fn active_children(&self, class: usize) -> impl Iterator<Item = usize> + '_ {
        self.tree.children(class).into_iter().filter(|&child| self.active(child))
    }

    /// w: the bytes sent from a class and all below it, by either rule.
    pub fn sent(&self, class: usize) -> u128 {
        let beneath = |&(leaf, _, _): &(usize, u128, Rule)| self.tree.is_at_or_above(class, leaf);
        self.all_left().filter(beneath).map(|(_, length, _)| held(length)).sum()
    }

    /// The mark of a class: where the last of its children to turn active started, 0 at first.
    pub fn mark(&self, class: usize) -> u128 {
        let start = |turn: &Turn| match *turn {
            Turn::Active { class: child, mark, .. } if self.tree.parent(child) == class => Some(mark),
            _ => None,
        };
        self.turns.iter().rev().find_map(start).unwrap_or(0)
    }

    /// The fair pieces of a class's history.
    pub fn fair_pieces(&self, class: usize) -> Vec<FairPiece> {
        let piece = |turn: &Turn| match *turn {
            Turn::Active { class: one, mark, sent } if one == class => Some(FairPiece { mark, sent }),
            _ => None,
        };
        self.turns.iter().filter_map(piece).collect()
    }

    /// The least whole v, not before the latest start, at which every fair piece is at least 65,536·w.
    /// 0 for a class that never started, the root among them.
    pub fn virtual_time(&self, class: usize) -> u128 {
        let pieces = self.fair_pieces(class);
        let Some(latest) = pieces.last() else { return 0 };
        let share = self.tree.share(class);
        let target = PARTS * self.sent(class);
        let reached = |v: u128| pieces.iter().all(|p| PARTS * p.sent + share * (v - p.mark) >= target);
        least_from(latest.mark, reached)
    }

    /// The virtual time that a class had when it last turned passive; none if it never did.
    fn virtual_time_when_passive(&self, class: usize) -> Option<u128> {
        self.turns.iter().rev().find_map(|turn| match *turn {
            Turn::Passive { class: one, virtual_time } if one == class => Some(virtual_time),
            _ => None,
        })
    }

    /// What the mark of a parent is raised to, at least, when this child of it turns active.
    fn asked_of_mark(&self, parent: usize, child: usize) -> u128 {
        let others = self.active_children(parent).filter(|&other| other != child);
        let times: Vec<u128> = others.map(|other| self.virtual_time(other)).collect();
        match (times.iter().min(), times.iter().max()) {
            (Some(smallest), Some(largest)) => (smallest + largest) / 2,
            _ => self.largest_when_passive(parent),
        }
    }

    fn largest_when_passive(&self, parent: usize) -> u128 {
        let children = self.tree.children(parent).into_iter();
        children.filter_map(|child| self.virtual_time_when_passive(child)).max().unwrap_or(0)
    }

    fn turn_active(&mut self, class: usize) {
        let parent = self.tree.parent(class);
        let mark = self.mark(parent).max(self.asked_of_mark(parent, class));
        let sent = self.sent(class);
        self.turns.push(Turn::Active { class, mark, sent });
    }

    fn turn_passive(&mut self, class: usize) {
        let virtual_time = self.virtual_time(class);
        self.turns.push(Turn::Passive { class, virtual_time });
    }

    /// The leaf and all above it that are passive, without the root, which never turns.
    fn passive_upward(&self, leaf: usize) -> Vec<usize> {
        let path = self.tree.upward(leaf).into_iter();
        path.take_while(|&class| class != 0 && !self.active(class)).collect()
    }

    // The choice.

    /// The leaf that the real-time rule takes now, if any.
    fn chosen_by_real_time(&self, now: u128) -> Option<usize> {
        let eligible = |&leaf: &usize| self.eligible_time(leaf).is_some_and(|e| e <= now);
        let leaves = self.waiting_leaves().into_iter().filter(eligible);
        leaves.min_by_key(|&leaf| (self.deadline(leaf), leaf))
    }

    /// The choice goes down from this class to the active child of smallest virtual time, then lowest number.
    fn chosen_below(&self, class: usize) -> Option<usize> {
        if self.tree.is_leaf(class) {
            return Some(class);
        }
        let child = self.active_children(class).min_by_key(|&child| (self.virtual_time(child), child))?;
        self.chosen_below(child)
    }

    /// The leaf from which a packet leaves now, and by which rule.
    pub fn choice(&self, now: u128) -> Option<(usize, Rule)> {
        if self.waiting_leaves().is_empty() {
            return None;
        }
        match self.chosen_by_real_time(now) {
            Some(leaf) => Some((leaf, Rule::RealTime)),
            None => self.chosen_below(0).map(|leaf| (leaf, Rule::Fair)),
        }
    }

    // Accepted calls.

    /// A packet is accepted. The leaf turns active, then its parent if that was passive, and so upward.
    pub fn came(&mut self, stamp: u32, at: u128, leaf: usize, length: u128) {
        let turning = self.passive_upward(leaf);
        self.events.push(Event { stamp, at, deed: Deed::Came { leaf, length } });
        for class in turning {
            self.turn_active(class);
        }
    }

    /// A head leaves. With the departure in the history counts and virtual times are brought up;
    /// then emptied classes turn passive.
    pub fn left(&mut self, stamp: u32, at: u128, leaf: usize, length: u128, rule: Rule) {
        self.events.push(Event { stamp, at, deed: Deed::Left { leaf, length, rule } });
        for class in self.passive_upward(leaf) {
            self.turn_passive(class);
        }
    }

    /// A departure found none waiting: the clock moves and nothing else.
    pub fn idle(&mut self, stamp: u32, at: u128) {
        self.events.push(Event { stamp, at, deed: Deed::Idle });
    }
}

#[cfg(test)]
mod tests {
    use super::*;
    use crate::calls::State;
    use crate::gen::{disciplined_run, loose_run, Dice};
    use crate::tree::Class;

    /// Rounded-up quotient.
    fn up(a: u128, b: u128) -> u128 {
        a.div_ceil(b)
    }

    /// The first tick of a curve at y parts, by division.
    fn first_tick(curve: crate::curves::Curve, y: u128) -> u128 {
        use crate::curves::Curve::*;
        if y == 0 {
            return 0;
        }
        match curve {
            None => unreachable!(),
            Straight { m } => up(y, m.into()),
            Delayed { d, m } => u128::from(d) + up(y, m.into()),
            FrontLoaded { m1, d, m2 } => {
                let (m1, d, m2) = (u128::from(m1), u128::from(d), u128::from(m2));
                if y <= m1 * d { up(y, m1) } else { d + up(y - m1 * d, m2) }
            }
        }
    }

    /// Virtual times, deadlines and eligible times once more, piece by piece with quotients.
    fn check_by_division(h: &History) {
        for class in 1..h.tree.count() {
            let v = h.fair_pieces(class).iter().map(|p| p.mark + up(PARTS * (h.sent(class) - p.sent), h.tree.share(class))).max();
            assert_eq!(h.virtual_time(class), v.unwrap_or(0));
        }
        for leaf in h.waiting_leaves().into_iter().filter(|&leaf| h.tree.curve(leaf).is_some()) {
            let curve = h.tree.curve(leaf);
            let (pieces, c) = (h.pieces(leaf), h.sent_by_real_time(leaf));
            let last = pieces.last().unwrap().b;
            let tick = |lead: u128, y: u128| {
                let each = pieces.iter().map(|p| (p.b + first_tick(curve, PARTS * (y - p.c))).saturating_sub(lead));
                each.max().unwrap().max(last)
            };
            let n = h.head(leaf).unwrap().length;
            assert_eq!(h.deadline(leaf), Some(tick(0, c + n + 20)));
            assert_eq!(h.eligible_time(leaf), Some(tick(curve.eligible_lead(), c)));
        }
    }

    #[test]
    fn searches_agree_with_division() {
        for seed in 0..150 {
            let mut dice = Dice::new(7_000 + seed);
            let run = if seed % 3 == 0 { disciplined_run(&mut dice, 80) } else { loose_run(&mut dice, 80) };
            check_by_division(&run.state.history);
        }
    }

    /// The turns follow from the calls alone: fed once more, the same calls give the same turns and choices.
    /// And a class is active exactly if its last turn was to active.
    #[test]
    fn turns_follow_from_the_calls() {
        for seed in 0..150 {
            let mut dice = Dice::new(8_000 + seed);
            let h = loose_run(&mut dice, 100).state.history;
            let mut again = History::new(h.tree.clone(), h.first_stamp);
            for e in &h.events {
                match e.deed {
                    Deed::Came { leaf, length } => again.came(e.stamp, e.at, leaf, length),
                    Deed::Left { leaf, length, rule } => {
                        assert_eq!(again.choice(e.at), Some((leaf, rule)));
                        assert_eq!(again.head(leaf).map(|head| head.length), Some(length));
                        again.left(e.stamp, e.at, leaf, length, rule)
                    }
                    Deed::Idle => {
                        assert_eq!(again.choice(e.at), None);
                        again.idle(e.stamp, e.at)
                    }
                }
            }
            assert_eq!(h, again);
            for class in 1..h.tree.count() {
                let mine = |turn: &&Turn| matches!(**turn, Turn::Active { class: c, .. } | Turn::Passive { class: c, .. } if c == class);
                let last = h.turns.iter().rev().find(mine);
                assert_eq!(h.active(class), matches!(last, Some(Turn::Active { .. })));
            }
        }
    }

    /// An old fair piece can put a virtual time later than the mark that the class starts at.
    #[test]
    fn an_old_fair_piece_still_counts() {
        let class = |share| Class { parent: 0, share, curve: crate::curves::Curve::None };
        let mut state = State::start(&Tree::under_root(&[class(1), class(65_536), class(65_536)]), 0).unwrap();
        for leaf in [1, 2, 2, 2] {
            state.arrive(0, leaf, 100).unwrap();
        }
        state.depart(0).unwrap(); // leaf 1 (lowest number), empties at 120·65,536
        assert_eq!(state.history.virtual_time(1), 7_864_320);
        state.arrive(0, 1, 100).unwrap();
        assert_eq!(state.history.mark(0), 0);
        assert_eq!(state.history.virtual_time(1), 7_864_320);
    }
}
