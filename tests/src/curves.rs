//! Curves: S(t) in parts, whether curves fit the link, and "the least whole t at which ..".

/// 65,536 parts are one byte per tick.
pub const PARTS: u128 = 65_536;

/// A real-time curve, or none. The numbers are in the file's order.
#[derive(Clone, Copy, Debug, PartialEq, Eq)]
pub enum Curve {
    None,
    Straight { m: u32 },
    FrontLoaded { m1: u32, d: u32, m2: u32 },
    Delayed { d: u32, m: u32 },
}

impl Curve {
    /// S(t), in parts, for whole t from 0.
    pub fn amount(&self, t: u128) -> u128 {
        match *self {
            Curve::None => 0,
            Curve::Straight { m } => u128::from(m) * t,
            Curve::FrontLoaded { m1, d, m2 } => {
                let (m1, d, m2) = (u128::from(m1), u128::from(d), u128::from(m2));
                if t <= d {
                    m1 * t
                } else {
                    m1 * d + m2 * (t - d)
                }
            }
            Curve::Delayed { d, m } => {
                let (d, m) = (u128::from(d), u128::from(m));
                if t <= d {
                    0
                } else {
                    m * (t - d)
                }
            }
        }
    }

    /// Is there a real-time curve at all?
    pub fn is_some(&self) -> bool {
        *self != Curve::None
    }

    /// The tick after which the curve is one straight line.
    pub fn bend(&self) -> u128 {
        match *self {
            Curve::None | Curve::Straight { .. } => 0,
            Curve::FrontLoaded { d, .. } | Curve::Delayed { d, .. } => u128::from(d),
        }
    }

    /// The rate after the bend.
    pub fn last_slope(&self) -> u128 {
        match *self {
            Curve::None => 0,
            Curve::Straight { m } | Curve::Delayed { m, .. } => u128::from(m),
            Curve::FrontLoaded { m2, .. } => u128::from(m2),
        }
    }

    /// How far ahead a piece is read for the eligible time: d for a delayed curve, else nothing.
    pub fn eligible_lead(&self) -> u128 {
        match *self {
            Curve::Delayed { d, .. } => u128::from(d),
            _ => 0,
        }
    }
}

/// Is the sum of all S(t) at most 65,536·t at this one tick?
pub fn fits_at(curves: &[Curve], t: u128) -> bool {
    let sum: u128 = curves.iter().map(|curve| curve.amount(t)).sum();
    sum <= PARTS * t
}

/// Do the last slopes together stay within the link? If not, the sum passes it at some late tick.
fn last_slopes_fit(curves: &[Curve]) -> bool {
    curves.iter().map(Curve::last_slope).sum::<u128>() <= PARTS
}

/// The curves fit if at every whole t from 0 the sum of all S(t) is at most 65,536·t.
/// Between neighbouring bends the sum is straight, so its bends and its last slope decide;
/// the unit tests hold this against `fits_tick_by_tick`.
pub fn fits(curves: &[Curve]) -> bool {
    curves.iter().all(|curve| fits_at(curves, curve.bend())) && last_slopes_fit(curves)
}

/// The same, tried at every tick up to the last bend. From there on the sum is one straight line,
/// so it stays below the link exactly if its slope is not the larger.
pub fn fits_tick_by_tick(curves: &[Curve]) -> bool {
    let last_bend = curves.iter().map(Curve::bend).max().unwrap_or(0);
    (0..=last_bend).all(|t| fits_at(curves, t)) && last_slopes_fit(curves)
}

/// The least whole t, not before `from`, at which `holds`; for something that stays true once it is.
/// Steps of 1, 2, 4, .. until it holds, then the gap is halved.
pub fn least_from(from: u128, holds: impl Fn(u128) -> bool) -> u128 {
    if holds(from) {
        return from;
    }
    let mut fails = from;
    let mut step = 1;
    while !holds(fails + step) {
        fails += step;
        step *= 2;
    }
    let mut works = fails + step;
    while works - fails > 1 {
        let middle = fails + (works - fails) / 2;
        if holds(middle) {
            works = middle;
        } else {
            fails = middle;
        }
    }
    works
}

#[cfg(test)]
mod tests {
    use super::*;
    use crate::gen::{random_curve, Dice};

    #[test]
    fn amounts_follow_the_three_lines() {
        let front = Curve::FrontLoaded { m1: 10, d: 3, m2: 2 };
        let delayed = Curve::Delayed { d: 3, m: 5 };
        let amounts = |curve: Curve| (0..6).map(|t| curve.amount(t)).collect::<Vec<_>>();
        assert_eq!(amounts(front), [0, 10, 20, 30, 32, 34]);
        assert_eq!(amounts(delayed), [0, 0, 0, 0, 5, 10]);
        assert_eq!(amounts(Curve::Straight { m: 7 }), [0, 7, 14, 21, 28, 35]);
        assert_eq!(amounts(Curve::None), [0; 6]);
    }

    /// The short test of fit against every tick, and against ticks far beyond the last bend.
    #[test]
    fn fit_agrees_with_every_tick() {
        let mut dice = Dice::new(1);
        let (mut fitting, mut not_fitting) = (0, 0);
        for round in 0..20_000 {
            let bend_top = if round % 100 == 0 { 50_000 } else { 60 };
            let count = dice.between(1, 6);
            let top = [70_000 / count, 65_536, 40_000][dice.below(3) as usize].clamp(2, 65_536);
            let mut curves: Vec<Curve> = (0..count).map(|_| random_curve(&mut dice, top, bend_top)).collect();
            if dice.chance(1, 2) {
                tighten_last(&mut curves);
            }
            let short = fits(&curves);
            assert_eq!(short, fits_tick_by_tick(&curves), "{curves:?}");
            assert_eq!(short, fits_far_out(&curves), "{curves:?}");
            if short { fitting += 1 } else { not_fitting += 1 }
        }
        assert!(fitting > 2_000 && not_fitting > 2_000, "{fitting} {not_fitting}");
    }

    /// Make the last curve a straight one that just fits, or is one too high, where there is room.
    fn tighten_last(curves: &mut [Curve]) {
        let last = curves.len() - 1;
        let others: u128 = curves[..last].iter().map(Curve::last_slope).sum();
        if others < PARTS {
            let room = (PARTS - others) as u32;
            curves[last] = Curve::Straight { m: (room + (room % 2)).min(65_536) };
        }
    }

    /// Every tick to a little past the last bend, and then one tick so late that a larger slope has won:
    /// at the last bend the link is ahead by at most 65,536·bend, and a larger slope gains 1 a tick or more.
    fn fits_far_out(curves: &[Curve]) -> bool {
        let last_bend = curves.iter().map(Curve::bend).max().unwrap();
        let late = last_bend + PARTS * last_bend + 1;
        (0..=last_bend + 3).all(|t| fits_at(curves, t)) && fits_at(curves, late)
    }

    #[test]
    fn the_example_rows_on_fit() {
        let straight = |m| Curve::Straight { m };
        let front = |m1| Curve::FrontLoaded { m1, d: 1, m2: 1 };
        let check = |curves: &[Curve]| {
            assert_eq!(fits(curves), fits_tick_by_tick(curves));
            fits(curves)
        };
        assert!(check(&[straight(32_768), straight(32_768)]));
        assert!(!check(&[straight(32_769), straight(32_768)]));
        assert!(check(&[front(65_535), straight(1)]));
        assert!(!check(&[front(65_536), straight(1)]));
        assert!(check(&[Curve::FrontLoaded { m1: 32_768, d: 2_000, m2: 16_384 }, Curve::Delayed { d: 2_000, m: 32_768 }]));
    }

    #[test]
    fn least_agrees_with_a_plain_walk() {
        let mut dice = Dice::new(2);
        for _ in 0..20_000 {
            let curve = random_curve(&mut dice, 300, 40);
            let y = u128::from(dice.below(3_000));
            let from = u128::from(dice.below(50));
            let walk = (from..).find(|&t| curve.amount(t) >= y).unwrap();
            assert_eq!(least_from(from, |t| curve.amount(t) >= y), walk);
        }
    }
}
