//! Selections: which of the available classes a port sends next.
//! A set of classes is a mask; bit c stands for class c.

use crate::refusal::Refusal;

const CREDIT_LIMIT: i64 = 2_000_000;

pub trait Selection {
    /// The classes that this kind may ever hold back; never class 7.
    const MAY_HOLD: u8;

    /// The classes held back now.
    fn held(&self) -> u8;

    /// A class that is available and not held back, or none if there is no such class.
    fn ask(&self, available: u8) -> Option<u8>;

    /// Comes once a tick: the class on the wire, the classes that wait, the classes with open gates.
    fn pass(&mut self, wire: Option<u8>, waiting: u8, open: u8);
}

/// The highest class of a set.
fn highest(classes: u8) -> Option<u8> {
    (classes != 0).then(|| 7 - classes.leading_zeros() as u8)
}

fn has(classes: u8, class: u8) -> bool {
    classes >> class & 1 == 1
}

#[derive(Clone, Debug)]
pub struct Strict;

impl Selection for Strict {
    const MAY_HOLD: u8 = 0;

    fn held(&self) -> u8 {
        0
    }

    fn ask(&self, available: u8) -> Option<u8> {
        highest(available)
    }

    fn pass(&mut self, _wire: Option<u8>, _waiting: u8, _open: u8) {}
}

/// One class of a credit-based shaper.
#[derive(Clone, Debug)]
struct Shaped {
    class: u8,
    /// Thousandths of the link.
    share: i64,
    credit: i64,
}

impl Shaped {
    fn pass(&mut self, wire: Option<u8>, waiting: u8, open: u8) {
        let credit = if wire == Some(self.class) {
            self.credit + self.share - 1000
        } else if !has(waiting, self.class) {
            0
        } else if !has(open, self.class) {
            self.credit
        } else {
            self.credit + self.share
        };
        self.credit = credit.clamp(-CREDIT_LIMIT, CREDIT_LIMIT);
    }
}

#[derive(Clone, Debug)]
pub struct Shaper {
    classes: [Shaped; 2],
}

impl Shaper {
    pub fn make(share6: u64, share5: u64) -> Result<Shaper, Refusal> {
        let limits = 1..=999;
        if !limits.contains(&share6) || !limits.contains(&share5) {
            return Err(Refusal::SettingBeyondLimits);
        }
        let shaped = |class, share: u64| Shaped {
            class,
            share: share as i64,
            credit: 0,
        };
        Ok(Shaper {
            classes: [shaped(6, share6), shaped(5, share5)],
        })
    }

    pub fn credit(&self, class: u8) -> Option<i64> {
        self.classes
            .iter()
            .find(|shaped| shaped.class == class)
            .map(|shaped| shaped.credit)
    }
}

impl Selection for Shaper {
    const MAY_HOLD: u8 = 1 << 6 | 1 << 5;

    fn held(&self) -> u8 {
        self.classes
            .iter()
            .filter(|shaped| shaped.credit < 0)
            .fold(0, |held, shaped| held | 1 << shaped.class)
    }

    fn ask(&self, available: u8) -> Option<u8> {
        highest(available & !self.held())
    }

    fn pass(&mut self, wire: Option<u8>, waiting: u8, open: u8) {
        for shaped in &mut self.classes {
            shaped.pass(wire, waiting, open);
        }
    }
}

/// Either of two selections, itself a selection.
#[derive(Clone, Debug)]
pub enum Choice<A, B> {
    First(A),
    Second(B),
}

impl<A: Selection, B: Selection> Selection for Choice<A, B> {
    const MAY_HOLD: u8 = A::MAY_HOLD | B::MAY_HOLD;

    fn held(&self) -> u8 {
        match self {
            Choice::First(a) => a.held(),
            Choice::Second(b) => b.held(),
        }
    }

    fn ask(&self, available: u8) -> Option<u8> {
        match self {
            Choice::First(a) => a.ask(available),
            Choice::Second(b) => b.ask(available),
        }
    }

    fn pass(&mut self, wire: Option<u8>, waiting: u8, open: u8) {
        match self {
            Choice::First(a) => a.pass(wire, waiting, open),
            Choice::Second(b) => b.pass(wire, waiting, open),
        }
    }
}

/// What a scenario asks for, before any limit is looked at.
#[derive(Clone, Copy, Debug, PartialEq, Eq)]
pub enum SelectionSetting {
    Strict,
    Shaper { share6: u64, share5: u64 },
}

/// The selections that a scenario can name.
pub type PortSelection = Choice<Strict, Shaper>;

pub fn make(setting: SelectionSetting) -> Result<PortSelection, Refusal> {
    match setting {
        SelectionSetting::Strict => Ok(Choice::First(Strict)),
        SelectionSetting::Shaper { share6, share5 } => {
            Shaper::make(share6, share5).map(Choice::Second)
        }
    }
}

#[cfg(test)]
mod tests {
    use super::*;

    const CLASS_6: u8 = 1 << 6;

    #[test]
    fn class_7_is_never_held() {
        assert!(!has(<Choice<Shaper, Choice<Strict, Shaper>>>::MAY_HOLD, 7));
    }

    #[test]
    fn strict_replies_the_highest() {
        assert_eq!(Strict.ask(0), None);
        assert_eq!(Strict.ask(0b0010_0101), Some(5));
        assert_eq!(Strict.ask(0xFF), Some(7));
    }

    #[test]
    fn a_frame_of_100_ticks_is_paid_back_in_300() {
        let mut shaper = Shaper::make(250, 250).unwrap();
        assert_eq!(shaper.ask(CLASS_6), Some(6));
        for _ in 0..100 {
            shaper.pass(Some(6), CLASS_6, 0x7F);
        }
        assert_eq!(shaper.credit(6), Some(-75_000));
        let mut ticks = 0;
        while shaper.ask(CLASS_6).is_none() {
            shaper.pass(None, CLASS_6, 0x7F);
            ticks += 1;
        }
        assert_eq!(ticks, 300);
    }

    #[test]
    fn credits_stop_at_their_limits() {
        let mut shaper = Shaper::make(999, 1).unwrap();
        for _ in 0..3000 {
            shaper.pass(Some(5), CLASS_6, 0x7F);
        }
        assert_eq!(
            (shaper.credit(6), shaper.credit(5)),
            (Some(2_000_000), Some(-2_000_000))
        );
    }

    #[test]
    fn a_closed_gate_keeps_credit_and_an_empty_line_clears_it() {
        let mut shaper = Shaper::make(500, 500).unwrap();
        shaper.pass(Some(6), 0, 0x7F);
        shaper.pass(None, CLASS_6, 0x80);
        assert_eq!(shaper.credit(6), Some(-500));
        assert_eq!(shaper.ask(0b0110_0000), Some(5));
        shaper.pass(None, 0, 0x80);
        assert_eq!(shaper.credit(6), Some(0));
    }
}
