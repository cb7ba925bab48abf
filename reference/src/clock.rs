//! Clocks of ports: a reading for every true tick, never further off than the bound.

use crate::refusal::Refusal;

const LARGEST_BOUND: u64 = 125;
const LONGEST_STEP: u64 = 65_535;

/// What a scenario asks for, before any limit is looked at.
#[derive(Clone, Copy, Debug, PartialEq, Eq)]
pub enum ClockSetting {
    Exact,
    Shifted { shift: i128 },
    Stepped { margin: u64, step: u64 },
}

#[derive(Clone, Copy, Debug, PartialEq, Eq)]
pub enum Clock {
    Exact,
    Shifted { shift: i64 },
    Stepped { margin: i64, step: i64 },
}

impl Clock {
    pub fn make(setting: ClockSetting) -> Result<Clock, Refusal> {
        match setting {
            ClockSetting::Exact => Ok(Clock::Exact),
            ClockSetting::Shifted { shift } => {
                if shift.unsigned_abs() > u128::from(LARGEST_BOUND) {
                    return Err(Refusal::SettingBeyondLimits);
                }
                Ok(Clock::Shifted {
                    shift: shift as i64,
                })
            }
            ClockSetting::Stepped { margin, step } => {
                if margin > LARGEST_BOUND || !(1..=LONGEST_STEP).contains(&step) {
                    return Err(Refusal::SettingBeyondLimits);
                }
                Ok(Clock::Stepped {
                    margin: margin as i64,
                    step: step as i64,
                })
            }
        }
    }

    pub fn bound(self) -> i64 {
        match self {
            Clock::Exact => 0,
            Clock::Shifted { shift } => shift.abs(),
            Clock::Stepped { margin, .. } => margin,
        }
    }

    /// The local tick that the clock shows at true tick `t`.
    pub fn reading(self, t: i64) -> i64 {
        match self {
            Clock::Exact => t,
            Clock::Shifted { shift } => t + shift,
            Clock::Stepped { margin, step } => t - margin + (t / step) % (2 * margin + 1),
        }
    }
}

#[cfg(test)]
mod tests {
    use super::*;

    #[test]
    fn readings_stay_within_the_bound() {
        let clocks = [
            Clock::Exact,
            Clock::Shifted { shift: -125 },
            Clock::Shifted { shift: 7 },
            Clock::Stepped { margin: 0, step: 1 },
            Clock::Stepped { margin: 3, step: 5 },
            Clock::Stepped {
                margin: 125,
                step: 65_535,
            },
        ];
        for clock in clocks {
            for t in clock.bound()..100_000 {
                assert!((clock.reading(t) - t).abs() <= clock.bound());
            }
        }
    }

    #[test]
    fn stepped_readings() {
        let clock = Clock::Stepped { margin: 2, step: 3 };
        let shown: Vec<i64> = (0..18).map(|t| clock.reading(t) - t).collect();
        assert_eq!(
            shown,
            [
                -2, -2, -2, -1, -1, -1, 0, 0, 0, 1, 1, 1, 2, 2, 2, -2, -2, -2
            ]
        );
    }

    #[test]
    fn limits_of_settings() {
        for (shift, good) in [
            (125, true),
            (-125, true),
            (126, false),
            (-126, false),
            (-i128::from(u64::MAX), false),
        ] {
            assert_eq!(
                Clock::make(ClockSetting::Shifted { shift }).is_ok(),
                good,
                "{shift}"
            );
        }
        for (margin, step, good) in [
            (0, 1, true),
            (125, 65_535, true),
            (126, 1, false),
            (0, 0, false),
            (0, 65_536, false),
        ] {
            assert_eq!(
                Clock::make(ClockSetting::Stepped { margin, step }).is_ok(),
                good
            );
        }
    }
}
