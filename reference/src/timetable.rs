//! Which gates are open at which local tick, over a running plan and a change that is coming.

use crate::gates::ALL_CLOSED;
use crate::plan::{CheckedPlan, Plan};

/// A change that has been accepted.
#[derive(Clone, Debug)]
pub struct Change {
    pub plan: CheckedPlan,
    /// The running plan's cycles end here; its last octet is held from here to the change tick.
    pub hold: i64,
    /// The new plan is in force from here.
    pub tick: i64,
}

#[derive(Clone, Debug)]
pub struct Timetable {
    pub plan: CheckedPlan,
    pub base: i64,
    pub change: Option<Change>,
}

impl Timetable {
    /// The gate octet of a port at a local tick.
    pub fn octet(&self, port: usize, local: i64) -> u8 {
        let cycle = self.plan.plan().settings.cycle;
        if let Some(change) = &self.change {
            if local >= change.tick {
                let new_cycle = change.plan.plan().settings.cycle;
                let tick = (local - change.tick) % new_cycle;
                return change.plan.octet(port, tick);
            }
            if local >= change.hold {
                return self.plan.octet(port, cycle - 1);
            }
        }
        if local < self.base {
            return ALL_CLOSED;
        }
        self.plan.octet(port, (local - self.base) % cycle)
    }

    /// Whether the gate of a class is open at each of `ticks` local ticks.
    pub fn stays_open(&self, port: usize, class: u8, from: i64, ticks: i64) -> bool {
        (from..from + ticks).all(|local| self.octet(port, local) >> class & 1 == 1)
    }

    /// The plan in force at a true tick, and its base.
    pub fn in_force(&self, now: i64) -> (&Plan, i64) {
        match &self.change {
            Some(change) if now >= change.tick => (change.plan.plan(), change.tick),
            _ => (self.plan.plan(), self.base),
        }
    }

    /// Whether a true tick lies between the last whole cycle of the running plan and the change.
    pub fn is_held(&self, now: i64) -> bool {
        match &self.change {
            Some(change) => change.hold <= now && now < change.tick,
            None => false,
        }
    }
}
