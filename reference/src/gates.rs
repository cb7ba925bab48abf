//! Gate octets and gate lists. Bit c of an octet is 1 when the gate of class c is open.

use crate::plan::CheckedPlan;
use crate::refusal::Refusal;

pub const ALL_CLOSED: u8 = 0x00;
pub const SCHEDULED_OPEN: u8 = 0x80;
pub const ORDINARY_OPEN: u8 = 0x7F;

/// An octet and the ticks for which it lasts unbroken within the cycle.
#[derive(Clone, Copy, Debug, PartialEq, Eq)]
pub struct Entry {
    pub octet: u8,
    pub ticks: i64,
}

impl CheckedPlan {
    /// The octet of a port at a tick of the cycle, told from its windows.
    pub fn octet(&self, port: usize, tick: i64) -> u8 {
        let before = 2 * self.plan().settings.error;
        let mut windows = self.windows_at(port).iter();
        if windows.any(|window| window.offset <= tick && tick < window.end) {
            return SCHEDULED_OPEN;
        }
        let mut windows = self.windows_at(port).iter();
        if windows.any(|window| window.offset - before <= tick && tick < window.offset) {
            return ALL_CLOSED;
        }
        ORDINARY_OPEN
    }

    /// The gate list of a port, by going through every tick of the cycle.
    pub fn gates(&self, port: u64) -> Result<Vec<Entry>, Refusal> {
        let settings = &self.plan().settings;
        let port = usize::try_from(port)
            .ok()
            .filter(|port| *port < settings.delays.len())
            .ok_or(Refusal::GatePortAbsent)?;
        let mut entries: Vec<Entry> = Vec::new();
        for tick in 0..settings.cycle {
            let octet = self.octet(port, tick);
            match entries.last_mut() {
                Some(entry) if entry.octet == octet => entry.ticks += 1,
                _ => entries.push(Entry { octet, ticks: 1 }),
            }
        }
        Ok(entries)
    }
}
