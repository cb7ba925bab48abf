//! Every way in which a call refuses, its number, and what is named with it.

use std::fmt;

#[derive(Clone, Copy, Debug, PartialEq, Eq)]
pub enum Rule {
    /// The window begins too early in the cycle.
    Begin,
    /// The window ends too late in the cycle.
    End,
    /// The frame may join the line after the gate has opened.
    Reach,
    /// The frame may arrive in the next cycle.
    Arrival,
    /// The frame may arrive after its deadline.
    Deadline,
    /// The frame may join the line while an earlier window of the port is open.
    Apart,
}

#[derive(Clone, Copy, Debug, PartialEq, Eq)]
pub enum Refusal {
    FlowsFull,
    FlowBeyondLimits,
    Route,
    NoOffsets,
    Offsets,
    SettingsBeyondLimits,
    Ports,
    Broken { rule: Rule, flow: usize, hop: usize },
    GatePortAbsent,
    CertificateAbsent,
    ClocksOrSelections,
    Base,
    ClockBound { port: usize },
    SettingBeyondLimits,
    FlowAbsent,
    NotReleased,
    AcceptedAlready,
    PortAbsent,
    NotOrdinary,
    OctetsBeyondLimits,
    LineFull,
    AdvanceTooLong,
    AdvanceTooFar,
    OtherCabinet,
    ChangeTooFar,
    ExtensionTooLong,
    ChangeTooSoon,
    SettleTooSoon,
}

impl Refusal {
    pub fn number(self) -> u32 {
        match self {
            Refusal::FlowsFull => 1,
            Refusal::FlowBeyondLimits => 2,
            Refusal::Route => 3,
            Refusal::NoOffsets => 4,
            Refusal::Offsets => 5,
            Refusal::SettingsBeyondLimits => 6,
            Refusal::Ports => 7,
            Refusal::Broken { rule, .. } => rule.number(),
            Refusal::GatePortAbsent => 21,
            Refusal::CertificateAbsent => 22,
            Refusal::ClocksOrSelections => 31,
            Refusal::Base => 32,
            Refusal::ClockBound { .. } => 33,
            Refusal::SettingBeyondLimits => 34,
            Refusal::FlowAbsent => 41,
            Refusal::NotReleased => 42,
            Refusal::AcceptedAlready => 43,
            Refusal::PortAbsent => 44,
            Refusal::NotOrdinary => 45,
            Refusal::OctetsBeyondLimits => 46,
            Refusal::LineFull => 47,
            Refusal::AdvanceTooLong => 51,
            Refusal::AdvanceTooFar => 52,
            Refusal::OtherCabinet => 61,
            Refusal::ChangeTooFar => 62,
            Refusal::ExtensionTooLong => 63,
            Refusal::ChangeTooSoon => 64,
            Refusal::SettleTooSoon => 71,
        }
    }
}

impl Rule {
    fn number(self) -> u32 {
        match self {
            Rule::Begin => 11,
            Rule::End => 12,
            Rule::Reach => 13,
            Rule::Arrival => 14,
            Rule::Deadline => 15,
            Rule::Apart => 16,
        }
    }
}

impl fmt::Display for Refusal {
    fn fmt(&self, out: &mut fmt::Formatter) -> fmt::Result {
        write!(out, "refused {}", self.number())?;
        match self {
            Refusal::Broken { flow, hop, .. } => write!(out, " flow {flow} hop {hop}"),
            Refusal::ClockBound { port } => write!(out, " port {port}"),
            _ => Ok(()),
        }
    }
}
