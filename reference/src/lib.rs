//! Gate schedules, latency certificates and a network run tick by tick,
//! written as plainly as the rules read, so that another program can be compared with it.

pub mod clock;
pub mod gates;
pub mod generate;
pub mod line;
pub mod network;
pub mod placing;
pub mod plan;
pub mod random;
pub mod refusal;
pub mod scenario;
pub mod selection;
pub mod session;
pub mod timetable;
