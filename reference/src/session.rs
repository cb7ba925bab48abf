//! A session: at most one draft, one checked plan and one network, and the reply to each call.

use std::fmt;

use crate::clock::{Clock, ClockSetting};
use crate::gates::Entry;
use crate::network::{Changing, Core, OnWire, Record, Steady};
use crate::plan::{CheckedPlan, Draft};
use crate::refusal::Refusal;
use crate::scenario::Call;
use crate::selection::{self, PortSelection, SelectionSetting};

/// What does not stand ready for a call.
#[derive(Clone, Copy, Debug, PartialEq, Eq)]
pub enum OutOfOrder {
    NoDraft,
    NoCheckedPlan,
    NoNetwork,
    IsChanging,
    IsSteady,
}

#[derive(Clone, Debug, PartialEq, Eq)]
pub enum Reply {
    Opened,
    Placed { flow: usize, offsets: Vec<i64> },
    Added { flow: usize },
    Checked,
    Certificate { least: i64, greatest: i64 },
    Gates(Vec<Entry>),
    Started,
    Accepted,
    Queued,
    Now { tick: i64 },
    Record(Record),
    Wire(Option<OnWire>),
    ChangeAt { tick: i64 },
    Settled,
    Refused(Refusal),
    OutOfOrder(OutOfOrder),
}

impl From<Refusal> for Reply {
    fn from(refusal: Refusal) -> Reply {
        Reply::Refused(refusal)
    }
}

impl From<OutOfOrder> for Reply {
    fn from(reason: OutOfOrder) -> Reply {
        Reply::OutOfOrder(reason)
    }
}

impl fmt::Display for OutOfOrder {
    fn fmt(&self, out: &mut fmt::Formatter) -> fmt::Result {
        let reason = match self {
            OutOfOrder::NoDraft => "no draft",
            OutOfOrder::NoCheckedPlan => "no checked plan",
            OutOfOrder::NoNetwork => "no network",
            OutOfOrder::IsChanging => "the network is changing",
            OutOfOrder::IsSteady => "the network is steady",
        };
        write!(out, "out of order: {reason}")
    }
}

impl fmt::Display for Reply {
    fn fmt(&self, out: &mut fmt::Formatter) -> fmt::Result {
        match self {
            Reply::Opened => write!(out, "opened"),
            Reply::Placed { flow, offsets } => {
                write!(out, "placed {flow} offsets")?;
                offsets.iter().try_for_each(|o| write!(out, " {o}"))
            }
            Reply::Added { flow } => write!(out, "added {flow}"),
            Reply::Checked => write!(out, "checked"),
            Reply::Certificate { least, greatest } => {
                write!(out, "certificate {least} {greatest}")
            }
            Reply::Gates(entries) => write_gates(out, entries),
            Reply::Started => write!(out, "started"),
            Reply::Accepted => write!(out, "accepted"),
            Reply::Queued => write!(out, "queued"),
            Reply::Now { tick } => write!(out, "now {tick}"),
            Reply::Record(record) => write_record(out, record),
            Reply::Wire(None) => write!(out, "wire none"),
            Reply::Wire(Some(OnWire { class, last })) => {
                write!(out, "wire class {class} until {last}")
            }
            Reply::ChangeAt { tick } => write!(out, "change at {tick}"),
            Reply::Settled => write!(out, "settled"),
            Reply::Refused(refusal) => write!(out, "{refusal}"),
            Reply::OutOfOrder(reason) => write!(out, "{reason}"),
        }
    }
}

fn write_gates(out: &mut fmt::Formatter, entries: &[Entry]) -> fmt::Result {
    write!(out, "gates")?;
    for Entry { octet, ticks } in entries {
        write!(out, " 0x{octet:02X}*{ticks}")?;
    }
    Ok(())
}

fn write_record(out: &mut fmt::Formatter, record: &Record) -> fmt::Result {
    let (accepted, delivered) = (record.accepted, record.delivered);
    write!(out, "record accepted {accepted} delivered {delivered}")?;
    match record.transits {
        None => write!(out, " least - greatest -")?,
        Some((least, greatest)) => write!(out, " least {least} greatest {greatest}")?,
    }
    let under_way = if record.under_way() { "yes" } else { "no" };
    write!(out, " under-way {under_way}")
}

/// The network in either of its states.
#[derive(Clone, Debug)]
pub enum Network {
    Steady(Steady<PortSelection>),
    Changing(Changing<PortSelection>),
}

impl Network {
    pub fn core(&self) -> &Core<PortSelection> {
        match self {
            Network::Steady(steady) => steady.core(),
            Network::Changing(changing) => changing.core(),
        }
    }

    fn core_mut(&mut self) -> &mut Core<PortSelection> {
        match self {
            Network::Steady(steady) => steady.core_mut(),
            Network::Changing(changing) => changing.core_mut(),
        }
    }
}

#[derive(Clone, Debug, Default)]
pub struct Session {
    draft: Option<Draft>,
    checked: Option<CheckedPlan>,
    network: Option<Network>,
}

impl Session {
    pub fn draft(&self) -> Option<&Draft> {
        self.draft.as_ref()
    }

    pub fn checked(&self) -> Option<&CheckedPlan> {
        self.checked.as_ref()
    }

    pub fn network(&self) -> Option<&Network> {
        self.network.as_ref()
    }

    pub fn perform(&mut self, call: Call) -> Reply {
        self.answer(call).unwrap_or_else(|other| other)
    }

    /// The reply to a call; as an error if nothing came of it.
    fn answer(&mut self, call: Call) -> Result<Reply, Reply> {
        match call {
            Call::Open {
                cycle,
                error,
                extension,
                delays,
            } => {
                self.draft = Some(Draft::open(cycle, error, extension, &delays)?);
                Ok(Reply::Opened)
            }
            Call::Place(request) => {
                let (flow, offsets) = self.draft_mut()?.place(&request)?;
                Ok(Reply::Placed { flow, offsets })
            }
            Call::Add { flow, offsets } => {
                let flow = self.draft_mut()?.add(&flow, &offsets)?;
                Ok(Reply::Added { flow })
            }
            Call::Check => self.check(),
            Call::Certificate { flow } => {
                let (least, greatest) = self.checked_plan()?.certificate(flow)?;
                Ok(Reply::Certificate { least, greatest })
            }
            Call::Gates { port } => Ok(Reply::Gates(self.checked_plan()?.gates(port)?)),
            Call::Start {
                base,
                clocks,
                selections,
            } => self.start(base, &clocks, &selections),
            Call::Change { base } => self.change(base),
            Call::Settle => self.settle(),
            _ => run_call(self.core_mut()?, call),
        }
    }

    fn draft_mut(&mut self) -> Result<&mut Draft, OutOfOrder> {
        self.draft.as_mut().ok_or(OutOfOrder::NoDraft)
    }

    fn checked_plan(&self) -> Result<&CheckedPlan, OutOfOrder> {
        self.checked.as_ref().ok_or(OutOfOrder::NoCheckedPlan)
    }

    fn core_mut(&mut self) -> Result<&mut Core<PortSelection>, OutOfOrder> {
        match &mut self.network {
            Some(network) => Ok(network.core_mut()),
            None => Err(OutOfOrder::NoNetwork),
        }
    }

    fn check(&mut self) -> Result<Reply, Reply> {
        let draft = self.draft.take().ok_or(OutOfOrder::NoDraft)?;
        match draft.check() {
            Ok(checked) => {
                self.checked = Some(checked);
                Ok(Reply::Checked)
            }
            Err((draft, refusal)) => {
                self.draft = Some(draft);
                Err(refusal.into())
            }
        }
    }

    fn start(
        &mut self,
        base: u64,
        clocks: &[ClockSetting],
        selections: &[SelectionSetting],
    ) -> Result<Reply, Reply> {
        self.checked_plan()?;
        let clocks: Result<Vec<_>, _> = clocks.iter().map(|c| Clock::make(*c)).collect();
        let clocks = clocks?;
        let selections: Result<Vec<_>, _> =
            selections.iter().map(|s| selection::make(*s)).collect();
        let selections = selections?;
        let plan = self.checked.take().ok_or(OutOfOrder::NoCheckedPlan)?;
        match Steady::start(plan, base, clocks, selections) {
            Ok(steady) => {
                self.network = Some(Network::Steady(steady));
                Ok(Reply::Started)
            }
            Err((plan, refusal)) => {
                self.checked = Some(plan);
                Err(refusal.into())
            }
        }
    }

    fn change(&mut self, base: u64) -> Result<Reply, Reply> {
        match &self.network {
            None => return Err(OutOfOrder::NoNetwork.into()),
            Some(Network::Changing(_)) => return Err(OutOfOrder::IsChanging.into()),
            Some(Network::Steady(_)) => self.checked_plan()?,
        };
        let (Some(Network::Steady(steady)), Some(plan)) =
            (self.network.take(), self.checked.take())
        else {
            unreachable!("both have just been seen");
        };
        match steady.change(plan, base) {
            Ok(changing) => {
                let tick = changing.tick();
                self.network = Some(Network::Changing(changing));
                Ok(Reply::ChangeAt { tick })
            }
            Err((steady, plan, refusal)) => {
                self.network = Some(Network::Steady(steady));
                self.checked = Some(plan);
                Err(refusal.into())
            }
        }
    }

    fn settle(&mut self) -> Result<Reply, Reply> {
        match self.network.take() {
            None => Err(OutOfOrder::NoNetwork.into()),
            Some(Network::Steady(steady)) => {
                self.network = Some(Network::Steady(steady));
                Err(OutOfOrder::IsSteady.into())
            }
            Some(Network::Changing(changing)) => match changing.settle() {
                Ok(steady) => {
                    self.network = Some(Network::Steady(steady));
                    Ok(Reply::Settled)
                }
                Err((changing, refusal)) => {
                    self.network = Some(Network::Changing(changing));
                    Err(refusal.into())
                }
            },
        }
    }
}

/// The calls of a network in whatever state.
fn run_call(core: &mut Core<PortSelection>, call: Call) -> Result<Reply, Reply> {
    match call {
        Call::Offer { flow } => {
            core.offer(flow)?;
            Ok(Reply::Accepted)
        }
        Call::Queue {
            port,
            class,
            octets,
            label,
        } => {
            core.queue(port, class, octets, label)?;
            Ok(Reply::Queued)
        }
        Call::Advance { ticks } => Ok(Reply::Now {
            tick: core.advance(ticks)?,
        }),
        Call::Record { flow } => Ok(Reply::Record(core.record(flow)?.clone())),
        Call::Wire { port } => Ok(Reply::Wire(core.wire(port)?)),
        _ => unreachable!("no call of a network"),
    }
}
