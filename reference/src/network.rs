//! The network, run tick by tick: lines, wires, scheduled frames and records.

#![allow(clippy::result_large_err)] // a refusal gives back what was handed over

use crate::clock::Clock;
use crate::line;
use crate::plan::{CheckedPlan, FRAME_OCTETS, Flow, OVERHEAD, within};
use crate::refusal::Refusal;
use crate::selection::Selection;
use crate::timetable::{Change, Timetable};

const SCHEDULED: u8 = 7;
const SCHEDULED_SLOTS: usize = 16;
const ORDINARY_SLOTS: usize = 8;
/// No base and no change tick lies beyond this.
const LAST_BASE: i64 = 1 << 47;
/// No tick from here on is run.
const LAST_NOW: i64 = 1 << 48;
const LONGEST_ADVANCE: i64 = 1_250_000;
/// Wire time of the longest frame: whatever is on a wire has ended by then.
const LONGEST_WIRE_TIME: i64 = FRAME_OCTETS.1 + OVERHEAD;

#[derive(Clone, Copy, Debug, Default)]
struct OrdinaryFrame {
    octets: i64,
    /// Carried for whoever offered the frame; nothing here looks at it.
    _label: u16,
}

/// What is on a wire: a class, and the last tick of its frame.
#[derive(Clone, Copy, Debug, PartialEq, Eq)]
pub struct OnWire {
    pub class: u8,
    pub last: i64,
}

#[derive(Clone, Debug)]
struct Port<S> {
    clock: Clock,
    selection: S,
    /// Line 7: the flow numbers of the scheduled frames that wait.
    scheduled: [usize; SCHEDULED_SLOTS],
    scheduled_count: usize,
    ordinary: [[OrdinaryFrame; ORDINARY_SLOTS]; 7],
    ordinary_count: [usize; 7],
    wire: Option<OnWire>,
}

impl<S> Port<S> {
    fn new(clock: Clock, selection: S) -> Port<S> {
        Port {
            clock,
            selection,
            scheduled: [0; SCHEDULED_SLOTS],
            scheduled_count: 0,
            ordinary: [[OrdinaryFrame::default(); ORDINARY_SLOTS]; 7],
            ordinary_count: [0; 7],
            wire: None,
        }
    }

    /// What is on the wire at tick t.
    fn on_wire(&self, t: i64) -> Option<OnWire> {
        self.wire.filter(|wire| t <= wire.last)
    }

    /// The classes with frames waiting.
    fn waiting(&self) -> u8 {
        let mut classes = 0;
        for class in 0..SCHEDULED {
            if self.ordinary_count[usize::from(class)] > 0 {
                classes |= 1 << class;
            }
        }
        if self.scheduled_count > 0 {
            classes |= 1 << SCHEDULED;
        }
        classes
    }

    fn join_scheduled(&mut self, flow: usize) {
        let joined = line::push(&mut self.scheduled, &mut self.scheduled_count, flow);
        assert!(joined, "line 7 has room for a frame of every flow");
    }
}

/// Where a scheduled frame is.
#[derive(Clone, Copy, Debug, PartialEq, Eq)]
enum Place {
    /// In line 7 of the port of its hop.
    Waiting,
    /// On its way from the port of its hop; at the reach tick it is past the link.
    Sent { reach: i64 },
}

/// A scheduled frame that has been accepted and not yet delivered.
#[derive(Clone, Debug)]
struct ScheduledFrame {
    number: usize,
    flow: Flow,
    release: i64,
    hop: usize,
    place: Place,
}

impl ScheduledFrame {
    fn port(&self) -> usize {
        self.flow.route[self.hop]
    }

    fn waits_at(&self, port: usize) -> bool {
        self.place == Place::Waiting && self.port() == port
    }
}

/// What has become of a flow's frames since its plan came into force.
#[derive(Clone, Debug, Default, PartialEq, Eq)]
pub struct Record {
    pub accepted: u64,
    pub delivered: u64,
    /// Least and greatest transit.
    pub transits: Option<(i64, i64)>,
    last_accepted: Option<i64>,
}

impl Record {
    pub fn under_way(&self) -> bool {
        self.delivered < self.accepted
    }

    fn deliver(&mut self, transit: i64) {
        self.delivered += 1;
        self.transits = Some(match self.transits {
            None => (transit, transit),
            Some((least, greatest)) => (least.min(transit), greatest.max(transit)),
        });
    }
}

/// What a steady and a changing network have in common.
#[derive(Clone, Debug)]
pub struct Core<S> {
    now: i64,
    timetable: Timetable,
    ports: Vec<Port<S>>,
    frames: Vec<ScheduledFrame>,
    records: Vec<Record>,
}

impl<S: Selection> Core<S> {
    pub fn now(&self) -> i64 {
        self.now
    }

    pub fn timetable(&self) -> &Timetable {
        &self.timetable
    }

    /// What the clock of a port reads now.
    pub fn reading(&self, port: usize) -> i64 {
        self.ports[port].clock.reading(self.now)
    }

    /// A scheduled offer of a frame of the flow.
    pub fn offer(&mut self, flow: u64) -> Result<(), Refusal> {
        let (plan, base) = self.timetable.in_force(self.now);
        let number = self.flow_number(flow)?;
        let flow = plan.flows[number].clone();
        let phase = (self.now - base) % plan.settings.cycle;
        if phase != flow.release || self.timetable.is_held(self.now) {
            return Err(Refusal::NotReleased);
        }
        let record = &mut self.records[number];
        if record.last_accepted == Some(self.now) {
            return Err(Refusal::AcceptedAlready);
        }
        record.last_accepted = Some(self.now);
        record.accepted += 1;
        self.ports[flow.route[0]].join_scheduled(number);
        self.frames.push(ScheduledFrame {
            number,
            flow,
            release: self.now,
            hop: 0,
            place: Place::Waiting,
        });
        Ok(())
    }

    fn flow_number(&self, flow: u64) -> Result<usize, Refusal> {
        usize::try_from(flow)
            .ok()
            .filter(|flow| *flow < self.records.len())
            .ok_or(Refusal::FlowAbsent)
    }

    fn port_number(&self, port: u64) -> Result<usize, Refusal> {
        usize::try_from(port)
            .ok()
            .filter(|port| *port < self.ports.len())
            .ok_or(Refusal::PortAbsent)
    }

    /// An ordinary offer.
    pub fn queue(&mut self, port: u64, class: u64, octets: u64, label: u64) -> Result<(), Refusal> {
        let port = self.port_number(port)?;
        if class >= u64::from(SCHEDULED) {
            return Err(Refusal::NotOrdinary);
        }
        let frame = OrdinaryFrame {
            octets: within(octets, FRAME_OCTETS).ok_or(Refusal::OctetsBeyondLimits)?,
            _label: u16::try_from(label).map_err(|_| Refusal::OctetsBeyondLimits)?,
        };
        let class = class as usize;
        let Port {
            ordinary,
            ordinary_count,
            ..
        } = &mut self.ports[port];
        if line::push(&mut ordinary[class], &mut ordinary_count[class], frame) {
            Ok(())
        } else {
            Err(Refusal::LineFull)
        }
    }

    pub fn record(&self, flow: u64) -> Result<&Record, Refusal> {
        self.flow_number(flow).map(|number| &self.records[number])
    }

    pub fn wire(&self, port: u64) -> Result<Option<OnWire>, Refusal> {
        let port = self.port_number(port)?;
        Ok(self.ports[port].on_wire(self.now))
    }

    /// Runs n ticks, or none if that goes too far; replies the tick that is then now.
    pub fn advance(&mut self, n: u64) -> Result<i64, Refusal> {
        let n = within(n, (0, LONGEST_ADVANCE)).ok_or(Refusal::AdvanceTooLong)?;
        if self.now + n > LAST_NOW {
            return Err(Refusal::AdvanceTooFar);
        }
        for _ in 0..n {
            self.run_tick();
        }
        Ok(self.now)
    }

    fn run_tick(&mut self) {
        self.land();
        for port in 0..self.ports.len() {
            if self.ports[port].on_wire(self.now).is_none() {
                self.send(port);
            }
        }
        for port in 0..self.ports.len() {
            self.pass(port);
        }
        self.now += 1;
        self.begin_records_afresh();
    }

    /// Each frame whose reach tick is now joins its next line or is delivered, the lower flow first.
    fn land(&mut self) {
        let reach = self.now;
        let (mut landed, others): (Vec<_>, Vec<_>) = std::mem::take(&mut self.frames)
            .into_iter()
            .partition(|frame| frame.place == Place::Sent { reach });
        self.frames = others;
        landed.sort_by_key(|frame| frame.number);
        for mut frame in landed {
            if frame.hop + 1 == frame.flow.route.len() {
                self.records[frame.number].deliver(reach - frame.release);
                continue;
            }
            frame.hop += 1;
            frame.place = Place::Waiting;
            self.ports[frame.port()].join_scheduled(frame.number);
            self.frames.push(frame);
        }
    }

    /// Puts the first frame of the class that the selection replies on the wire.
    fn send(&mut self, port: usize) {
        let local = self.reading(port);
        let available = self.available(port, local);
        let Some(class) = self.ports[port].selection.ask(available) else {
            return;
        };
        let wire_time = self.first_wire_time(port, class).expect("a frame waits");
        self.take_first(port, class);
        let last = self.now + wire_time - 1;
        self.ports[port].wire = Some(OnWire { class, last });
    }

    /// The classes with a frame waiting whose gate stays open for the whole of the first one.
    fn available(&self, port: usize, local: i64) -> u8 {
        let mut classes = 0;
        for class in 0..=SCHEDULED {
            if let Some(wire_time) = self.first_wire_time(port, class)
                && self.timetable.stays_open(port, class, local, wire_time)
            {
                classes |= 1 << class;
            }
        }
        classes
    }

    /// Wire time of the first frame of a line, if one waits.
    fn first_wire_time(&self, port: usize, class: u8) -> Option<i64> {
        if class == SCHEDULED {
            let frame = &self.frames[self.first_scheduled(port)?];
            return Some(frame.flow.wire_time());
        }
        let class = usize::from(class);
        let Port {
            ordinary,
            ordinary_count,
            ..
        } = &self.ports[port];
        line::first(&ordinary[class], ordinary_count[class]).map(|frame| frame.octets + OVERHEAD)
    }

    /// The place in the list of frames of the first one of line 7. Were several frames of
    /// one flow waiting at a port, the one released first would have joined first.
    fn first_scheduled(&self, port: usize) -> Option<usize> {
        let Port {
            scheduled,
            scheduled_count,
            ..
        } = &self.ports[port];
        let number = line::first(scheduled, *scheduled_count)?;
        let found = (self.frames.iter().enumerate())
            .filter(|(_, frame)| frame.number == number && frame.waits_at(port))
            .min_by_key(|(_, frame)| frame.release);
        Some(found.expect("a flow number in line 7 has a frame").0)
    }

    /// Takes the first frame out of its line; a scheduled one is on its way, an ordinary one leaves.
    fn take_first(&mut self, port: usize, class: u8) {
        if class == SCHEDULED {
            let at = self.first_scheduled(port).expect("a frame waits");
            let (plan, _) = self.timetable.in_force(self.now);
            let frame = &mut self.frames[at];
            let reach = self.now + frame.flow.wire_time() + plan.settings.delays[port];
            frame.place = Place::Sent { reach };
            let Port {
                scheduled,
                scheduled_count,
                ..
            } = &mut self.ports[port];
            line::take(scheduled, scheduled_count);
        } else {
            let class = usize::from(class);
            let Port {
                ordinary,
                ordinary_count,
                ..
            } = &mut self.ports[port];
            line::take(&mut ordinary[class], &mut ordinary_count[class]);
        }
    }

    /// Tells the selection what the port is doing at this tick.
    fn pass(&mut self, port: usize) {
        let now = self.now;
        let open = self.timetable.octet(port, self.reading(port));
        let port = &mut self.ports[port];
        let class = port.on_wire(now).map(|wire| wire.class);
        let waiting = port.waiting();
        port.selection.pass(class, waiting, open);
    }

    /// A plan that comes into force has new records.
    fn begin_records_afresh(&mut self) {
        if let Some(change) = &self.timetable.change
            && self.now == change.tick
        {
            let under_way = self.records.iter().any(Record::under_way);
            assert!(!under_way, "the last cycle delivers its frames");
            self.records = vec![Record::default(); change.plan.plan().flows.len()];
        }
    }
}

/// A network with one plan.
#[derive(Clone, Debug)]
pub struct Steady<S> {
    core: Core<S>,
}

/// A network for which a change has been accepted and not yet settled.
#[derive(Clone, Debug)]
pub struct Changing<S> {
    core: Core<S>,
}

impl<S: Selection> Steady<S> {
    /// A network at its base, with nothing in it; or the plan again, with the reason why not.
    pub fn start(
        plan: CheckedPlan,
        base: u64,
        clocks: Vec<Clock>,
        selections: Vec<S>,
    ) -> Result<Steady<S>, (CheckedPlan, Refusal)> {
        let base = match start_base(&plan, base, &clocks, selections.len()) {
            Ok(base) => base,
            Err(refusal) => return Err((plan, refusal)),
        };
        let ports = clocks.into_iter().zip(selections);
        let core = Core {
            now: base,
            ports: ports.map(|(clock, s)| Port::new(clock, s)).collect(),
            frames: Vec::new(),
            records: vec![Record::default(); plan.plan().flows.len()],
            timetable: Timetable {
                plan,
                base,
                change: None,
            },
        };
        Ok(Steady { core })
    }

    pub fn core(&self) -> &Core<S> {
        &self.core
    }

    pub fn core_mut(&mut self) -> &mut Core<S> {
        &mut self.core
    }

    /// The changing network; or the steady one and the plan again, with the reason why not.
    pub fn change(
        mut self,
        plan: CheckedPlan,
        base: u64,
    ) -> Result<Changing<S>, (Steady<S>, CheckedPlan, Refusal)> {
        match change_ticks(&self.core, &plan, base) {
            Ok((hold, tick)) => {
                self.core.timetable.change = Some(Change { plan, hold, tick });
                Ok(Changing { core: self.core })
            }
            Err(refusal) => Err((self, plan, refusal)),
        }
    }
}

/// The base of a network about to start, if it and the clocks are fit.
fn start_base(
    plan: &CheckedPlan,
    base: u64,
    clocks: &[Clock],
    selections: usize,
) -> Result<i64, Refusal> {
    let settings = &plan.plan().settings;
    let ports = settings.delays.len();
    if clocks.len() != ports || selections != ports {
        return Err(Refusal::ClocksOrSelections);
    }
    let base = within(base, (settings.error, LAST_BASE)).ok_or(Refusal::Base)?;
    match clocks.iter().position(|c| c.bound() > settings.error) {
        Some(port) => Err(Refusal::ClockBound { port }),
        None => Ok(base),
    }
}

/// The tick from which the last octet is held, and the change tick.
fn change_ticks<S>(core: &Core<S>, plan: &CheckedPlan, base: u64) -> Result<(i64, i64), Refusal> {
    let running = &core.timetable.plan.plan().settings;
    let new = &plan.plan().settings;
    if new.delays != running.delays || new.error != running.error {
        return Err(Refusal::OtherCabinet);
    }
    let base = within(base, (0, LAST_BASE)).ok_or(Refusal::ChangeTooFar)?;
    let mut tick = base;
    if tick < core.now {
        // Whole cycles of the new plan, as few as lead to now or beyond.
        let short = core.now - base;
        tick += (short + new.cycle - 1) / new.cycle * new.cycle;
    }
    if tick > LAST_BASE {
        return Err(Refusal::ChangeTooFar);
    }
    let extension = (tick - core.timetable.base) % running.cycle;
    let hold = tick - extension;
    if extension > running.extension {
        return Err(Refusal::ExtensionTooLong);
    }
    if hold < core.now + LONGEST_WIRE_TIME + 2 * running.error {
        return Err(Refusal::ChangeTooSoon);
    }
    Ok((hold, tick))
}

impl<S: Selection> Changing<S> {
    pub fn core(&self) -> &Core<S> {
        &self.core
    }

    pub fn core_mut(&mut self) -> &mut Core<S> {
        &mut self.core
    }

    fn coming(&self) -> &Change {
        let change = &self.core.timetable.change;
        change.as_ref().expect("a changing network has a change")
    }

    /// The change tick.
    pub fn tick(&self) -> i64 {
        self.coming().tick
    }

    /// The steady network of the new plan, once every clock has passed the change tick.
    pub fn settle(mut self) -> Result<Steady<S>, (Changing<S>, Refusal)> {
        let change = self.coming();
        if self.core.now < change.tick + change.plan.plan().settings.error {
            return Err((self, Refusal::SettleTooSoon));
        }
        self.core.timetable = Timetable {
            plan: change.plan.clone(),
            base: change.tick,
            change: None,
        };
        Ok(Steady { core: self.core })
    }
}
