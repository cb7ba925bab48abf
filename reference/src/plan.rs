//! Plans: ports, flows, windows, and the rules of a good plan.
//! Times are whole ticks. They are signed, since a difference may fall below 0 in a draft.

use crate::refusal::{Refusal, Rule};

pub const MAX_FLOWS: usize = 16;
pub const MAX_PORTS: usize = 16;
pub const MAX_HOPS: usize = 6;
/// Ticks that a frame takes on the wire beyond its octets.
pub const OVERHEAD: i64 = 20;
pub const FRAME_OCTETS: (i64, i64) = (64, 1_522);
const CYCLE: (i64, i64) = (1_000, 1_250_000);
const ERROR: (i64, i64) = (0, 125);
const DELAY: (i64, i64) = (0, 25_000);
const DEADLINE: (i64, i64) = (1, 1_250_000);

/// The value as a tick count, if it lies within the limits.
pub fn within(value: u64, (least, greatest): (i64, i64)) -> Option<i64> {
    let value = i64::try_from(value).ok()?;
    (least <= value && value <= greatest).then_some(value)
}

#[derive(Clone, Debug, PartialEq, Eq)]
pub struct Settings {
    pub cycle: i64,
    /// The clock error: no clock of the network is further off than this.
    pub error: i64,
    /// The most ticks by which a cycle may be drawn out at a change.
    pub extension: i64,
    /// The delay of the link behind each port.
    pub delays: Vec<i64>,
}

#[derive(Clone, Debug, PartialEq, Eq)]
pub struct Flow {
    pub release: i64,
    pub octets: i64,
    pub deadline: i64,
    pub route: Vec<usize>,
}

impl Flow {
    pub fn wire_time(&self) -> i64 {
        self.octets + OVERHEAD
    }

    fn is_last(&self, hop: usize) -> bool {
        hop + 1 == self.route.len()
    }
}

/// The time in each cycle in which a port keeps its link free for one hop of one flow.
#[derive(Clone, Debug, PartialEq, Eq)]
pub struct Window {
    pub flow: usize,
    pub hop: usize,
    pub port: usize,
    pub offset: i64,
    /// The first tick after the window.
    pub end: i64,
    /// The earliest and the latest tick at which the frame can join the line.
    pub reach: (i64, i64),
}

/// A flow as a caller asks for it, before any limit is looked at.
#[derive(Clone, Debug, PartialEq, Eq)]
pub struct FlowRequest {
    pub release: u64,
    pub octets: u64,
    pub deadline: u64,
    pub route: Vec<u64>,
}

/// What a draft and a checked plan have in common.
#[derive(Clone, Debug, PartialEq, Eq)]
pub struct Plan {
    pub settings: Settings,
    pub flows: Vec<Flow>,
    /// The windows of all flows, by flow and then by hop.
    pub windows: Vec<Window>,
}

impl Plan {
    /// Earliest and latest tick at which a frame sent in a window at `offset` is past the link.
    fn past_link(&self, flow: &Flow, hop: usize, offset: i64) -> (i64, i64) {
        let middle = offset + flow.wire_time() + self.settings.delays[flow.route[hop]];
        (middle - self.settings.error, middle + self.settings.error)
    }

    /// The window of a hop; `before` is the offset at the hop before, none at hop 0.
    pub fn window(
        &self,
        number: usize,
        flow: &Flow,
        hop: usize,
        before: Option<i64>,
        offset: i64,
    ) -> Window {
        let reach = match before {
            None => (flow.release, flow.release),
            Some(before) => self.past_link(flow, hop - 1, before),
        };
        Window {
            flow: number,
            hop,
            port: flow.route[hop],
            offset,
            end: offset + flow.wire_time() + 2 * self.settings.error,
            reach,
        }
    }

    /// The windows of a whole route with the given offsets.
    pub fn windows_of(&self, number: usize, flow: &Flow, offsets: &[i64]) -> Vec<Window> {
        (0..flow.route.len())
            .map(|hop| {
                let before = hop.checked_sub(1).map(|h| offsets[h]);
                self.window(number, flow, hop, before, offsets[hop])
            })
            .collect()
    }

    /// The first rule that a window of the flow breaks beside the windows of lower-numbered flows.
    pub fn broken_rule(&self, flow: &Flow, window: &Window) -> Option<Rule> {
        let Settings { cycle, error, .. } = self.settings;
        let last = flow.is_last(window.hop);
        let arrival = self.past_link(flow, window.hop, window.offset).1;
        let earlier_flows = || self.windows.iter().filter(|old| old.flow < window.flow);
        if window.offset < 2 * error {
            Some(Rule::Begin)
        } else if window.end > cycle - 2 * error {
            Some(Rule::End)
        } else if window.reach.1 > window.offset - error {
            Some(Rule::Reach)
        } else if last && arrival > cycle - 1 {
            Some(Rule::Arrival)
        } else if last && arrival - flow.release > flow.deadline {
            Some(Rule::Deadline)
        } else if earlier_flows().any(|old| !self.apart(old, window)) {
            Some(Rule::Apart)
        } else {
            None
        }
    }

    /// Whether the later of two windows is reached only once the other has closed for certain.
    fn apart(&self, a: &Window, b: &Window) -> bool {
        if a.port != b.port {
            return true;
        }
        let error = self.settings.error;
        if a.offset == b.offset {
            false
        } else if a.offset > b.offset {
            a.reach.0 >= b.end + error
        } else {
            b.reach.0 >= a.end + error
        }
    }

    /// Least and greatest transit of a flow.
    pub fn certificate(&self, number: usize) -> Option<(i64, i64)> {
        let flow = self.flows.get(number)?;
        let last = self.windows.iter().rfind(|w| w.flow == number)?;
        let (earliest, latest) = self.past_link(flow, last.hop, last.offset);
        Some((earliest - flow.release, latest - flow.release))
    }
}

/// A plan that flows may still enter, and that may break rules.
#[derive(Clone, Debug, PartialEq, Eq)]
pub struct Draft {
    pub(crate) plan: Plan,
}

/// A plan that meets every rule.
#[derive(Clone, Debug, PartialEq, Eq)]
pub struct CheckedPlan {
    plan: Plan,
    /// The same windows once more, port by port.
    by_port: Vec<Vec<Window>>,
}

impl Draft {
    pub fn open(cycle: u64, error: u64, extension: u64, delays: &[u64]) -> Result<Draft, Refusal> {
        let beyond = Refusal::SettingsBeyondLimits;
        let cycle = within(cycle, CYCLE).ok_or(beyond)?;
        let error = within(error, ERROR).ok_or(beyond)?;
        let extension = within(extension, (0, cycle - 1)).ok_or(beyond)?;
        if delays.is_empty() || delays.len() > MAX_PORTS {
            return Err(Refusal::Ports);
        }
        let delays: Option<Vec<i64>> = delays.iter().map(|d| within(*d, DELAY)).collect();
        let settings = Settings {
            cycle,
            error,
            extension,
            delays: delays.ok_or(Refusal::Ports)?,
        };
        Ok(Draft {
            plan: Plan {
                settings,
                flows: Vec::new(),
                windows: Vec::new(),
            },
        })
    }

    pub fn plan(&self) -> &Plan {
        &self.plan
    }

    /// A draft of the same settings with no flow in it.
    pub fn without_flows(&self) -> Draft {
        let settings = self.plan.settings.clone();
        Draft {
            plan: Plan {
                settings,
                flows: Vec::new(),
                windows: Vec::new(),
            },
        }
    }

    /// The flow that is asked for, if there is room for it and it lies within the limits.
    pub(crate) fn admit(&self, request: &FlowRequest) -> Result<Flow, Refusal> {
        if self.plan.flows.len() >= MAX_FLOWS {
            return Err(Refusal::FlowsFull);
        }
        let beyond = Refusal::FlowBeyondLimits;
        let last_tick = self.plan.settings.cycle - 1;
        Ok(Flow {
            release: within(request.release, (0, last_tick)).ok_or(beyond)?,
            octets: within(request.octets, FRAME_OCTETS).ok_or(beyond)?,
            deadline: within(request.deadline, DEADLINE).ok_or(beyond)?,
            route: self.admit_route(&request.route).ok_or(Refusal::Route)?,
        })
    }

    fn admit_route(&self, route: &[u64]) -> Option<Vec<usize>> {
        if route.is_empty() || route.len() > MAX_HOPS {
            return None;
        }
        let mut ports = Vec::new();
        for port in route {
            let port = usize::try_from(*port).ok()?;
            if port >= self.plan.settings.delays.len() || ports.contains(&port) {
                return None;
            }
            ports.push(port);
        }
        Some(ports)
    }

    /// Enters a flow with the offsets given, whatever rules they break; replies its number.
    pub fn add(&mut self, request: &FlowRequest, offsets: &[u64]) -> Result<usize, Refusal> {
        let flow = self.admit(request)?;
        if offsets.len() != flow.route.len() {
            return Err(Refusal::Offsets);
        }
        let last_tick = self.plan.settings.cycle - 1;
        let offsets: Option<Vec<i64>> =
            offsets.iter().map(|o| within(*o, (0, last_tick))).collect();
        let offsets = offsets.ok_or(Refusal::Offsets)?;
        let number = self.plan.flows.len();
        let windows = self.plan.windows_of(number, &flow, &offsets);
        self.plan.windows.extend(windows);
        self.plan.flows.push(flow);
        Ok(number)
    }

    /// The checked plan, or the draft again with the first rule that is broken.
    pub fn check(self) -> Result<CheckedPlan, (Draft, Refusal)> {
        for window in &self.plan.windows {
            let (flow, hop) = (window.flow, window.hop);
            if let Some(rule) = self.plan.broken_rule(&self.plan.flows[flow], window) {
                return Err((self, Refusal::Broken { rule, flow, hop }));
            }
        }
        let mut by_port = vec![Vec::new(); self.plan.settings.delays.len()];
        for window in &self.plan.windows {
            by_port[window.port].push(window.clone());
        }
        let plan = self.plan;
        Ok(CheckedPlan { plan, by_port })
    }
}

impl CheckedPlan {
    pub fn plan(&self) -> &Plan {
        &self.plan
    }

    pub fn windows_at(&self, port: usize) -> &[Window] {
        &self.by_port[port]
    }

    pub fn certificate(&self, flow: u64) -> Result<(i64, i64), Refusal> {
        usize::try_from(flow)
            .ok()
            .and_then(|flow| self.plan.certificate(flow))
            .ok_or(Refusal::CertificateAbsent)
    }
}
