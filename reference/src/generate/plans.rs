//! Planning scenarios: tight plans, drafts that break rules, and every refusal.

use super::{Writer, words};
use crate::plan::{Draft, FlowRequest, Window};

const LONGEST_DEADLINE: u64 = 1_250_000;

pub fn write(w: &mut Writer, drafts: u64, with_place: bool) {
    if w.random.chance(10) {
        calls_before_any_draft(w, with_place);
    }
    for _ in 0..drafts {
        write_draft(w, with_place);
    }
}

/// Drafts of 16 flows over 6 hops, all placed, checked and read.
pub fn write_bench(w: &mut Writer, drafts: u64) {
    for _ in 0..drafts {
        let error = w.random.between(0, 20);
        let delays: Vec<i64> = (0..6).map(|_| w.random.between(0, 200)).collect();
        let open = format!(
            "open cycle 100000 error {error} extension 0 delays {}",
            words(&delays)
        );
        w.unperformed(&open);
        let mut releases: Vec<i64> = (0..16).map(|flow| flow * 5_000).collect();
        w.random.shuffle(&mut releases);
        for release in releases {
            let mut route = vec![0, 1, 2, 3, 4, 5];
            w.random.shuffle(&mut route);
            let request = FlowRequest {
                release: (release + w.random.between(0, 2_000)) as u64,
                octets: w.random.between(64, 400) as u64,
                deadline: LONGEST_DEADLINE,
                route,
            };
            w.unperformed(&place_line(&request));
        }
        for line in ["check", "certificate 0", "certificate 15"] {
            w.unperformed(line);
        }
    }
}

fn calls_before_any_draft(w: &mut Writer, with_place: bool) {
    w.call("check");
    w.call("certificate 0");
    w.call("gates 18446744073709551615");
    w.call("add release 0 octets 64 deadline 500 route 0 offsets 99999");
    if with_place {
        w.call("place release 0 octets 0 deadline 500 route 0");
    }
}

fn write_draft(w: &mut Writer, with_place: bool) {
    if w.random.chance(25) {
        open_beyond_limits(w);
    }
    open(w);
    let may_break = w.random.chance(40);
    let most = w.random.pick(&[3, 6, 12, 22, 40]);
    for _ in 0..w.random.between(0, most) {
        if w.random.chance(6) {
            flow_beyond_limits(w, with_place);
        } else {
            flow(w, with_place, may_break);
        }
        if w.random.chance(2) {
            w.call("check");
        }
        if w.session.draft().is_none() && w.random.chance(70) {
            break; // the draft has been used up
        }
    }
    w.call("check");
    if w.random.chance(20) {
        flow(w, with_place, may_break);
        w.call("check");
    }
    read_plan(w);
}

/// Opens a draft, often with little room in its cycle.
fn open(w: &mut Writer) {
    let r = &mut w.random;
    let (cycle, error, delay) = match r.between(0, 9) {
        0..=3 => (1_000 + r.between(0, 60), r.pick(&[0, 0, 1, 2, 5]), 30),
        4..=5 => (r.between(1_000, 2_500), r.pick(&[0, 1, 10, 60, 125]), 60),
        6..=7 => (r.between(2_500, 9_000), r.pick(&[0, 10, 125]), 500),
        8 => (r.between(9_000, 50_000), r.between(0, 125), 3_000),
        _ => (
            r.pick(&[1_250_000, 100_000, 400_000]),
            r.between(0, 125),
            25_000,
        ),
    };
    let extension = r.pick(&[0, cycle - 1, cycle / 2]);
    let ports = r.pick(&[1, 2, 3, 4, 6, 6, 8, 16]);
    let most = r.pick(&[0, delay]);
    let delays: Vec<i64> = (0..ports).map(|_| r.between(0, most)).collect();
    let delays = words(&delays);
    w.call(&format!(
        "open cycle {cycle} error {error} extension {extension} delays {delays}"
    ));
}

fn open_beyond_limits(w: &mut Writer) {
    let (mut cycle, mut error, mut extension) = (1_000, 125, 999);
    let mut delays: Vec<u64> = vec![25_000, 0];
    for _ in 0..w.random.between(1, 2) {
        match w.random.between(0, 6) {
            0 => cycle = w.random.pick(&[0, 999]),
            1 => cycle = w.above(1_250_000),
            2 => error = w.above(125),
            3 => extension = w.above(999),
            4 => delays.clear(),
            5 => delays = vec![1; w.random.between(17, 20) as usize],
            _ => delays.push(w.above(25_000)),
        }
    }
    let delays = words(&delays);
    w.call(&format!(
        "open cycle {cycle} error {error} extension {extension} delays {delays}"
    ));
}

pub fn place_line(request: &FlowRequest) -> String {
    format!("place {}", flow_words(request))
}

fn add_line(request: &FlowRequest, offsets: &[u64]) -> String {
    let line = format!("add {} offsets {}", flow_words(request), words(offsets));
    line.trim_end().to_string()
}

fn flow_words(request: &FlowRequest) -> String {
    let FlowRequest {
        release,
        octets,
        deadline,
        route,
    } = request;
    let route = words(route);
    let line = format!("release {release} octets {octets} deadline {deadline} route {route}");
    line.trim_end().to_string()
}

/// Enters a flow, aimed at the edge between what is accepted and what is not.
fn flow(w: &mut Writer, with_place: bool, may_break: bool) {
    let Some(draft) = w.session.draft().cloned() else {
        w.call("add release 0 octets 64 deadline 500 route 0 offsets 0");
        return;
    };
    let mut request = request(w, &draft);
    let placing = with_place && w.random.chance(70);
    let mut trial = draft.clone();
    let mut offsets = Vec::new();
    if let Ok((number, found)) = trial.place(&request) {
        offsets = found.iter().map(|offset| *offset as u64).collect();
        let least_error = if placing || may_break { -1 } else { 0 };
        if w.random.chance(60)
            && let Some((_, greatest)) = trial.plan().certificate(number)
        {
            let deadline = greatest + w.random.pick(&[least_error, 0, 0, 1]);
            request.deadline = deadline.max(1) as u64;
        }
    }
    if placing {
        w.call(&place_line(&request));
        return;
    }
    if offsets.is_empty() {
        if !may_break {
            return;
        }
        offsets = bad_offsets(w, &draft, &request);
    }
    if may_break && w.random.chance(35) {
        disturb(w, &draft, &request, &mut offsets);
    }
    let line = add_line(&request, &offsets);
    w.call(&line);
    if may_break && w.random.chance(5) {
        w.call(&line); // a twin breaks nothing but that offsets must differ
    }
}

/// Offsets for a flow that has no good ones: as if it were alone, or anything.
fn bad_offsets(w: &mut Writer, draft: &Draft, request: &FlowRequest) -> Vec<u64> {
    if w.random.chance(70)
        && let Ok((_, offsets)) = draft.without_flows().place(request)
    {
        return offsets.iter().map(|offset| *offset as u64).collect();
    }
    let cycle = draft.plan().settings.cycle;
    let hops = request.route.iter();
    hops.map(|_| w.random.between(0, cycle - 1) as u64)
        .collect()
}

/// A flow within the limits.
pub fn request(w: &mut Writer, draft: &Draft) -> FlowRequest {
    let settings = &draft.plan().settings;
    let ports = settings.delays.len();
    let mut route: Vec<u64> = (0..ports as u64).collect();
    match w.random.between(0, 2) {
        0 => route.rotate_left(w.random.between(0, ports as i64 - 1) as usize),
        1 => {}
        _ => w.random.shuffle(&mut route),
    }
    let most = w.random.pick(&[1, 2, 3, 6, 6]);
    let least = w.random.pick(&[1, 1, most]);
    route.truncate(w.random.between(least, most) as usize);
    let octets = match w.random.between(0, 9) {
        0..=4 => 64,
        5..=7 => w.random.between(64, 130),
        8 => w.random.between(64, 1_522),
        _ => 1_522,
    };
    let release = release(w, draft, route[0] as usize, octets);
    let mut request = FlowRequest {
        release: release.clamp(0, settings.cycle - 1) as u64,
        octets: octets as u64,
        deadline: LONGEST_DEADLINE,
        route,
    };
    if w.random.chance(10) {
        release_late(w, draft, &mut request);
    }
    request
}

/// Releases a flow so late that, alone, it just fits into the cycle or just does not.
fn release_late(w: &mut Writer, draft: &Draft, request: &mut FlowRequest) {
    let mut alone = draft.without_flows();
    let (cycle, error) = (alone.plan().settings.cycle, alone.plan().settings.error);
    request.release = error as u64; // the first window is then as early as can be
    if alone.place(request).is_ok()
        && let Some((_, greatest)) = alone.plan().certificate(0)
        && let Some(last) = alone.plan().windows.last()
    {
        let arrival = error + greatest;
        let room = (cycle - 1 - arrival).min(cycle - 2 * error - last.end);
        let release = error + room + w.random.pick(&[-1, 0, 0, 1]);
        request.release = release.clamp(0, cycle - 1) as u64;
    }
}

/// A release; often such that the first window just follows or just goes before an old one.
fn release(w: &mut Writer, draft: &Draft, port: usize, octets: i64) -> i64 {
    let settings = &draft.plan().settings;
    let error = settings.error;
    let windows = draft.plan().windows.iter();
    let old: Vec<&Window> = windows.filter(|window| window.port == port).collect();
    let near = w.random.pick(&[-1, 0, 0, 0, 1]);
    match w.random.between(0, 9) {
        0..=4 if !old.is_empty() => w.random.pick(&old).end + error + near,
        5..=6 if !old.is_empty() => {
            let window = octets + 20 + 2 * error;
            w.random.pick(&old).reach.0 - 2 * error - window + near
        }
        0 => 0,
        1..=6 => w.random.between(0, settings.cycle / 2),
        _ => w.random.between(0, settings.cycle - 1),
    }
}

/// Moves one offset, mostly by little or to an edge; or spoils the list of offsets.
fn disturb(w: &mut Writer, draft: &Draft, request: &FlowRequest, offsets: &mut Vec<u64>) {
    let plan = draft.plan();
    let (cycle, error) = (plan.settings.cycle, plan.settings.error);
    let hop = w.random.between(0, offsets.len() as i64 - 1) as usize;
    let port = request.route[hop] as usize;
    let wire_time = request.octets as i64 + 20;
    let old: Vec<i64> = (plan.windows.iter())
        .filter(|window| window.port == port)
        .map(|window| window.offset)
        .collect();
    let offset = offsets[hop] as i64;
    let moved = match w.random.between(0, 9) {
        0 => offset + 1,
        1..=2 => offset - 1,
        3 => w.random.between(0, cycle - 1),
        4 if !old.is_empty() => w.random.pick(&old) + w.random.between(-1, 1),
        5 => 2 * error - 1,
        6 => cycle - 4 * error - wire_time + w.random.between(0, 1),
        7 => cycle - 1 - error - plan.settings.delays[port] - wire_time + w.random.between(0, 1),
        8 => offset + w.random.between(-2 * error - 3, 2 * error + 3),
        _ => {
            spoil(w, cycle, offsets);
            return;
        }
    };
    offsets[hop] = moved.clamp(0, cycle - 1) as u64;
}

/// A list of offsets that is refused.
fn spoil(w: &mut Writer, cycle: i64, offsets: &mut Vec<u64>) {
    match w.random.between(0, 2) {
        0 => offsets.push(0),
        1 => {
            offsets.pop();
        }
        _ => offsets[0] = w.above(cycle - 1),
    }
}

/// A flow that is refused, for one reason or for several.
fn flow_beyond_limits(w: &mut Writer, with_place: bool) {
    let Some(draft) = w.session.draft().cloned() else {
        return;
    };
    let settings = &draft.plan().settings;
    let mut request = request(w, &draft);
    let mut offsets: Vec<u64> = request.route.iter().map(|_| 0).collect();
    for _ in 0..w.random.between(1, 2) {
        match w.random.between(0, 8) {
            0 => request.release = w.above(settings.cycle - 1),
            1 => request.octets = w.random.pick(&[0, 63]),
            2 => request.octets = w.above(1_522),
            3 => request.deadline = 0,
            4 => request.deadline = w.above(1_250_000),
            5 => request.route.clear(),
            6 => request
                .route
                .push(w.above(settings.delays.len() as i64 - 1)),
            7 => request.route.extend(request.route.clone()),
            _ => spoil(w, settings.cycle, &mut offsets),
        }
        if offsets.is_empty() {
            break;
        }
    }
    if with_place && w.random.chance(50) {
        w.call(&place_line(&request));
    } else {
        w.call(&add_line(&request, &offsets));
    }
}

/// Reads certificates and gate lists of the checked plan, and some that are absent.
fn read_plan(w: &mut Writer) {
    let Some(plan) = w.session.checked().map(|checked| checked.plan()) else {
        w.call("certificate 0");
        w.call("gates 0");
        return;
    };
    let (flows, ports) = (plan.flows.len(), plan.settings.delays.len());
    // Every tick of the cycle is gone through for a list; of long ones few are read.
    let lists = if plan.settings.cycle > 50_000 {
        1
    } else {
        ports
    };
    for flow in 0..flows {
        w.call(&format!("certificate {flow}"));
    }
    for port in 0..lists {
        w.call(&format!("gates {port}"));
    }
    if w.random.chance(20) {
        let absent = w.above(flows as i64 - 1);
        w.call(&format!("certificate {absent}"));
        let absent = w.above(ports as i64 - 1);
        w.call(&format!("gates {absent}"));
    }
}
