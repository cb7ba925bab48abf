//! Network scenarios: heavy ordinary load, offers at each release, changes at the last tick, settles.

use super::{Writer, plans, words};
use crate::plan::Settings;
use crate::session::{Network, Reply};
use crate::timetable::Timetable;

/// Ticks from a change call to the end of the last cycle at the least, but for the clock error.
const NOTICE: i64 = 1_542;

pub fn write(w: &mut Writer, thousand_ticks: u64) {
    if w.random.chance(5) {
        calls_before_any_network(w);
    }
    if w.random.chance(8) {
        write_flooded(w);
    }
    let networks = w.random.pick(&[1, 1, 1, 2]);
    for _ in 0..networks {
        write_network(w, thousand_ticks as i64 * 1_000 / networks);
    }
}

fn calls_before_any_network(w: &mut Writer) {
    for line in [
        "start base 0 clocks shifted:999 selections",
        "offer 0",
        "queue 0 class 9 octets 0 label 0",
        "advance 9999999",
        "record 0",
        "wire 0",
        "change base 18446744073709551615",
        "settle",
    ] {
        w.call(line);
    }
}

/// One port without windows: class 6 is sent for so long that the credit of class 5 stops at its
/// limit, and then class 5 for so long that it is held back again.
fn write_flooded(w: &mut Writer) {
    let share = w.random.between(150, 700);
    w.call("open cycle 1000 error 0 extension 0 delays 0");
    w.call("check");
    w.call(&format!(
        "start base 0 clocks exact selections shaper:999:{share}"
    ));
    flood(w, 0);
    while let Some(t) = now(w)
        && t < 28_000
    {
        let ticks = w.random.between(300, 1_500);
        w.call(&format!("advance {ticks}"));
        w.call("wire 0");
    }
}

/// A change that is to be asked for at a certain tick.
struct Wish {
    at: i64,
    base: u64,
}

fn write_network(w: &mut Writer, ticks: i64) {
    let cabinet = settings(w);
    write_plan(w, &cabinet);
    start(w, &cabinet);
    let Some(begin) = now(w) else {
        return;
    };
    let mut wish = None;
    while let Some(t) = now(w)
        && t < begin + ticks
    {
        offers(w);
        load(w, &cabinet);
        fit(w, &cabinet);
        readings(w, &cabinet);
        change_or_settle(w, &cabinet, &mut wish);
        if w.random.chance(8) {
            go_slowly(w, &cabinet);
        } else {
            go_on(w, &wish);
        }
    }
    readings(w, &cabinet);
}

fn now(w: &Writer) -> Option<i64> {
    w.session.network().map(|network| network.core().now())
}

fn timetable(w: &Writer) -> Option<&Timetable> {
    w.session
        .network()
        .map(|network| network.core().timetable())
}

fn settings(w: &mut Writer) -> Settings {
    let r = &mut w.random;
    let error = r.pick(&[0, 0, 1, 2, 5, 10, 30, 125]);
    let ports = r.pick(&[1, 2, 2, 3, 3, 4, 6]);
    let delay = r.pick(&[0, 20, 200, 600]);
    let delays = (0..ports).map(|_| r.between(0, delay)).collect();
    let (cycle, extension) = cycle_and_extension(w);
    Settings {
        cycle,
        error,
        extension,
        delays,
    }
}

fn cycle_and_extension(w: &mut Writer) -> (i64, i64) {
    let r = &mut w.random;
    let longest = r.pick(&[1_200, 3_000, 6_000, 6_000, 12_000]);
    let cycle = r.between(1_000, longest);
    let some = r.between(0, cycle - 1);
    (cycle, r.pick(&[0, cycle - 1, some, some, some.min(30)]))
}

/// Opens, fills and checks a plan with these settings.
fn write_plan(w: &mut Writer, settings: &Settings) {
    let Settings {
        cycle,
        error,
        extension,
        delays,
    } = settings;
    let delays = words(delays);
    w.call(&format!(
        "open cycle {cycle} error {error} extension {extension} delays {delays}"
    ));
    for number in 0..w.random.between(0, 12) {
        if let Some(draft) = w.session.draft().cloned() {
            let mut request = plans::request(w, &draft);
            if number == 0 && w.random.chance(60) {
                request.release = 0; // released as a cycle begins, or would have begun
            } else if w.random.chance(50) {
                request.release = w.random.between(0, cycle / 2) as u64;
            }
            w.call(&plans::place_line(&request));
        }
    }
    w.call("check");
}

fn start(w: &mut Writer, cabinet: &Settings) {
    let ports = cabinet.delays.len();
    for _ in 0..w.random.pick(&[0, 0, 1, 3]) {
        start_refused(w, cabinet);
    }
    let clocks: Vec<String> = (0..ports).map(|_| clock(w, cabinet.error)).collect();
    let selections: Vec<String> = (0..ports).map(|_| selection(w)).collect();
    let some = w.random.between(cabinet.error, 100_000);
    let base = w.random.pick(&[
        cabinet.error,
        1_000,
        some,
        some,
        1 << 40,
        (1 << 47) - 20_000,
    ]);
    let base = base.max(cabinet.error);
    let (clocks, selections) = (words(&clocks), words(&selections));
    w.call(&format!(
        "start base {base} clocks {clocks} selections {selections}"
    ));
}

/// A clock within a bound.
fn clock(w: &mut Writer, bound: i64) -> String {
    let r = &mut w.random;
    match r.between(0, 5) {
        0 => "exact".to_string(),
        1 => format!("shifted:{bound}"),
        2 => format!("shifted:-{bound}"),
        3 => format!("shifted:{}", r.between(-bound, bound)),
        _ => {
            let some = r.between(1, 65_535);
            let step = r.pick(&[1, 2, 7, 65_535, 100 + some % 900, some]);
            let margin = r.between(0, bound);
            format!("stepped:{}:{step}", r.pick(&[margin, bound]))
        }
    }
}

fn selection(w: &mut Writer) -> String {
    let r = &mut w.random;
    if r.chance(40) {
        return "strict".to_string();
    }
    if r.chance(20) {
        return format!("shaper:999:{}", r.between(150, 800));
    }
    let some = [r.between(1, 999), r.between(1, 999)];
    let share6 = r.pick(&[1, 250, 500, 999, some[0], some[0]]);
    let share5 = r.pick(&[1, 250, 500, 999, some[1], some[1]]);
    format!("shaper:{share6}:{share5}")
}

/// A start that is refused, for one reason or for several.
fn start_refused(w: &mut Writer, cabinet: &Settings) {
    let ports = cabinet.delays.len();
    let mut clocks: Vec<String> = (0..ports).map(|_| clock(w, cabinet.error)).collect();
    let mut selections: Vec<String> = (0..ports).map(|_| selection(w)).collect();
    let mut base = 100_000;
    for _ in 0..w.random.between(1, 2) {
        let port = w.random.between(0, ports as i64 - 1) as usize;
        match w.random.between(0, 7) {
            0 => clocks.push("exact".to_string()),
            1 => selections.push("strict".to_string()),
            2 => base = w.above(1 << 47),
            3 if cabinet.error > 0 => base = cabinet.error as u64 - 1,
            4 if cabinet.error < 125 => {
                let shift = cabinet.error + 1;
                let bad = w.random.pick(&["shifted:", "shifted:-"]);
                clocks.insert(port, format!("{bad}{shift}"));
                clocks.truncate(ports);
            }
            5 => clocks.insert(port, format!("shifted:-{}", w.above(125))),
            6 => clocks.push(format!("stepped:0:{}", w.above(65_535))),
            _ => {
                let share = w.above(999);
                let bad = [format!("shaper:{share}:1"), format!("shaper:1:{share}")];
                selections.push(bad[port % 2].clone());
            }
        }
    }
    let (clocks, selections) = (words(&clocks), words(&selections));
    let line = format!("start base {base} clocks {clocks} selections {selections}");
    let (session, written) = (w.session.clone(), w.text.len());
    if w.call(&line) == Reply::Started {
        // Two reasons may have undone each other. The plan is needed for the start proper.
        w.session = session;
        w.text.truncate(written);
    }
}

/// Offers every flow that is released now, and some that are not.
fn offers(w: &mut Writer) {
    let (Some(now), Some(timetable)) = (now(w), timetable(w)) else {
        return;
    };
    let (plan, base) = timetable.in_force(now);
    let phase = (now - base) % plan.settings.cycle;
    let releases: Vec<i64> = plan.flows.iter().map(|flow| flow.release).collect();
    let mut numbers: Vec<usize> = (0..releases.len()).collect();
    w.random.shuffle(&mut numbers);
    for number in numbers {
        let released = releases[number] == phase;
        if w.random.chance(if released { 95 } else { 2 }) {
            w.call(&format!("offer {number}"));
        }
        if released && w.random.chance(10) {
            w.call(&format!("offer {number}"));
        }
    }
    if w.random.chance(2) {
        let absent = w.above(releases.len() as i64 - 1);
        w.call(&format!("offer {absent}"));
        w.call(&format!("record {absent}"));
    }
}

/// Queues ordinary frames, now and then more than a line holds.
fn load(w: &mut Writer, cabinet: &Settings) {
    for port in 0..cabinet.delays.len() {
        if w.random.chance(2) {
            flood(w, port);
        }
        if !w.random.chance(35) {
            continue;
        }
        let class = w.random.between(0, 6);
        let most = w.random.pick(&[2, 5, 10]);
        for _ in 0..w.random.between(1, most) {
            let class = if w.random.chance(50) {
                class
            } else {
                w.random.between(0, 6)
            };
            let octets = w.random.between(64, 1_522);
            let octets = w.random.pick(&[64, 1_522, octets, octets]);
            let label = w.random.between(0, 65_535);
            w.call(&format!(
                "queue {port} class {class} octets {octets} label {label}"
            ));
        }
    }
    if w.random.chance(3) {
        let port = w.random.between(0, cabinet.delays.len() as i64) as u64;
        let far = w.above(cabinet.delays.len() as i64);
        let port = w.random.pick(&[port, port, port, far]);
        let class = w.above(5);
        let octets = w.above(1_521);
        let octets = w.random.pick(&[0, 63, 64, octets]);
        w.call(&format!(
            "queue {port} class {class} octets {octets} label 7"
        ));
    }
}

/// Fills both shaped lines behind a long frame, so that credits run far up and down.
fn flood(w: &mut Writer, port: usize) {
    w.call(&format!("queue {port} class 0 octets 1522 label 2"));
    w.call("advance 1");
    for class in [5, 6] {
        for _ in 0..8 {
            w.call(&format!("queue {port} class {class} octets 1522 label 2"));
        }
    }
}

/// Queues a frame that just fits before the gates close, or just does not, at a port that is free.
fn fit(w: &mut Writer, cabinet: &Settings) {
    for port in 0..cabinet.delays.len() {
        let Some(core) = w.session.network().map(Network::core) else {
            return;
        };
        if core.wire(port as u64) != Ok(None) || !w.random.chance(40) {
            continue;
        }
        let core = w.session.network().map(Network::core);
        let open = core.map_or(0, |core| {
            let stays = |ticks| {
                core.timetable()
                    .stays_open(port, 6, core.reading(port), ticks)
            };
            (0..NOTICE + 2).take_while(|ticks| stays(*ticks)).count() as i64
        });
        let octets = open - 1 - 20 + w.random.pick(&[0, 0, 1, -1]);
        if (64..=1_522).contains(&octets) {
            let class = w.random.pick(&[6, 6, 0, 5]);
            w.call(&format!(
                "queue {port} class {class} octets {octets} label 1"
            ));
            w.call("advance 1");
            w.call(&format!("wire {port}"));
        }
    }
}

fn readings(w: &mut Writer, cabinet: &Settings) {
    if w.random.chance(30) {
        let flows = match (now(w), timetable(w)) {
            (Some(now), Some(timetable)) => timetable.in_force(now).0.flows.len(),
            _ => 0,
        };
        for flow in 0..flows {
            w.call(&format!("record {flow}"));
        }
    }
    if w.random.chance(40) {
        read_wires(w, cabinet);
    }
    if w.random.chance(1) {
        let absent = w.above(cabinet.delays.len() as i64 - 1);
        w.call(&format!("wire {absent}"));
        let ticks = w.above(1_250_000);
        w.call(&format!("advance {ticks}"));
    }
}

fn read_wires(w: &mut Writer, cabinet: &Settings) {
    for port in 0..cabinet.delays.len() {
        w.call(&format!("wire {port}"));
    }
}

fn change_or_settle(w: &mut Writer, cabinet: &Settings, wish: &mut Option<Wish>) {
    match w.session.network() {
        Some(Network::Steady(_)) => ask_for_change(w, cabinet, wish),
        Some(Network::Changing(_)) => ask_to_settle(w),
        None => {}
    }
}

fn ask_for_change(w: &mut Writer, cabinet: &Settings, wish: &mut Option<Wish>) {
    let t = now(w).unwrap_or(0);
    if let Some(Wish { at, base }) = wish {
        if t >= *at {
            w.call(&format!("change base {base}"));
            *wish = None;
        }
        return;
    }
    if w.random.chance(2) {
        w.call("settle");
        let far = w.above(1 << 47);
        w.call(&format!("change base {far}"));
    }
    if w.random.chance(4) {
        if w.session.checked().is_none() {
            write_next_plan(w, cabinet);
        }
        change_near_now(w, t);
        return;
    }
    if !w.random.chance(25) {
        return;
    }
    if w.session.checked().is_none() || w.random.chance(10) {
        write_next_plan(w, cabinet);
    }
    *wish = wish_for_change(w);
}

/// A change of which a whole number of new cycles leads just to now, or just past it.
fn change_near_now(w: &mut Writer, now: i64) {
    let Some(cycle) = w.session.checked().map(|c| c.plan().settings.cycle) else {
        return;
    };
    let cycles = w.random.between(1, 3.min(now / cycle));
    let base = now - cycles * cycle + w.random.pick(&[-1, 0, 0, 0, 1]);
    w.call(&format!("change base {}", base.max(0)));
}

/// A plan for the same cabinet; now and then for another one, which cannot be changed to.
fn write_next_plan(w: &mut Writer, cabinet: &Settings) {
    let (cycle, extension) = cycle_and_extension(w);
    let mut next = Settings {
        cycle,
        extension,
        ..cabinet.clone()
    };
    match w.random.between(0, 19) {
        0 => next.delays[0] += 1,
        1 => next.delays.push(0),
        2 => next.error = (next.error + 1) % 126,
        _ => {}
    }
    write_plan(w, &next);
}

/// A change at the last allowed tick, or one too late, or at once.
fn wish_for_change(w: &mut Writer) -> Option<Wish> {
    let (now, timetable) = (now(w)?, timetable(w)?);
    let running = timetable.plan.plan().settings.clone();
    let base = timetable.base;
    let new_cycle = w.session.checked()?.plan().settings.cycle;
    let notice = NOTICE + 2 * running.error;
    let cycles = (now + notice - base + running.cycle - 1) / running.cycle;
    let hold = base + (cycles + w.random.pick(&[0, 0, 1])) * running.cycle;
    let some = w.random.between(0, running.extension);
    let edge = running.extension;
    let extension = w.random.pick(&[0, edge, edge, some, some, edge + 1]);
    let tick = hold + extension;
    let last = hold - notice;
    let at = w.random.pick(&[last, last, last, last + 1, now]);
    let mut argument = tick;
    if tick - new_cycle < at && w.random.chance(50) {
        argument -= new_cycle * w.random.between(1, 3.min(tick / new_cycle));
    }
    let base = u64::try_from(argument).ok()?;
    Some(Wish { at, base })
}

fn ask_to_settle(w: &mut Writer) {
    let (Some(t), Some(timetable)) = (now(w), timetable(w)) else {
        return;
    };
    let Some(change) = &timetable.change else {
        return;
    };
    let settled = change.tick + change.plan.plan().settings.error;
    let percent = match t - settled {
        -1 => 80,
        0.. => 60,
        _ => 3,
    };
    if w.random.chance(percent) {
        w.call("settle");
    } else if w.random.chance(3) {
        w.call("change base 0");
    }
}

/// A few ticks one by one, with the wires read after each.
fn go_slowly(w: &mut Writer, cabinet: &Settings) {
    for _ in 0..w.random.between(2, 10) {
        let ticks = w.random.pick(&[1, 1, 1, 2, 5]);
        w.call(&format!("advance {ticks}"));
        read_wires(w, cabinet);
        offers(w);
    }
}

/// The first tick at which some wire is free again.
fn next_free(w: &Writer, now: i64) -> i64 {
    let core = w.session.network().map(Network::core);
    let wires = |port| core?.wire(port).ok();
    let last = (0..).map_while(wires).flatten().map(|wire| wire.last).min();
    last.unwrap_or(now) + 1
}

/// Advances to the next tick at which something is to be done.
fn go_on(w: &mut Writer, wish: &Option<Wish>) {
    let (Some(now), Some(timetable)) = (now(w), timetable(w)) else {
        return;
    };
    let (plan, base) = timetable.in_force(now);
    let cycle = plan.settings.cycle;
    let phase = (now - base) % cycle;
    let until = |release: i64| (release - phase + cycle - 1) % cycle + 1;
    let mut stops: Vec<i64> = plan
        .flows
        .iter()
        .map(|flow| now + until(flow.release))
        .collect();
    let mut most = 1_500;
    if let Some(change) = &timetable.change {
        let settled = change.tick + change.plan.plan().settings.error;
        stops.extend([change.hold - 1, change.hold, change.tick - 1, change.tick]);
        stops.extend([settled - 1, settled]);
        if change.hold - 1_700 < now && now < settled + 300 {
            most = 250; // what is queued here is kept or let go by the look-ahead
        }
    }
    stops.extend(wish.iter().map(|wish| wish.at));
    stops.push(now + w.random.between(1, most));
    if w.random.chance(30) {
        stops.push(next_free(w, now));
    }
    let next = stops.into_iter().filter(|stop| *stop > now).min();
    let ticks = next.unwrap_or(now + 1) - now;
    w.call(&format!("advance {ticks}"));
}
