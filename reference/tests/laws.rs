//! What good plans promise, looked for in random networks: transits within certificates,
//! windows clear of ordinary frames, and flows that other offers do not touch.

use reference::generate::{self, Kind};
use reference::network::OnWire;
use reference::plan::Plan;
use reference::scenario::{self, Call};
use reference::session::{Network, Reply, Session};

const SEEDS: std::ops::Range<u64> = 1_000_000..1_000_025;
const THOUSAND_TICKS: u64 = 12;

fn calls(seed: u64) -> Vec<Call> {
    let text = generate::scenario(Kind::Network, seed, THOUSAND_TICKS);
    text.lines()
        .map_while(|line| scenario::read_line(line).ok())
        .flatten()
        .collect()
}

/// Whether true tick t is a busy tick of a port.
fn is_busy(network: &Network, port: usize, t: i64) -> bool {
    let timetable = network.core().timetable();
    let (plan, base) = timetable.in_force(t);
    let last_begin = match &timetable.change {
        Some(change) if t < change.tick => change.hold - 1,
        _ => i64::MAX,
    };
    let Plan {
        settings,
        flows,
        windows,
    } = plan;
    // A window lies within its cycle, but for the clock error around it.
    let this_cycle = base + (t - base) / settings.cycle * settings.cycle;
    let begins = [
        this_cycle - settings.cycle,
        this_cycle,
        this_cycle + settings.cycle,
    ];
    let counted = |begin: &i64| base <= *begin && *begin <= last_begin;
    begins.iter().filter(|begin| counted(begin)).any(|begin| {
        windows.iter().filter(|w| w.port == port).any(|window| {
            let first = begin + window.offset - settings.error;
            let after = begin + window.offset + flows[window.flow].wire_time() + settings.error;
            first <= t && t < after
        })
    })
}

fn wires(network: &Network) -> Vec<Option<OnWire>> {
    let core = network.core();
    (0..).map_while(|port| core.wire(port).ok()).collect()
}

/// Runs one tick and looks for ordinary frames at busy ticks.
fn tick(session: &mut Session) {
    let before = session.network().unwrap().clone();
    let t = before.core().now();
    session.perform(Call::Advance { ticks: 1 });
    let after = wires(session.network().unwrap());
    for (port, wires) in wires(&before).into_iter().zip(after).enumerate() {
        for wire in [wires.0, wires.1].into_iter().flatten() {
            let clear = wire.class == 7 || !is_busy(&before, port, t);
            assert!(clear, "port {port} sends class {} at {t}", wire.class);
        }
    }
}

/// A flow's transits lie within its certificate.
fn certified(session: &Session, flow: u64, reply: &Reply) {
    if let Reply::Record(record) = reply
        && let Some((least, greatest)) = record.transits
    {
        let core = session.network().unwrap().core();
        let (plan, _) = core.timetable().in_force(core.now());
        let (low, high) = plan.certificate(flow as usize).unwrap();
        assert!(low <= least && greatest <= high, "flow {flow}");
        assert!(record.accepted - record.delivered <= 1, "flow {flow}");
    }
}

#[test]
fn windows_are_clear_and_transits_certified() {
    let mut delivered = 0;
    for seed in SEEDS {
        let mut session = Session::default();
        for call in calls(seed) {
            match call {
                Call::Advance { ticks } if session.network().is_some() && ticks <= 1_250_000 => {
                    (0..ticks).for_each(|_| tick(&mut session));
                }
                Call::Record { flow } => {
                    let reply = session.perform(call);
                    certified(&session, flow, &reply);
                    delivered += u64::from(matches!(reply, Reply::Record(r) if r.delivered > 0));
                }
                _ => {
                    session.perform(call);
                }
            }
        }
    }
    assert!(delivered > 100, "{delivered}");
}

/// The replies to a flow's offers and records, with other offers carried out or left out.
fn seen_by(flow: u64, calls: &[Call], others: bool) -> Vec<String> {
    let mut session = Session::default();
    let mut seen = Vec::new();
    for call in calls {
        let own = matches!(call, Call::Offer { flow: f } | Call::Record { flow: f } if *f == flow);
        let left_out = matches!(call, Call::Queue { .. } | Call::Offer { .. }) && !own;
        if others || !left_out {
            let reply = session.perform(call.clone()).to_string();
            seen.extend(own.then_some(reply));
        }
    }
    seen
}

#[test]
fn other_offers_do_not_touch_a_flow() {
    for seed in SEEDS {
        let calls = calls(seed);
        for flow in 0..3 {
            let with = seen_by(flow, &calls, true);
            assert_eq!(
                with,
                seen_by(flow, &calls, false),
                "seed {seed} flow {flow}"
            );
        }
    }
}
