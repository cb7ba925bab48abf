//! Placing: finding the offsets of a new flow by trying.
//!
//! Of all offsets that meet the rules those with the least last offset are wanted, among these the
//! least at hop 0, then at hop 1, and so on. A rule keeps an offset from being less in few ways
//! only, so the offsets worth trying at a hop are those at which one of these ways bites:
//! the beginning of the cycle, the release, the latest reach from an offset worth trying at the
//! hop before, an old window that has to be passed, and an old window at the next port which must
//! have closed before the frame gets there. Every other good offset could be one tick less.

use std::collections::{BTreeSet, HashSet};

use crate::plan::{Draft, Flow, FlowRequest, Plan, Window};
use crate::refusal::Refusal;

/// Trial windows at the end of a plan's table. Those that are not kept are gone from it
/// when the trial ends, in whatever way it ends.
struct Trial<'a> {
    plan: &'a mut Plan,
    count: usize,
}

impl<'a> Trial<'a> {
    fn begin(plan: &'a mut Plan) -> Trial<'a> {
        let count = plan.windows.len();
        Trial { plan, count }
    }

    fn push(&mut self, window: Window) {
        self.plan.windows.push(window);
    }

    fn take_back(&mut self) {
        self.plan.windows.pop();
    }

    /// Keeps the flow and its windows, and replies their offsets.
    fn keep(mut self, flow: Flow) -> Vec<i64> {
        let offsets = self.offsets();
        self.count = self.plan.windows.len();
        self.plan.flows.push(flow);
        offsets
    }

    fn offsets(&self) -> Vec<i64> {
        let trial = &self.plan.windows[self.count..];
        trial.iter().map(|window| window.offset).collect()
    }
}

impl Drop for Trial<'_> {
    fn drop(&mut self) {
        self.plan.windows.truncate(self.count);
    }
}

impl Draft {
    /// Finds offsets for a flow and enters it; replies its number and its offsets.
    pub fn place(&mut self, request: &FlowRequest) -> Result<(usize, Vec<i64>), Refusal> {
        let flow = self.admit(request)?;
        let number = self.plan.flows.len();
        let candidates = candidates(&self.plan, &flow);
        let offsets = place_among(&mut self.plan, flow, candidates).ok_or(Refusal::NoOffsets)?;
        Ok((number, offsets))
    }
}

/// Places the flow with the best of the offsets that are listed for each hop.
fn place_among(plan: &mut Plan, flow: Flow, candidates: Vec<BTreeSet<i64>>) -> Option<Vec<i64>> {
    let mut lists = good_beginnings(plan, &flow, candidates);
    let final_list = lists.last_mut()?;
    final_list.truncate(1); // the least last offset goes before all else
    let mut trial = Trial::begin(plan);
    let mut dead_ends = HashSet::new();
    if !try_hops(&mut trial, &flow, &lists, 0, &mut dead_ends) {
        return None;
    }
    Some(trial.keep(flow))
}

/// At each hop, the offsets worth trying.
fn candidates(plan: &Plan, flow: &Flow) -> Vec<BTreeSet<i64>> {
    let error = plan.settings.error;
    let wire_time = flow.wire_time();
    let mut all: Vec<BTreeSet<i64>> = Vec::new();
    for (hop, port) in flow.route.iter().enumerate() {
        let delay = plan.settings.delays[*port];
        let mut here = BTreeSet::from([2 * error]);
        match hop.checked_sub(1) {
            None => {
                here.insert(flow.release + error);
            }
            Some(before) => {
                let link = wire_time + plan.settings.delays[flow.route[before]] + error;
                here.extend(all[before].iter().map(|offset| offset + link + error));
            }
        }
        let old_at = |port: usize| plan.windows.iter().filter(move |old| old.port == port);
        here.extend(old_at(*port).map(|old| old.offset + 1));
        if let Some(next) = flow.route.get(hop + 1) {
            let least_reach = old_at(*next).map(|old| old.end + error);
            here.extend(least_reach.map(|reach| reach - (wire_time + delay - error)));
        }
        here.retain(|offset| (0..plan.settings.cycle).contains(offset));
        all.push(here);
    }
    all
}

/// At each hop, the listed offsets that can end a good beginning of the route.
fn good_beginnings(plan: &Plan, flow: &Flow, candidates: Vec<BTreeSet<i64>>) -> Vec<Vec<i64>> {
    let number = plan.flows.len();
    let good = |hop, before, offset| {
        let window = plan.window(number, flow, hop, before, offset);
        plan.broken_rule(flow, &window).is_none()
    };
    let mut lists: Vec<Vec<i64>> = Vec::new();
    for (hop, offsets) in candidates.into_iter().enumerate() {
        let can_be_reached = |offset: &i64| match hop.checked_sub(1) {
            None => good(hop, None, *offset),
            Some(before) => lists[before].iter().any(|b| good(hop, Some(*b), *offset)),
        };
        let list = offsets.into_iter().filter(can_be_reached).collect();
        lists.push(list);
    }
    lists
}

/// Tries the listed offsets of every hop from this one on, the least first, and leaves the windows
/// of the first that meet the rules in the trial. What comes after a hop looks at the offset of
/// that hop alone, so an offset that once led nowhere is not tried again.
fn try_hops(
    trial: &mut Trial,
    flow: &Flow,
    lists: &[Vec<i64>],
    hop: usize,
    dead_ends: &mut HashSet<(usize, i64)>,
) -> bool {
    let Some(list) = lists.get(hop) else {
        return true;
    };
    let before = trial.offsets().last().copied();
    for offset in list {
        if dead_ends.contains(&(hop, *offset)) {
            continue;
        }
        let number = trial.plan.flows.len();
        let window = trial.plan.window(number, flow, hop, before, *offset);
        if trial.plan.broken_rule(flow, &window).is_some() {
            continue;
        }
        trial.push(window);
        if try_hops(trial, flow, lists, hop + 1, dead_ends) {
            return true;
        }
        trial.take_back();
        dead_ends.insert((hop, *offset));
    }
    false
}

#[cfg(test)]
mod tests {
    use super::*;
    use crate::plan::Settings;
    use crate::random::Random;

    /// A plan with arbitrary old windows, small enough to try every offset.
    fn small_plan(random: &mut Random, cycle: i64) -> Plan {
        let ports = random.between(1, 3);
        let error = random.between(0, 3);
        let delays = (0..ports).map(|_| random.between(0, 6)).collect();
        let mut plan = Plan {
            settings: Settings {
                cycle,
                error,
                extension: 0,
                delays,
            },
            flows: Vec::new(),
            windows: Vec::new(),
        };
        for _ in 0..random.between(0, 4) {
            let flow = small_flow(random, &plan);
            let offsets: Vec<i64> = (flow.route.iter())
                .map(|_| random.between(0, cycle - 1))
                .collect();
            let all: Vec<BTreeSet<i64>> = flow.route.iter().map(|_| (0..cycle).collect()).collect();
            // Half of the old flows stand as well as they can, half anywhere.
            if random.chance(50) && place_among(&mut plan, flow.clone(), all).is_some() {
                continue;
            }
            let windows = plan.windows_of(plan.flows.len(), &flow, &offsets);
            plan.windows.extend(windows);
            plan.flows.push(flow);
        }
        plan
    }

    fn small_flow(random: &mut Random, plan: &Plan) -> Flow {
        let cycle = plan.settings.cycle;
        let mut route: Vec<usize> = (0..plan.settings.delays.len()).collect();
        random.shuffle(&mut route);
        route.truncate(random.between(1, 3) as usize);
        Flow {
            release: random.between(0, cycle / 3),
            octets: random.between(-18, -12),
            deadline: random.between(cycle / 3, cycle),
            route,
        }
    }

    /// Whether the windows of a flow with these offsets meet every rule beside the plan.
    fn good(plan: &Plan, flow: &Flow, offsets: &[i64]) -> bool {
        let windows = plan.windows_of(plan.flows.len(), flow, offsets);
        windows.iter().all(|w| plan.broken_rule(flow, w).is_none())
    }

    /// The best of all offsets there are, each tuple tried.
    fn best_of_all(plan: &Plan, flow: &Flow) -> Option<Vec<i64>> {
        let cycle = plan.settings.cycle;
        let hops = flow.route.len() as u32;
        let mut best: Option<(i64, Vec<i64>)> = None;
        for code in 0..cycle.pow(hops) {
            let offsets: Vec<i64> = (0..hops).map(|h| code / cycle.pow(h) % cycle).collect();
            if good(plan, flow, &offsets) {
                let key = (offsets[offsets.len() - 1], offsets);
                if best.as_ref().is_none_or(|b| key < *b) {
                    best = Some(key);
                }
            }
        }
        best.map(|(_, offsets)| offsets)
    }

    #[test]
    fn as_good_as_trying_every_offset() {
        let mut random = Random::new(1);
        let (mut placed, mut refused) = (0, 0);
        for _ in 0..3_000 {
            let cycle = random.between(25, 60);
            let mut plan = small_plan(&mut random, cycle);
            let flow = small_flow(&mut random, &plan);
            let before = plan.clone();
            let expected = best_of_all(&plan, &flow);
            let listed = candidates(&plan, &flow);
            let found = place_among(&mut plan, flow.clone(), listed);
            assert_eq!(found, expected, "{flow:?} beside {before:?}");
            match found {
                Some(_) => placed += 1,
                None => {
                    refused += 1;
                    assert_eq!(plan, before);
                }
            }
        }
        assert!(placed > 600 && refused > 600, "{placed} {refused}");
    }

    /// Of real size: the listed offsets against all offsets of the cycle.
    #[test]
    fn no_offset_that_is_not_listed_is_better() {
        let mut random = Random::new(2);
        for _ in 0..25 {
            let error = random.pick(&[0, 1, 10]);
            let delays: Vec<u64> = (0..4).map(|_| random.between(0, 40) as u64).collect();
            let mut draft = Draft::open(1_000, error, 0, &delays).unwrap();
            for _ in 0..8 {
                let mut route = vec![0, 1, 2, 3];
                random.shuffle(&mut route);
                route.truncate(random.between(1, 4) as usize);
                let request = FlowRequest {
                    release: random.between(0, 500) as u64,
                    octets: random.between(64, 90) as u64,
                    deadline: random.between(300, 1_000) as u64,
                    route,
                };
                let flow = draft.admit(&request).unwrap();
                let all = flow.route.iter().map(|_| (0..1_000).collect()).collect();
                let expected = place_among(&mut draft.plan.clone(), flow, all);
                let found = draft.place(&request).ok().map(|(_, offsets)| offsets);
                assert_eq!(found, expected);
                if found.is_none() {
                    let offsets: Vec<u64> = (request.route.iter())
                        .map(|_| random.between(0, 900) as u64)
                        .collect();
                    draft.add(&request, &offsets).unwrap();
                }
            }
        }
    }
}
