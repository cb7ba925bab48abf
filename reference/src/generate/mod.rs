//! Random scenarios, made again from their seed. A scenario is performed while it is written,
//! so that the next line can be aimed at what the last ones have led to.

mod networks;
mod plans;

use crate::random::Random;
use crate::scenario;
use crate::session::{Reply, Session};

#[derive(Clone, Copy, Debug, PartialEq, Eq)]
pub enum Kind {
    /// Planning calls, flows entered by place and by add.
    Plan,
    /// Planning calls, flows entered by add only.
    Add,
    /// Networks under load, with changes.
    Network,
    /// Many full drafts, to be timed.
    Bench,
}

impl Kind {
    pub fn named(name: &str) -> Option<Kind> {
        match name {
            "plan" => Some(Kind::Plan),
            "add" => Some(Kind::Add),
            "network" => Some(Kind::Network),
            "bench" => Some(Kind::Bench),
            _ => None,
        }
    }

    /// Drafts for plans, thousands of ticks for networks.
    pub fn usual_size(self) -> u64 {
        match self {
            Kind::Plan | Kind::Add => 5,
            Kind::Network => 20,
            Kind::Bench => 2_000,
        }
    }
}

/// The text of a scenario.
pub fn scenario(kind: Kind, seed: u64, size: u64) -> String {
    let mut writer = Writer {
        random: Random::new(seed),
        session: Session::default(),
        text: String::new(),
    };
    match kind {
        Kind::Plan => plans::write(&mut writer, size, true),
        Kind::Add => plans::write(&mut writer, size, false),
        Kind::Network => networks::write(&mut writer, size),
        Kind::Bench => plans::write_bench(&mut writer, size),
    }
    if kind != Kind::Bench && writer.random.chance(15) {
        end_with_a_fault(&mut writer);
    }
    writer.text
}

struct Writer {
    random: Random,
    session: Session,
    text: String,
}

impl Writer {
    /// Writes a call and performs it.
    fn call(&mut self, line: &str) -> Reply {
        match self.random.between(0, 99) {
            0 => self.unperformed(&format!("\n{line}")),
            1 => self.unperformed(&format!("\t{line} # check")),
            2 => self.unperformed(&line.replace(' ', "\t ")),
            _ => self.unperformed(line),
        }
        let call = scenario::read_line(line);
        let call = call.expect("the generator writes calls").expect("a call");
        self.session.perform(call)
    }

    /// Writes a line without performing it.
    fn unperformed(&mut self, line: &str) {
        self.text.push_str(line);
        self.text.push('\n');
    }

    /// A number above a limit, just so or by far.
    fn above(&mut self, limit: i64) -> u64 {
        let next = (limit + 1) as u64;
        let far = next.saturating_add(self.random.draw() >> self.random.between(1, 60));
        let picks = [next, next, far, 1 << 48, (1 << 63) - 1, 1 << 63, u64::MAX];
        self.random.pick(&picks)
    }
}

/// Numbers as words.
fn words<T: ToString>(numbers: &[T]) -> String {
    let words: Vec<String> = numbers.iter().map(T::to_string).collect();
    words.join(" ")
}

/// A line that is no call, and a call behind it that must not be answered.
fn end_with_a_fault(w: &mut Writer) {
    let fault = w.random.pick(&[
        "close",
        "check now",
        "certificate",
        "gates 0 1",
        "gates -1",
        "certificate 18446744073709551616",
        "certificate +0",
        "open cycle 1000 error 0 extension 0",
        "open cycle 1000 error 0 delays 0 extension 0",
        "add release 0 octets 64 deadline 500 route 0",
        "place release 0 octets 64 deadline 500 route 0 offsets 0",
        "place release 0 octets 64 deadline route 0",
        "add release 0 octets 64 deadline 500 route 0 offsets 0 x",
        "start base 0 clocks shifted: selections strict",
        "start base 0 clocks exact selections lax",
        "start base 0 clocks stepped:1 selections strict",
        "start base 0 selections strict clocks exact",
        "queue 0 class 0 octets 64 label",
        "queue 0 class -1 octets 64 label 0",
        "advance",
        "advance 1e3",
        "offer 1.5",
        "wire 0x1",
        "change 5",
        "settle now",
    ]);
    w.unperformed(fault);
    w.unperformed("check");
}
