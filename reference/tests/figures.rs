//! The worked example, by the calls of a scenario.

use reference::scenario;
use reference::session::Session;

const CABINET: &str = "open cycle 10000 error 10 extension 200 delays 50 30";
const FLOW_0: &str = "place release 0 octets 100 deadline 400 route 0 1";
const EXACT: &str = "start base 1000 clocks exact exact selections strict strict";

/// The last reply to the lines.
fn last_reply(lines: &[&str]) -> String {
    let mut session = Session::default();
    let mut reply = String::new();
    for line in lines {
        let call = scenario::read_line(line).expect("a call");
        reply = session.perform(call.expect("a call")).to_string();
    }
    reply
}

/// The last reply to the lines, run on the network of flow 0 alone.
fn on_network(lines: &[&str]) -> String {
    last_reply(&[&[CABINET, FLOW_0, "check", EXACT][..], lines].concat())
}

#[test]
fn flow_0_gets_20_and_210() {
    assert_eq!(last_reply(&[CABINET, FLOW_0]), "placed 0 offsets 20 210");
    let lines = [CABINET, FLOW_0, "check", "certificate 0"];
    assert_eq!(last_reply(&lines), "certificate 350 370");
}

#[test]
fn list_of_port_1() {
    let lines = [CABINET, FLOW_0, "check", "gates 1"];
    assert_eq!(
        last_reply(&lines),
        "gates 0x7F*190 0x00*20 0x80*140 0x7F*9650"
    );
}

#[test]
fn flow_1_beside_flow_0() {
    let flow_1 = "place release 170 octets 64 deadline 400 route 0 1";
    assert_eq!(
        last_reply(&[CABINET, FLOW_0, flow_1]),
        "placed 1 offsets 236 390"
    );
    let lines = [CABINET, FLOW_0, flow_1, "check", "certificate 1"];
    assert_eq!(last_reply(&lines), "certificate 324 344");
    let early = "place release 169 octets 64 deadline 400 route 0 1";
    assert_eq!(last_reply(&[CABINET, FLOW_0, early]), "refused 4");
}

#[test]
fn transits_by_the_clock_of_port_1() {
    for (clock, transit) in [("exact", 360), ("shifted:10", 350), ("shifted:-10", 370)] {
        let start = format!("start base 1000 clocks exact {clock} selections strict strict");
        let lines = [
            CABINET,
            FLOW_0,
            "check",
            &start,
            "offer 0",
            "advance 400",
            "record 0",
        ];
        let record = format!(
            "record accepted 1 delivered 1 least {transit} greatest {transit} under-way no"
        );
        assert_eq!(last_reply(&lines), record);
    }
}

#[test]
fn a_long_frame_waits_for_room_before_the_window() {
    let queue = "queue 0 class 3 octets 1522 label 0";
    let starts_at_9458 = ["advance 8458", queue, "advance 1", "wire 0"];
    assert_eq!(on_network(&starts_at_9458), "wire class 3 until 10999");
    let not_at_9459 = ["advance 8459", queue, "advance 1701", "wire 0"];
    assert_eq!(on_network(&not_at_9459), "wire none");
    let starts_at_11160 = ["advance 8459", queue, "advance 1702", "wire 0"];
    assert_eq!(on_network(&starts_at_11160), "wire class 3 until 12701");
}

#[test]
fn the_last_tick_for_a_change() {
    let new = "open cycle 10000 error 10 extension 0 delays 50 30";
    let in_time = ["advance 8438", new, "check", "change base 1150"];
    assert_eq!(on_network(&in_time), "change at 11150");
    let late = ["advance 8439", new, "check", "change base 1150"];
    assert_eq!(on_network(&late), "refused 64");
}

#[test]
fn the_longest_extension() {
    let new = "open cycle 10000 error 10 extension 0 delays 50 30";
    let longest = ["advance 4000", new, "check", "change base 21200"];
    assert_eq!(on_network(&longest), "change at 21200");
    let longer = ["advance 4000", new, "check", "change base 21201"];
    assert_eq!(on_network(&longer), "refused 63");
}

#[test]
fn a_shaped_class_waits_300_ticks() {
    let open = "open cycle 10000 error 0 extension 0 delays 0";
    let start = "start base 0 clocks exact selections shaper:250:250";
    let queue = "queue 0 class 6 octets 80 label 0";
    let setup = [open, "check", start, queue, queue];
    let after = |ticks: &str| last_reply(&[&setup[..], &[ticks, "wire 0"]].concat());
    assert_eq!(after("advance 1"), "wire class 6 until 99");
    assert_eq!(after("advance 400"), "wire none");
    assert_eq!(after("advance 401"), "wire class 6 until 499");
}
