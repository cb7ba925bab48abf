//! What calls reply, leave behind and refuse, and in which order.
//! Each line of the files is a call, and behind the # the reply to it.

use reference::scenario;
use reference::session::Session;

fn replies(text: &str) {
    let mut session = Session::default();
    for line in text.lines() {
        let expected = line.split_once('#').map_or("", |(_, reply)| reply.trim());
        if let Some(call) = scenario::read_line(line).expect(line) {
            assert_eq!(session.perform(call).to_string(), expected, "{line}");
        }
    }
}

#[test]
fn open_replies() {
    replies(include_str!("calls/open.txt"));
}

#[test]
fn add_replies() {
    replies(include_str!("calls/add.txt"));
}

#[test]
fn check_replies() {
    replies(include_str!("calls/check.txt"));
}

#[test]
fn leave_replies() {
    replies(include_str!("calls/leave.txt"));
}

#[test]
fn touching_replies() {
    replies(include_str!("calls/touching.txt"));
}

#[test]
fn start_replies() {
    replies(include_str!("calls/start.txt"));
}

#[test]
fn offer_replies() {
    replies(include_str!("calls/offer.txt"));
}

#[test]
fn queue_replies() {
    replies(include_str!("calls/queue.txt"));
}

#[test]
fn change_replies() {
    replies(include_str!("calls/change.txt"));
}

#[test]
fn far_replies() {
    replies(include_str!("calls/far.txt"));
}

#[test]
fn order_replies() {
    replies(include_str!("calls/order.txt"));
}
