//! Scenarios: reading one line as a call.

use crate::clock::ClockSetting;
use crate::plan::FlowRequest;
use crate::selection::SelectionSetting;

#[derive(Clone, Debug, PartialEq, Eq)]
pub enum Call {
    Open {
        cycle: u64,
        error: u64,
        extension: u64,
        delays: Vec<u64>,
    },
    Place(FlowRequest),
    Add {
        flow: FlowRequest,
        offsets: Vec<u64>,
    },
    Check,
    Certificate {
        flow: u64,
    },
    Gates {
        port: u64,
    },
    Start {
        base: u64,
        clocks: Vec<ClockSetting>,
        selections: Vec<SelectionSetting>,
    },
    Offer {
        flow: u64,
    },
    Queue {
        port: u64,
        class: u64,
        octets: u64,
        label: u64,
    },
    Advance {
        ticks: u64,
    },
    Record {
        flow: u64,
    },
    Wire {
        port: u64,
    },
    Change {
        base: u64,
    },
    Settle,
}

/// The words of a line that have not been read yet.
struct Words<'a> {
    rest: std::iter::Peekable<std::vec::IntoIter<&'a str>>,
}

/// Reads a line: a call, or nothing if it has no words, or what is wrong with it.
pub fn read_line(line: &str) -> Result<Option<Call>, String> {
    let text = line.split('#').next().unwrap_or("");
    let words: Vec<&str> = text.split([' ', '\t']).filter(|w| !w.is_empty()).collect();
    let mut words = Words {
        rest: words.into_iter().peekable(),
    };
    let Some(name) = words.rest.next() else {
        return Ok(None);
    };
    let call = read_call(name, &mut words)?;
    match words.rest.next() {
        None => Ok(Some(call)),
        Some(word) => Err(format!("'{word}' is superfluous")),
    }
}

fn read_call(name: &str, words: &mut Words) -> Result<Call, String> {
    Ok(match name {
        "open" => read_open(words)?,
        "place" => Call::Place(read_flow(words, None)?),
        "add" => Call::Add {
            flow: read_flow(words, Some("offsets"))?,
            offsets: words.list("offsets", None, number)?,
        },
        "check" => Call::Check,
        "certificate" => Call::Certificate {
            flow: words.number()?,
        },
        "gates" => Call::Gates {
            port: words.number()?,
        },
        "start" => read_start(words)?,
        "offer" => Call::Offer {
            flow: words.number()?,
        },
        "queue" => read_queue(words)?,
        "advance" => Call::Advance {
            ticks: words.number()?,
        },
        "record" => Call::Record {
            flow: words.number()?,
        },
        "wire" => Call::Wire {
            port: words.number()?,
        },
        "change" => Call::Change {
            base: words.named("base")?,
        },
        "settle" => Call::Settle,
        _ => return Err(format!("no call is named '{name}'")),
    })
}

fn read_open(words: &mut Words) -> Result<Call, String> {
    Ok(Call::Open {
        cycle: words.named("cycle")?,
        error: words.named("error")?,
        extension: words.named("extension")?,
        delays: words.list("delays", None, number)?,
    })
}

/// A flow; its route runs up to the word `after`, or to the end of the line.
fn read_flow(words: &mut Words, after: Option<&str>) -> Result<FlowRequest, String> {
    Ok(FlowRequest {
        release: words.named("release")?,
        octets: words.named("octets")?,
        deadline: words.named("deadline")?,
        route: words.list("route", after, number)?,
    })
}

fn read_start(words: &mut Words) -> Result<Call, String> {
    Ok(Call::Start {
        base: words.named("base")?,
        clocks: words.list("clocks", Some("selections"), clock)?,
        selections: words.list("selections", None, selection)?,
    })
}

fn read_queue(words: &mut Words) -> Result<Call, String> {
    Ok(Call::Queue {
        port: words.number()?,
        class: words.named("class")?,
        octets: words.named("octets")?,
        label: words.named("label")?,
    })
}

impl Words<'_> {
    fn number(&mut self) -> Result<u64, String> {
        number(self.rest.next().ok_or("a number is missing")?)
    }

    fn keyword(&mut self, keyword: &str) -> Result<(), String> {
        match self.rest.next() {
            Some(word) if word == keyword => Ok(()),
            Some(word) => Err(format!("'{word}' stands where '{keyword}' should")),
            None => Err(format!("'{keyword}' is missing")),
        }
    }

    fn named(&mut self, keyword: &str) -> Result<u64, String> {
        self.keyword(keyword)?;
        self.number()
    }

    /// A keyword and the list behind it, up to the word `after` or to the end of the line.
    fn list<T>(
        &mut self,
        keyword: &str,
        after: Option<&str>,
        read: fn(&str) -> Result<T, String>,
    ) -> Result<Vec<T>, String> {
        self.keyword(keyword)?;
        let mut items = Vec::new();
        while let Some(word) = self.rest.next_if(|word| Some(*word) != after) {
            items.push(read(word)?);
        }
        Ok(items)
    }
}

/// A decimal number without sign that fits 64 bits.
fn number(word: &str) -> Result<u64, String> {
    if word.is_empty() || !word.bytes().all(|b| b.is_ascii_digit()) {
        return Err(format!("'{word}' is no number"));
    }
    word.parse()
        .map_err(|_| format!("'{word}' does not fit 64 bits"))
}

fn clock(word: &str) -> Result<ClockSetting, String> {
    let parts: Vec<&str> = word.split(':').collect();
    match parts[..] {
        ["exact"] => Ok(ClockSetting::Exact),
        ["shifted", shift] => {
            let shift = match shift.strip_prefix('-') {
                Some(size) => -i128::from(number(size)?),
                None => i128::from(number(shift)?),
            };
            Ok(ClockSetting::Shifted { shift })
        }
        ["stepped", margin, step] => Ok(ClockSetting::Stepped {
            margin: number(margin)?,
            step: number(step)?,
        }),
        _ => Err(format!("'{word}' is no clock")),
    }
}

fn selection(word: &str) -> Result<SelectionSetting, String> {
    let parts: Vec<&str> = word.split(':').collect();
    match parts[..] {
        ["strict"] => Ok(SelectionSetting::Strict),
        ["shaper", share6, share5] => Ok(SelectionSetting::Shaper {
            share6: number(share6)?,
            share5: number(share5)?,
        }),
        _ => Err(format!("'{word}' is no selection")),
    }
}

#[cfg(test)]
mod tests {
    use super::*;

    #[test]
    fn lines_without_words() {
        for line in ["", " \t ", "# check", "  #"] {
            assert_eq!(read_line(line), Ok(None));
        }
    }

    #[test]
    fn lists_may_be_empty() {
        let open = Call::Open {
            cycle: 1,
            error: 2,
            extension: 3,
            delays: vec![],
        };
        assert_eq!(
            read_line("open cycle 1\terror 2 extension 3 delays"),
            Ok(Some(open))
        );
        let start = Call::Start {
            base: 0,
            clocks: vec![],
            selections: vec![],
        };
        assert_eq!(
            read_line("start base 0 clocks selections # none"),
            Ok(Some(start))
        );
        let flow = FlowRequest {
            release: 1,
            octets: 2,
            deadline: 3,
            route: vec![],
        };
        let add = Call::Add {
            flow,
            offsets: vec![],
        };
        assert_eq!(
            read_line("add release 1 octets 2 deadline 3 route offsets"),
            Ok(Some(add))
        );
    }

    #[test]
    fn clocks_and_selections() {
        let start = Call::Start {
            base: u64::MAX,
            clocks: vec![
                ClockSetting::Exact,
                ClockSetting::Shifted { shift: -5 },
                ClockSetting::Stepped { margin: 1, step: 0 },
            ],
            selections: vec![
                SelectionSetting::Strict,
                SelectionSetting::Shaper {
                    share6: 1000,
                    share5: 0,
                },
            ],
        };
        let line = "start base 18446744073709551615 clocks exact shifted:-5 stepped:1:0 selections strict shaper:1000:0";
        assert_eq!(read_line(line), Ok(Some(start)));
    }

    #[test]
    fn lines_that_are_no_call() {
        let lines = [
            "close",
            "check now",
            "Check",
            "offer",
            "offer -1",
            "offer +1",
            "offer 0x1",
            "offer 18446744073709551616",
            "change 5",
            "open cycle 1000 extension 0 error 0 delays 1",
            "place release 1 octets 2 deadline 3 route 1 offsets 2",
            "add release 1 octets 2 deadline 3 route 1",
            "start base 1 clocks shifted: selections strict",
            "start base 1 clocks shifted:--1 selections strict",
            "start base 1 clocks exact: selections strict",
            "start base 1 clocks stepped:1 selections strict",
            "start base 1 clocks exact selections shaper:1",
            "start base 1 clocks exact selections lax",
            "queue 0 class 1 octets 64",
            "settle\r",
        ];
        for line in lines {
            assert!(read_line(line).is_err(), "{line}");
        }
    }
}
