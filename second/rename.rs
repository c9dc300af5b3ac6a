//! Leaves lines out of a session and gives the others the numbers that they
//! then need: a thread, channel or connection keeps its meaning, though its
//! number changes when one that was made before it is no longer made.

use crate::desk::{Desk, ITEMS};
use crate::line::{self, Call};
use std::collections::HashMap;

#[derive(Clone, Copy, PartialEq, Eq, Hash)]
enum Kind {
    Thread,
    Channel,
    Connection,
}

/// Where a number was given: by which line, to what. Thread 0 of the fresh
/// desk was given by none.
type Birth = (Kind, Option<usize>);

/// The session before or after the change, and the births behind its numbers.
struct Names {
    desk: Desk,
    births: HashMap<(Kind, u32), Birth>,
}

impl Names {
    fn new() -> Names {
        let births = HashMap::from([((Kind::Thread, 0), (Kind::Thread, None))]);
        Names {
            desk: Desk::fresh(),
            births,
        }
    }

    /// Makes the call of this line and remembers the number it gives.
    fn perform(&mut self, index: usize, call: Call) {
        let answer = line::perform(&mut self.desk, call, &mut [0; ITEMS]);
        let kind = match call {
            Call::Channel(..) => Kind::Channel,
            Call::NewThread(..) => Kind::Thread,
            Call::AttachInput(..) | Call::AttachOutput(..) => Kind::Connection,
            _ => return,
        };
        if answer.code == 0 {
            self.births
                .insert((kind, answer.value as u32), (kind, Some(index)));
        }
    }

    fn number_of(&self, birth: Birth) -> Option<u32> {
        let found = self.births.iter().find(|(_, other)| **other == birth);
        found.map(|((_, number), _)| *number)
    }
}

/// The lines without those from `from` up to `to`, with new numbers.
pub fn leave_out(lines: &[Vec<u8>], from: usize, to: usize) -> Vec<Vec<u8>> {
    let mut before = Names::new();
    let mut after = Names::new();
    let mut left = Vec::new();
    for (index, bytes) in lines.iter().enumerate() {
        let stays = index < from || index >= to;
        let Some(call) = line::read(bytes.strip_suffix(b"\n").unwrap_or(bytes)) else {
            if stays {
                left.push(bytes.clone());
            }
            continue;
        };
        if stays {
            let renamed = rename(call, &before, &after);
            after.perform(index, renamed);
            left.push(if renamed == call {
                bytes.clone()
            } else {
                spell(renamed)
            });
        }
        before.perform(index, call);
    }
    left
}

/// The call with the numbers that its threads, channels and connections have after the change.
fn rename(call: Call, before: &Names, after: &Names) -> Call {
    let name = |kind: Kind, number: u32| {
        let birth = before.births.get(&(kind, number));
        birth
            .and_then(|birth| after.number_of(*birth))
            .unwrap_or(number)
    };
    let thread = |number| name(Kind::Thread, number);
    let channel = |number| name(Kind::Channel, number);
    let connection = |number| name(Kind::Connection, number);
    match call {
        Call::Channel(t) => Call::Channel(thread(t)),
        Call::NewThread(t, v) => Call::NewThread(thread(t), v),
        Call::AttachInput(t, c) => Call::AttachInput(thread(t), channel(c)),
        Call::AttachOutput(t, c) => Call::AttachOutput(thread(t), channel(c)),
        Call::Detach(t, k) => Call::Detach(thread(t), connection(k)),
        Call::End(t) => Call::End(thread(t)),
        Call::Set(t, v) => Call::Set(thread(t), v),
        Call::Put(t, k, ts, ticket) => Call::Put(thread(t), connection(k), ts, ticket),
        Call::Get(t, k, which) => Call::Get(thread(t), connection(k), which),
        Call::Consume(t, k, ts) => Call::Consume(thread(t), connection(k), ts),
        Call::ConsumeUntil(t, k, ts) => Call::ConsumeUntil(thread(t), connection(k), ts),
        Call::WeakSweep | Call::StrongSweep => call,
    }
}

/// The line that is read as this call, with its newline.
fn spell(call: Call) -> Vec<u8> {
    use crate::desk::Which::{Earliest, Latest, Named};
    let line = match call {
        Call::Channel(t) => format!("c {t}\n"),
        Call::NewThread(t, v) => format!("n {t} {v}\n"),
        Call::AttachInput(t, c) => format!("i {t} {c}\n"),
        Call::AttachOutput(t, c) => format!("o {t} {c}\n"),
        Call::Detach(t, k) => format!("d {t} {k}\n"),
        Call::End(t) => format!("e {t}\n"),
        Call::Set(t, v) => format!("s {t} {v}\n"),
        Call::Put(t, k, ts, ticket) => format!("p {t} {k} {ts} {ticket}\n"),
        Call::Get(t, k, Earliest) => format!("g {t} {k}\n"),
        Call::Get(t, k, Latest) => format!("G {t} {k}\n"),
        Call::Get(t, k, Named(ts)) => format!("x {t} {k} {ts}\n"),
        Call::Consume(t, k, ts) => format!("f {t} {k} {ts}\n"),
        Call::ConsumeUntil(t, k, ts) => format!("u {t} {k} {ts}\n"),
        Call::WeakSweep => "w\n".to_string(),
        Call::StrongSweep => "W\n".to_string(),
    };
    line.into_bytes()
}
