//! The desks on which calls are measured: empty, half full and full, and the call of each kind on them.

use crate::desk::Which;
use crate::line::Call;

pub const DESKS: [&str; 3] = ["empty", "half", "full"];
pub const CALLS: [&str; 8] = [
    "put",
    "get",
    "consume",
    "set",
    "weak-bound",
    "strong-bound",
    "weak-sweep",
    "strong-sweep",
];

/// What is measured: a call, or one of the two bounds.
#[derive(Clone, Copy, PartialEq, Eq, Debug)]
pub enum Measured {
    Call(Call),
    WeakBound,
    StrongBound,
}

/// How far a desk is filled.
struct Filling {
    threads: u32,
    channels: u32,
    connections: u32,
    items: u32,
}

fn filling(desk: &str) -> Filling {
    match desk {
        "empty" => Filling {
            threads: 1,
            channels: 1,
            connections: 2,
            items: 0,
        },
        "half" => Filling {
            threads: 8,
            channels: 4,
            connections: 16,
            items: 32,
        },
        _ => Filling {
            threads: 16,
            channels: 8,
            connections: 32,
            items: 64,
        },
    }
}

/// Connections 2k and 2k + 1 belong to thread k: an output and an input of one channel.
fn thread_of(connection: u32) -> u32 {
    connection / 2
}

/// The calls that fill a desk. On each input the first half of the channel's items was got, and the first of them
/// consumed; then every thread moves on, so that what lies below is to be swept.
pub fn calls_before(desk: &str) -> Vec<Call> {
    let filling = filling(desk);
    let each_channel = filling.items / filling.channels;
    let mut calls = Vec::new();
    calls.extend((1..filling.threads).map(|_| Call::NewThread(0, 0)));
    calls.extend((0..filling.channels).map(|_| Call::Channel(0)));
    for connection in 0..filling.connections {
        let channel = thread_of(connection) % filling.channels;
        calls.push(match connection % 2 {
            0 => Call::AttachOutput(thread_of(connection), channel),
            _ => Call::AttachInput(thread_of(connection), channel),
        });
    }
    for item in 0..filling.items {
        let thread = item % filling.channels;
        let timestamp = item / filling.channels;
        calls.push(Call::Put(thread, 2 * thread, timestamp, u64::from(item)));
    }
    for connection in (1..filling.connections).step_by(2) {
        let thread = thread_of(connection);
        for _ in 0..each_channel / 2 {
            calls.push(Call::Get(thread, connection, Which::Earliest));
        }
        if each_channel > 0 {
            calls.push(Call::Consume(thread, connection, 0));
        }
        calls.push(Call::Set(thread, each_channel));
    }
    calls
}

/// The call of this name on the desk of this name: the last thread's, through its last connections.
pub fn measured(name: &str, desk: &str) -> Measured {
    let filling = filling(desk);
    let (output, input) = (filling.connections - 2, filling.connections - 1);
    let thread = thread_of(input);
    Measured::Call(match name {
        "put" => Call::Put(thread, output, 1000, 1),
        "get" => Call::Get(thread, input, Which::Earliest),
        "consume" => Call::Consume(thread, input, 1),
        "set" => Call::Set(thread, 1000),
        "weak-sweep" => Call::WeakSweep,
        "strong-sweep" => Call::StrongSweep,
        "weak-bound" => return Measured::WeakBound,
        _ => return Measured::StrongBound,
    })
}
