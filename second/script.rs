//! A call as a line of a door script: its name at the boundary and its
//! numbers. hosts/README.md has the lines.

use crate::desk::Which;
use crate::line::Call;

pub fn written(call: Call) -> String {
    match call {
        Call::Channel(thread) => format!("channel {thread}"),
        Call::NewThread(thread, time) => format!("new_thread {thread} {time}"),
        Call::AttachInput(thread, channel) => format!("attach_input {thread} {channel}"),
        Call::AttachOutput(thread, channel) => format!("attach_output {thread} {channel}"),
        Call::Detach(thread, connection) => format!("detach {thread} {connection}"),
        Call::End(thread) => format!("end {thread}"),
        Call::Set(thread, time) => format!("set {thread} {time}"),
        Call::Put(thread, connection, timestamp, ticket) => {
            format!("put {thread} {connection} {timestamp} {ticket}")
        }
        Call::Get(thread, connection, Which::Earliest) => {
            format!("get_earliest {thread} {connection}")
        }
        Call::Get(thread, connection, Which::Latest) => format!("get_latest {thread} {connection}"),
        Call::Get(thread, connection, Which::Named(timestamp)) => {
            format!("get_named {thread} {connection} {timestamp}")
        }
        Call::Consume(thread, connection, timestamp) => {
            format!("consume {thread} {connection} {timestamp}")
        }
        Call::ConsumeUntil(thread, connection, timestamp) => {
            format!("consume_until {thread} {connection} {timestamp}")
        }
        Call::WeakSweep => "weak_sweep".to_string(),
        Call::StrongSweep => "strong_sweep".to_string(),
    }
}
