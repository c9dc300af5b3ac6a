//! The proved desk through its door, with the calls and the answers of the second program.

use crate::desk::{Answer, Which};
use crate::line::Call;
use door::raw;

/// How many bytes were copied so far by memcpy and memmove, where the program is linked with second/copies.c.
#[cfg(counting)]
pub fn copied() -> u64 {
    extern "C" {
        static copied_bytes: u64;
    }
    // Nothing else runs beside this program's one thread.
    unsafe { std::ptr::addr_of!(copied_bytes).read_volatile() }
}

#[cfg(not(counting))]
pub fn copied() -> u64 {
    panic!("this program does not count copies");
}

/// A desk that the host keeps and lends to each call.
#[derive(Clone)]
pub struct Lent {
    raw: raw::Desk,
}

fn answered(answer: raw::Answer) -> Answer {
    Answer {
        code: answer.code,
        value: answer.value,
        time: answer.time,
    }
}

impl Lent {
    pub fn fresh() -> Lent {
        Lent {
            raw: raw::desk_fresh(),
        }
    }

    pub fn weak_bound(&self) -> Answer {
        answered(raw::desk_weak_bound(&self.raw))
    }

    pub fn strong_bound(&self) -> Answer {
        answered(raw::desk_strong_bound(&self.raw))
    }

    pub fn call(&mut self, call: Call, slice: &mut [u64]) -> Answer {
        let desk = &mut self.raw;
        answered(match call {
            Call::Channel(thread) => raw::desk_channel(desk, thread),
            Call::NewThread(thread, time) => raw::desk_new_thread(desk, thread, time),
            Call::AttachInput(thread, channel) => raw::desk_attach_input(desk, thread, channel),
            Call::AttachOutput(thread, channel) => raw::desk_attach_output(desk, thread, channel),
            Call::Detach(thread, connection) => raw::desk_detach(desk, thread, connection),
            Call::End(thread) => raw::desk_end(desk, thread),
            Call::Set(thread, time) => raw::desk_set(desk, thread, time),
            Call::Put(thread, connection, timestamp, ticket) => {
                raw::desk_put(desk, thread, connection, timestamp, ticket)
            }
            Call::Get(thread, connection, Which::Earliest) => {
                raw::desk_get_earliest(desk, thread, connection)
            }
            Call::Get(thread, connection, Which::Latest) => {
                raw::desk_get_latest(desk, thread, connection)
            }
            Call::Get(thread, connection, Which::Named(timestamp)) => {
                raw::desk_get_named(desk, thread, connection, timestamp)
            }
            Call::Consume(thread, connection, timestamp) => {
                raw::desk_consume(desk, thread, connection, timestamp)
            }
            Call::ConsumeUntil(thread, connection, timestamp) => {
                raw::desk_consume_until(desk, thread, connection, timestamp)
            }
            Call::WeakSweep => raw::desk_weak_sweep(desk, slice),
            Call::StrongSweep => raw::desk_strong_sweep(desk, slice),
        })
    }
}
