//! What document 01 says about a call, found by plain search: the answer, the
//! desk afterwards and the slice afterwards. Slow, and written to be compared
//! with the desk's own calls. Words in quotation marks are document 01's.

#![allow(dead_code)] // a program may want the cases without the rest

use crate::desk::{Answer, Connection, Desk, Item, Thread, Which, ITEMS, NEVER};
use crate::line::Call;

/// The answer, the desk and the slice after the call.
pub fn expected(desk: &Desk, call: Call, slice: &[u64]) -> (Answer, Desk, Vec<u64>) {
    let code = code(desk, call, slice.len());
    let mut handed = slice.to_vec();
    if code != 0 {
        // "It leaves the desk and the slice as they were."
        let number = leaving(desk, call).len() as u64;
        let value = if code == 12 { number } else { 0 };
        let answer = Answer {
            code,
            value,
            time: 0,
        };
        return (answer, desk.clone(), handed);
    }
    let (value, time) = value_and_time(desk, call);
    let answer = Answer { code, value, time };
    if matches!(call, Call::WeakSweep | Call::StrongSweep) {
        for (index, pair) in leaving(desk, call).into_iter().enumerate() {
            handed[index] = desk.items[place_of(desk, pair)].ticket;
        }
        return (answer, desk_after_sweep(desk, time), handed);
    }
    (answer, desk_after(desk, call, answer), handed)
}

fn value_and_time(desk: &Desk, call: Call) -> (u64, u32) {
    let channels = desk.channels.iter().position(|place| !place.made);
    let threads = desk.threads.iter().position(|place| !place.living);
    let connections = desk.connections.iter().position(|place| !place.attached);
    let lowest = |free: Option<usize>| free.unwrap() as u64;
    match call {
        Call::Channel(_) => (lowest(channels), 0),
        Call::NewThread(..) => (lowest(threads), 0),
        Call::AttachInput(thread, _) => (lowest(connections), visible(desk, thread)),
        Call::AttachOutput(..) => (lowest(connections), 0),
        Call::Get(_, connection, which) => {
            let unseen = in_state(desk, connection, 1);
            let timestamp = match which {
                Which::Earliest => *unseen.iter().min().unwrap(),
                Which::Latest => *unseen.iter().max().unwrap(),
                Which::Named(timestamp) => timestamp,
            };
            let channel = desk.connections[connection as usize].channel;
            let place = place_of(desk, (channel, timestamp));
            (desk.items[place].ticket, timestamp)
        }
        Call::WeakSweep | Call::StrongSweep => {
            (leaving(desk, call).len() as u64, bound(desk, call))
        }
        _ => (0, 0),
    }
}

/// The desk after an accepted call that is no sweep.
fn desk_after(desk: &Desk, call: Call, answer: Answer) -> Desk {
    let mut after = desk.clone();
    let number = answer.value as usize;
    match call {
        Call::Channel(_) => after.channels[number].made = true,
        Call::NewThread(_, virtual_time) => {
            after.threads[number].living = true;
            after.threads[number].virtual_time = virtual_time;
        }
        Call::AttachInput(thread, channel) | Call::AttachOutput(thread, channel) => {
            let connection = &mut after.connections[number];
            connection.attached = true;
            connection.input = matches!(call, Call::AttachInput(..));
            connection.thread = thread;
            connection.channel = channel;
            connection.mark = answer.time;
        }
        Call::Detach(_, connection) => {
            after.connections[connection as usize] = Connection::default()
        }
        Call::End(thread) => {
            after.threads[thread as usize] = Thread::default();
            let own = |place: &&mut Connection| place.attached && place.thread == thread;
            let places = after.connections.iter_mut().filter(own);
            places.for_each(|place| *place = Connection::default());
        }
        Call::Set(thread, virtual_time) => {
            after.threads[thread as usize].virtual_time = virtual_time
        }
        Call::Put(_, connection, timestamp, ticket) => {
            let place = (0..ITEMS).find(|place| !is_present(desk, *place)).unwrap();
            let channel = desk.connections[connection as usize].channel;
            after.items[place] = Item { timestamp, ticket };
            after.channels[channel as usize].items.bits |= 1 << place;
        }
        _ => connection_after(&mut after, call, answer),
    }
    after
}

/// The connection after an accepted get, consume or consume until.
fn connection_after(desk: &mut Desk, call: Call, answer: Answer) {
    let (number, timestamp) = match call {
        Call::Get(_, number, _) => (number as usize, answer.time),
        Call::Consume(_, number, timestamp) => (number as usize, timestamp),
        Call::ConsumeUntil(_, number, timestamp) => {
            let mark = &mut desk.connections[number as usize].mark;
            *mark = (*mark).max(timestamp + 1);
            return;
        }
        _ => return,
    };
    let place = place_of(desk, (desk.connections[number].channel, timestamp));
    let connection = &mut desk.connections[number];
    if matches!(call, Call::Get(..)) {
        connection.open.bits |= 1 << place;
    } else {
        connection.open.bits &= !(1 << place);
        connection.consumed.bits |= 1 << place;
    }
}

/// The desk after a sweep at this bound.
fn desk_after_sweep(desk: &Desk, bound: u32) -> Desk {
    let mut after = desk.clone();
    for place in 0..ITEMS {
        if is_present(desk, place) && desk.items[place].timestamp < bound {
            after.items[place] = Item::default();
            let channels = after.channels.iter_mut();
            channels.for_each(|channel| channel.items.bits &= !(1 << place));
            for connection in &mut after.connections {
                connection.open.bits &= !(1 << place);
                connection.consumed.bits &= !(1 << place);
            }
        }
    }
    for number in inputs(desk) {
        let mark = &mut after.connections[number as usize].mark;
        *mark = (*mark).max(bound);
    }
    after
}

/// The first code of the call's list in document 01 whose case is given.
fn code(desk: &Desk, call: Call, places: usize) -> u32 {
    let first = cases(desk, call, places)
        .into_iter()
        .find(|(_, given)| *given);
    first.map_or(0, |(code, _)| code)
}

/// The codes of the call's list in document 01, in order, each with whether
/// its case is given, whatever is given before it.
pub fn cases(desk: &Desk, call: Call, places: usize) -> Vec<(u32, bool)> {
    let channels = desk.channels.iter().filter(|place| place.made).count();
    let attached = desk
        .connections
        .iter()
        .filter(|place| place.attached)
        .count();
    let channel = |number: u32| (number as usize) < channels;
    match call {
        Call::Channel(t) => vec![(1, dead(desk, t)), (9, channels == 8)],
        Call::NewThread(t, v) => {
            let table = living(desk).len() == 16;
            vec![(1, dead(desk, t)), (6, early(desk, t, v)), (9, table)]
        }
        Call::AttachInput(t, c) | Call::AttachOutput(t, c) => {
            vec![(1, dead(desk, t)), (2, !channel(c)), (9, attached == 32)]
        }
        Call::Detach(t, k) => vec![(1, dead(desk, t)), (3, strange(desk, t, k))],
        Call::End(t) => vec![(1, dead(desk, t))],
        Call::Set(t, v) => vec![(1, dead(desk, t)), (6, early(desk, t, v))],
        Call::WeakSweep | Call::StrongSweep => vec![(12, leaving(desk, call).len() > places)],
        _ => item_cases(desk, call),
    }
}

/// The codes of the calls about items, in order, each with whether its case is given.
fn item_cases(desk: &Desk, call: Call) -> Vec<(u32, bool)> {
    let (Call::Put(t, k, ..)
    | Call::Get(t, k, ..)
    | Call::Consume(t, k, ..)
    | Call::ConsumeUntil(t, k, ..)) = call
    else {
        return vec![];
    };
    let found = desk
        .connections
        .get(k as usize)
        .copied()
        .unwrap_or_default();
    let other = found.input == matches!(call, Call::Put(..));
    let mut cases = vec![(1, dead(desk, t)), (3, strange(desk, t, k)), (4, other)];
    match call {
        Call::Put(_, _, ts, _) => {
            let same = items(desk).contains(&(found.channel, ts));
            cases.extend([(5, ts == NEVER), (6, early(desk, t, ts))]);
            cases.extend([(7, same), (8, items(desk).len() == 64)]);
        }
        Call::Get(_, _, which) => {
            let fits = |ts: &u32| !matches!(which, Which::Named(named) if named != *ts);
            let none = !in_state(desk, k, 1).iter().any(fits);
            cases.extend([(5, which == Which::Named(NEVER)), (10, none)]);
        }
        Call::Consume(_, _, ts) => {
            let open = in_state(desk, k, 2).contains(&ts);
            cases.extend([(5, ts == NEVER), (11, !open)]);
        }
        Call::ConsumeUntil(_, _, ts) => cases.push((5, ts == NEVER)),
        _ => {}
    }
    cases
}

fn dead(desk: &Desk, thread: u32) -> bool {
    !living(desk).contains(&thread)
}

/// Whether the time is below the visible time of the thread.
fn early(desk: &Desk, thread: u32, time: u32) -> bool {
    !dead(desk, thread) && time < visible(desk, thread)
}

/// Whether the connection is none, or another thread's.
fn strange(desk: &Desk, thread: u32, connection: u32) -> bool {
    let found = desk.connections.get(connection as usize);
    !found.is_some_and(|found| found.attached && found.thread == thread)
}

fn is_present(desk: &Desk, place: usize) -> bool {
    desk.channels.iter().any(|channel| channel.items.has(place))
}

/// The place of the item with this channel and timestamp.
fn place_of(desk: &Desk, (channel, timestamp): (u32, u32)) -> usize {
    let items = desk.channels[channel as usize].items;
    let fits = |place: &usize| items.has(*place) && desk.items[*place].timestamp == timestamp;
    (0..ITEMS).find(fits).unwrap()
}

pub fn living(desk: &Desk) -> Vec<u32> {
    (0..16)
        .filter(|thread| desk.threads[*thread as usize].living)
        .collect()
}

pub fn inputs(desk: &Desk) -> Vec<u32> {
    (0..32)
        .filter(|number| desk.connections[*number as usize].input)
        .collect()
}

/// All present items, as pairs of channel and timestamp, in order.
pub fn items(desk: &Desk) -> Vec<(u32, u32)> {
    let mut items = Vec::new();
    for (number, channel) in desk.channels.iter().enumerate() {
        items.extend(
            channel
                .items
                .each()
                .map(|place| (number as u32, desk.items[place].timestamp)),
        );
    }
    items.sort_unstable();
    items
}

/// The timestamps of present items in this state (1 UNSEEN, 2 OPEN) on the connection.
pub fn in_state(desk: &Desk, connection: u32, state: u64) -> Vec<u32> {
    let Some(found) = desk.connections.get(connection as usize) else {
        return vec![];
    };
    let own = items(desk)
        .into_iter()
        .filter(|(channel, _)| *channel == found.channel);
    own.map(|(_, timestamp)| timestamp)
        .filter(|timestamp| desk.state(connection, *timestamp).value == state)
        .collect()
}

pub fn visible(desk: &Desk, thread: u32) -> u32 {
    let own = inputs(desk)
        .into_iter()
        .filter(|number| desk.connections[*number as usize].thread == thread);
    let open = own.flat_map(|connection| in_state(desk, connection, 2));
    open.min()
        .unwrap_or(NEVER)
        .min(desk.threads[thread as usize].virtual_time)
}

/// The bound of a weak or a strong sweep.
pub fn bound(desk: &Desk, call: Call) -> u32 {
    let threads = living(desk)
        .into_iter()
        .map(|thread| desk.threads[thread as usize].virtual_time);
    let mut times: Vec<u32> = threads.collect();
    for connection in inputs(desk) {
        if call == Call::WeakSweep {
            times.push(desk.connections[connection as usize].mark);
        } else {
            times.extend(in_state(desk, connection, 1));
            times.extend(in_state(desk, connection, 2));
        }
    }
    times.into_iter().min().unwrap_or(NEVER)
}

/// The items that the sweep takes: "by channel number, then timestamp".
fn leaving(desk: &Desk, call: Call) -> Vec<(u32, u32)> {
    let bound = bound(desk, call);
    items(desk)
        .into_iter()
        .filter(|(_, timestamp)| *timestamp < bound)
        .collect()
}
