//! The desk of document 01 as plain Rust: threads, channels, connections and
//! items, kept by the caller and changed in place. Words in quotation marks
//! are document 01's.

#![allow(dead_code)] // no single program here makes every call and asks every question

/// "Threads 16 (0..15)".
pub const THREADS: usize = 16;
/// "channels 8 (0..7)".
pub const CHANNELS: usize = 8;
/// "connections 32 (0..31), both directions together".
pub const CONNECTIONS: usize = 32;
/// "items 64 in all channels together".
pub const ITEMS: usize = 64;
/// "The value 4,294,967,295 is called never. It is no timestamp; a virtual
/// time, a mark or a bound may be never."
pub const NEVER: u32 = 4_294_967_295;

/// "Each answer is a code, a value and a time."
#[derive(Clone, Copy, PartialEq, Eq, Debug)]
pub struct Answer {
    pub code: u32,
    pub value: u64,
    pub time: u32,
}

/// "'Which' is earliest, latest or one named timestamp".
#[derive(Clone, Copy, PartialEq, Eq, Debug)]
pub enum Which {
    Earliest,
    Latest,
    Named(u32),
}

/// "A state stands in the value, as 0 ABSENT, 1 UNSEEN, 2 OPEN, 3 CONSUMED".
#[derive(Clone, Copy, PartialEq, Eq, PartialOrd, Ord, Debug)]
pub enum State {
    Absent = 0,
    Unseen = 1,
    Open = 2,
    Consumed = 3,
}

/// A set of item places: place 0 is the lowest bit, place 63 the highest.
#[derive(Clone, Copy, Default, PartialEq, Eq, Debug)]
pub struct Places {
    pub bits: u64,
}

impl Places {
    pub fn has(self, place: usize) -> bool {
        self.bits & (1 << place) != 0
    }

    pub fn add(&mut self, place: usize) {
        self.bits |= 1 << place;
    }

    pub fn remove(&mut self, place: usize) {
        self.bits &= !(1 << place);
    }

    pub fn with(self, other: Places) -> Places {
        Places {
            bits: self.bits | other.bits,
        }
    }

    pub fn without(self, other: Places) -> Places {
        Places {
            bits: self.bits & !other.bits,
        }
    }

    pub fn count(self) -> usize {
        self.bits.count_ones() as usize
    }

    /// The lowest place that is not in the set, if there is one.
    pub fn lowest_free(self) -> Option<usize> {
        let place = self.bits.trailing_ones() as usize;
        (place < ITEMS).then_some(place)
    }

    /// The places in the set, lowest first.
    pub fn each(self) -> impl Iterator<Item = usize> {
        let mut rest = self.bits;
        std::iter::from_fn(move || {
            if rest == 0 {
                return None;
            }
            let place = rest.trailing_zeros() as usize;
            rest &= rest - 1;
            Some(place)
        })
    }
}

#[derive(Clone, Copy, Default, PartialEq, Eq, Debug)]
pub struct Thread {
    pub living: bool,
    pub virtual_time: u32,
}

/// The items of a channel are the item places that it holds; an item is
/// present if one channel holds its place.
#[derive(Clone, Copy, Default, PartialEq, Eq, Debug)]
pub struct Channel {
    pub made: bool,
    pub items: Places,
}

/// "For each of the 64 item places a connection remembers two yes-or-no
/// facts, open and consumed".
#[derive(Clone, Copy, Default, PartialEq, Eq, Debug)]
pub struct Connection {
    pub attached: bool,
    pub input: bool,
    pub thread: u32,
    pub channel: u32,
    pub mark: u32,
    pub open: Places,
    pub consumed: Places,
}

/// "An item carries a ticket, any 64-bit unsigned number."
#[derive(Clone, Copy, Default, PartialEq, Eq, Debug)]
pub struct Item {
    pub timestamp: u32,
    pub ticket: u64,
}

/// "A free place holds zeros only": it is the default of its kind.
#[derive(Clone, PartialEq, Eq, Debug)]
pub struct Desk {
    pub threads: [Thread; THREADS],
    pub channels: [Channel; CHANNELS],
    pub connections: [Connection; CONNECTIONS],
    pub items: [Item; ITEMS],
}

fn accepted(value: u64, time: u32) -> Answer {
    Answer {
        code: 0,
        value,
        time,
    }
}

/// "A refusal answers value 0 and time 0, except 12".
fn refused(code: u32) -> Answer {
    Answer {
        code,
        value: 0,
        time: 0,
    }
}

/// The calls. "Refusals are tested in the order written here."
impl Desk {
    /// "A fresh desk has thread 0 with virtual time 0 and nothing else."
    pub fn fresh() -> Desk {
        let mut desk = Desk {
            threads: [Thread::default(); THREADS],
            channels: [Channel::default(); CHANNELS],
            connections: [Connection::default(); CONNECTIONS],
            items: [Item::default(); ITEMS],
        };
        desk.threads[0].living = true;
        desk
    }

    /// "channel (thread) | 1, 9 | value its number, time 0".
    pub fn channel(&mut self, thread: u32) -> Answer {
        if !self.is_living(thread) {
            return refused(1);
        }
        // "takes the lowest free place"
        let Some(number) = self.channels.iter().position(|place| !place.made) else {
            return refused(9);
        };
        self.channels[number].made = true;
        accepted(number as u64, 0)
    }

    /// "new thread (thread, virtual time) | 1, 6, 9 | value its number, time 0".
    pub fn new_thread(&mut self, thread: u32, virtual_time: u32) -> Answer {
        if !self.is_living(thread) {
            return refused(1);
        }
        // "Put, set and new thread need a time not below the caller's visible time (6)."
        if virtual_time < self.visible(thread) {
            return refused(6);
        }
        // "takes the lowest free place"
        let Some(number) = self.threads.iter().position(|place| !place.living) else {
            return refused(9);
        };
        self.threads[number] = Thread {
            living: true,
            virtual_time,
        };
        accepted(number as u64, 0)
    }

    /// "attach input (thread, channel) | 1, 2, 9 | mark is the thread's
    /// visible time; value the number, time the mark".
    pub fn attach_input(&mut self, thread: u32, channel: u32) -> Answer {
        self.attach(thread, channel, true)
    }

    /// "attach output (thread, channel) | 1, 2, 9 | mark 0, never used; value
    /// the number, time 0".
    pub fn attach_output(&mut self, thread: u32, channel: u32) -> Answer {
        self.attach(thread, channel, false)
    }

    fn attach(&mut self, thread: u32, channel: u32, input: bool) -> Answer {
        if !self.is_living(thread) {
            return refused(1);
        }
        if !self.is_channel(channel) {
            return refused(2);
        }
        // "takes the lowest free place"
        let Some(number) = self.connections.iter().position(|place| !place.attached) else {
            return refused(9);
        };
        let mark = if input { self.visible(thread) } else { 0 };
        self.connections[number] = Connection {
            attached: true,
            input,
            thread,
            channel,
            mark,
            open: Places::default(),
            consumed: Places::default(),
        };
        accepted(number as u64, mark)
    }

    /// "detach (thread, connection) | 1, 3 | place freed; 0, 0".
    pub fn detach(&mut self, thread: u32, connection: u32) -> Answer {
        if !self.is_living(thread) {
            return refused(1);
        }
        if !self.is_connection_of(thread, connection) {
            return refused(3);
        }
        self.connections[connection as usize] = Connection::default();
        accepted(0, 0)
    }

    /// "end (thread) | 1 | its connections and its place freed; items stay; 0, 0".
    pub fn end(&mut self, thread: u32) -> Answer {
        if !self.is_living(thread) {
            return refused(1);
        }
        for connection in &mut self.connections {
            if connection.attached && connection.thread == thread {
                *connection = Connection::default();
            }
        }
        self.threads[thread as usize] = Thread::default();
        accepted(0, 0)
    }

    /// "set (thread, virtual time) | 1, 6 | up or down; 0, 0".
    pub fn set(&mut self, thread: u32, virtual_time: u32) -> Answer {
        if !self.is_living(thread) {
            return refused(1);
        }
        if virtual_time < self.visible(thread) {
            return refused(6);
        }
        self.threads[thread as usize].virtual_time = virtual_time;
        accepted(0, 0)
    }

    /// "put (thread, connection, timestamp, ticket) | 1, 3, 4, 5, 6, 7, 8 | 0, 0".
    pub fn put(&mut self, thread: u32, connection: u32, timestamp: u32, ticket: u64) -> Answer {
        if !self.is_living(thread) {
            return refused(1);
        }
        if !self.is_connection_of(thread, connection) {
            return refused(3);
        }
        if self.connections[connection as usize].input {
            return refused(4);
        }
        if timestamp == NEVER {
            return refused(5);
        }
        if timestamp < self.visible(thread) {
            return refused(6);
        }
        let channel = self.connections[connection as usize].channel as usize;
        if self.place_of(channel, timestamp).is_some() {
            return refused(7);
        }
        // "takes the lowest free place"; code 8 is "64 items present"
        let Some(place) = self.present().lowest_free() else {
            return refused(8);
        };
        self.items[place] = Item { timestamp, ticket };
        self.channels[channel].items.add(place);
        accepted(0, 0)
    }

    /// "get (thread, connection, which) | 1, 3, 4, 5, 10 | item becomes OPEN;
    /// ticket, timestamp". "A get looks at no virtual time".
    pub fn get(&mut self, thread: u32, connection: u32, which: Which) -> Answer {
        if !self.is_living(thread) {
            return refused(1);
        }
        if !self.is_connection_of(thread, connection) {
            return refused(3);
        }
        if !self.connections[connection as usize].input {
            return refused(4);
        }
        // "Only a named one can meet 5."
        if which == Which::Named(NEVER) {
            return refused(5);
        }
        let Some(place) = self.find_unseen(&self.connections[connection as usize], which) else {
            return refused(10);
        };
        // "a get sets open"
        self.connections[connection as usize].open.add(place);
        accepted(self.items[place].ticket, self.items[place].timestamp)
    }

    /// "consume (thread, connection, timestamp) | 1, 3, 4, 5, 11 | OPEN
    /// becomes CONSUMED; 0, 0".
    pub fn consume(&mut self, thread: u32, connection: u32, timestamp: u32) -> Answer {
        if !self.is_living(thread) {
            return refused(1);
        }
        if !self.is_connection_of(thread, connection) {
            return refused(3);
        }
        if !self.connections[connection as usize].input {
            return refused(4);
        }
        if timestamp == NEVER {
            return refused(5);
        }
        let Some(place) = self.find_open(&self.connections[connection as usize], timestamp) else {
            return refused(11);
        };
        // "a consume by name clears open and sets consumed". The mark stays:
        // "An item consumed by name does not move it."
        self.connections[connection as usize].open.remove(place);
        self.connections[connection as usize].consumed.add(place);
        accepted(0, 0)
    }

    /// "consume until (thread, connection, timestamp) | 1, 3, 4, 5 | mark
    /// becomes the larger of itself and timestamp + 1; 0, 0".
    pub fn consume_until(&mut self, thread: u32, connection: u32, timestamp: u32) -> Answer {
        if !self.is_living(thread) {
            return refused(1);
        }
        if !self.is_connection_of(thread, connection) {
            return refused(3);
        }
        if !self.connections[connection as usize].input {
            return refused(4);
        }
        if timestamp == NEVER {
            return refused(5);
        }
        // "A raised mark leaves them as they are": the facts stay.
        let mark = &mut self.connections[connection as usize].mark;
        *mark = (*mark).max(timestamp + 1);
        accepted(0, 0)
    }

    /// "weak sweep": "A sweep takes its bound."
    pub fn weak_sweep(&mut self, slice: &mut [u64]) -> Answer {
        self.sweep(self.smallest_weak(), slice)
    }

    /// "strong sweep": "A sweep takes its bound."
    pub fn strong_sweep(&mut self, slice: &mut [u64]) -> Answer {
        self.sweep(self.smallest_strong(), slice)
    }

    fn sweep(&mut self, bound: u32, slice: &mut [u64]) -> Answer {
        // "Every present item with a smaller timestamp leaves the desk."
        let mut leaving = Places::default();
        for place in self.present().each() {
            if self.items[place].timestamp < bound {
                leaving.add(place);
            }
        }
        // 12 is "slice shorter than the items to hand back"; its "value is
        // the number of items to hand back".
        let number = leaving.count();
        if slice.len() < number {
            return Answer {
                code: 12,
                value: number as u64,
                time: 0,
            };
        }
        self.hand_back(leaving, slice);
        self.clear(leaving);
        // "On every input connection the mark then becomes the larger of
        // itself and the bound."
        for connection in &mut self.connections {
            if connection.attached && connection.input {
                connection.mark = connection.mark.max(bound);
            }
        }
        accepted(number as u64, bound)
    }

    /// "Tickets go to the front of the slice by channel number, then
    /// timestamp; the rest of the slice is untouched."
    fn hand_back(&self, leaving: Places, slice: &mut [u64]) {
        let mut filled = 0;
        for channel in &self.channels {
            let mut order = [0; ITEMS];
            let mut number = 0;
            for place in channel.items.each() {
                if leaving.has(place) {
                    order[number] = place;
                    number += 1;
                }
            }
            order[..number].sort_unstable_by_key(|place| self.items[*place].timestamp);
            for place in &order[..number] {
                slice[filled] = self.items[*place].ticket;
                filled += 1;
            }
        }
    }

    /// "When an item leaves the desk, both are cleared for its place on every
    /// connection." "A free place holds zeros only."
    fn clear(&mut self, leaving: Places) {
        for connection in &mut self.connections {
            connection.open = connection.open.without(leaving);
            connection.consumed = connection.consumed.without(leaving);
        }
        for channel in &mut self.channels {
            channel.items = channel.items.without(leaving);
        }
        for place in leaving.each() {
            self.items[place] = Item::default();
        }
    }
}

/// "Questions without effect, refused by the same codes".
impl Desk {
    /// "a thread's visible time (1)"; it "stands in the time, with value 0".
    pub fn visible_time(&self, thread: u32) -> Answer {
        if !self.is_living(thread) {
            return refused(1);
        }
        accepted(0, self.visible(thread))
    }

    /// The weak one of "both bounds"; it "stands in the time, with value 0".
    pub fn weak_bound(&self) -> Answer {
        accepted(0, self.smallest_weak())
    }

    /// The strong one of "both bounds"; it "stands in the time, with value 0".
    pub fn strong_bound(&self) -> Answer {
        accepted(0, self.smallest_strong())
    }

    /// "a timestamp's state on an input connection (3 where there is no such
    /// connection, 4, 5; no thread is named)".
    pub fn state(&self, connection: u32, timestamp: u32) -> Answer {
        if !self.is_connection(connection) {
            return refused(3);
        }
        if !self.connections[connection as usize].input {
            return refused(4);
        }
        if timestamp == NEVER {
            return refused(5);
        }
        let state = self.state_on(&self.connections[connection as usize], timestamp);
        accepted(state as u64, 0)
    }

    /// "the number of items stands in the value", "with time 0".
    pub fn items_present(&self) -> Answer {
        accepted(self.present().count() as u64, 0)
    }
}

/// What the calls and the questions look up.
impl Desk {
    /// Code 1 is "no such living thread".
    fn is_living(&self, thread: u32) -> bool {
        (thread as usize) < THREADS && self.threads[thread as usize].living
    }

    /// Code 2 is "no such channel".
    fn is_channel(&self, channel: u32) -> bool {
        (channel as usize) < CHANNELS && self.channels[channel as usize].made
    }

    fn is_connection(&self, connection: u32) -> bool {
        (connection as usize) < CONNECTIONS && self.connections[connection as usize].attached
    }

    /// Code 3 is "no such connection, or another thread's".
    fn is_connection_of(&self, thread: u32, connection: u32) -> bool {
        self.is_connection(connection) && self.connections[connection as usize].thread == thread
    }

    /// The places of all items, in all channels together.
    fn present(&self) -> Places {
        let mut present = Places::default();
        for channel in &self.channels {
            present = present.with(channel.items);
        }
        present
    }

    /// The place of the channel's item with this timestamp, if it has one.
    fn place_of(&self, channel: usize, timestamp: u32) -> Option<usize> {
        let items = self.channels[channel].items;
        items
            .each()
            .find(|place| self.items[*place].timestamp == timestamp)
    }

    /// "For a timestamp on it: CONSUMED if below the mark; otherwise ABSENT
    /// if the channel has no such item; otherwise UNSEEN, OPEN or CONSUMED,
    /// as it was got and consumed by name."
    fn state_on(&self, connection: &Connection, timestamp: u32) -> State {
        if timestamp < connection.mark {
            return State::Consumed;
        }
        match self.place_of(connection.channel as usize, timestamp) {
            None => State::Absent,
            Some(place) if connection.consumed.has(place) => State::Consumed,
            Some(place) if connection.open.has(place) => State::Open,
            Some(_) => State::Unseen,
        }
    }

    /// The place of the item with this timestamp, if it is OPEN on the
    /// connection: not below the mark, and got but not consumed by name.
    fn find_open(&self, connection: &Connection, timestamp: u32) -> Option<usize> {
        if timestamp < connection.mark {
            return None;
        }
        let place = self.place_of(connection.channel as usize, timestamp)?;
        connection.open.has(place).then_some(place)
    }

    /// "'Which' is earliest, latest or one named timestamp, among UNSEEN
    /// items only": present, not below the mark, and neither fact set.
    fn find_unseen(&self, connection: &Connection, which: Which) -> Option<usize> {
        let items = self.channels[connection.channel as usize].items;
        let mut found: Option<usize> = None;
        for place in items
            .without(connection.open)
            .without(connection.consumed)
            .each()
        {
            let timestamp = self.items[place].timestamp;
            if timestamp < connection.mark {
                continue;
            }
            let fits = match (which, found) {
                (Which::Named(named), _) => timestamp == named,
                (_, None) => true,
                (Which::Earliest, Some(other)) => timestamp < self.items[other].timestamp,
                (Which::Latest, Some(other)) => timestamp > self.items[other].timestamp,
            };
            if fits {
                found = Some(place);
            }
        }
        found
    }

    /// "Visible time of a thread: the smallest of its virtual time and of all
    /// timestamps OPEN on its input connections."
    fn visible(&self, thread: u32) -> u32 {
        let mut smallest = self.threads[thread as usize].virtual_time;
        for connection in &self.connections {
            if !connection.attached || !connection.input || connection.thread != thread {
                continue;
            }
            for place in connection.open.each() {
                let timestamp = self.items[place].timestamp;
                // An item below the mark is CONSUMED, whatever the facts say.
                if timestamp >= connection.mark {
                    smallest = smallest.min(timestamp);
                }
            }
        }
        smallest
    }

    /// "With no living thread both bounds are never."
    fn smallest_virtual_time(&self) -> u32 {
        let mut smallest = NEVER;
        for thread in &self.threads {
            if thread.living {
                smallest = smallest.min(thread.virtual_time);
            }
        }
        smallest
    }

    /// "Weak bound: the smallest of all virtual times of living threads and
    /// all keep times." "Keep time of an input connection: its mark."
    fn smallest_weak(&self) -> u32 {
        let mut smallest = self.smallest_virtual_time();
        for connection in &self.connections {
            if connection.attached && connection.input {
                smallest = smallest.min(connection.mark);
            }
        }
        smallest
    }

    /// "Strong bound: the smallest of all virtual times and of all timestamps
    /// of present items that are UNSEEN or OPEN on some input connection."
    fn smallest_strong(&self) -> u32 {
        let mut smallest = self.smallest_virtual_time();
        for connection in &self.connections {
            if !connection.attached || !connection.input {
                continue;
            }
            // UNSEEN or OPEN: present, not consumed by name, not below the mark.
            let items = self.channels[connection.channel as usize].items;
            for place in items.without(connection.consumed).each() {
                let timestamp = self.items[place].timestamp;
                if timestamp >= connection.mark {
                    smallest = smallest.min(timestamp);
                }
            }
        }
        smallest
    }
}
