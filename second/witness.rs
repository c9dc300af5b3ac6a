//! A desk under watch: after each call it is checked that the answer, the desk
//! and the slice are the expected ones, and that what has to hold of every
//! desk holds. Words in quotation marks are document 01's.

use crate::desk::{Answer, Connection, Desk, Item, Thread, ITEMS};
use crate::expected::{bound, expected, inputs, items, living, visible};
use crate::line::{self, Call};
use std::collections::{HashMap, HashSet};

/// What the slice holds before a call.
const UNTOUCHED: u64 = 0x5555_5555_5555_5555;

pub struct Witness {
    pub desk: Desk,
    /// Each accepted pair of channel and timestamp.
    accepted: HashSet<(u32, u32)>,
    handed_back: u64,
    weak: u32,
    strong: u32,
    /// Timestamps whose states are watched, and their states on each input connection.
    watched: Vec<u32>,
    states: HashMap<(u32, u32), u64>,
}

impl Witness {
    pub fn new(watched: Vec<u32>) -> Witness {
        Witness {
            desk: Desk::fresh(),
            accepted: HashSet::new(),
            handed_back: 0,
            weak: 0,
            strong: 0,
            watched,
            states: HashMap::new(),
        }
    }

    /// Makes the call, with a slice of so many places, and checks everything.
    pub fn perform(&mut self, call: Call, places: usize) -> Answer {
        let before = self.desk.clone();
        let mut slice = vec![UNTOUCHED; places];
        let (answer, desk, handed) = expected(&before, call, &slice);
        assert_eq!(
            line::perform(&mut self.desk, call, &mut slice),
            answer,
            "{call:?}"
        );
        assert_eq!(self.desk, desk, "{call:?}");
        assert_eq!(slice, handed, "{call:?}");
        if answer.code == 0 {
            self.count(&before, call, answer);
        }
        self.check_accounts();
        self.check_free_places();
        self.check_facts();
        self.check_bounds();
        self.check_states(call);
        answer
    }

    /// Keeps the accounts. "No pair of channel and timestamp is accepted twice."
    fn count(&mut self, before: &Desk, call: Call, answer: Answer) {
        match call {
            Call::Put(_, connection, timestamp, _) => {
                let channel = before.connections[connection as usize].channel;
                assert!(self.accepted.insert((channel, timestamp)), "{call:?}");
            }
            Call::WeakSweep | Call::StrongSweep => self.handed_back += answer.value,
            _ => {}
        }
    }

    /// "the accepted puts number the items present plus all tickets handed back".
    fn check_accounts(&self) {
        let present = self.desk.items_present().value;
        assert_eq!(self.accepted.len() as u64, present + self.handed_back);
        assert_eq!(items(&self.desk).len() as u64, present);
    }

    /// "A free place holds zeros only."
    fn check_free_places(&self) {
        let threads = self.desk.threads.iter();
        assert!(threads
            .filter(|place| !place.living)
            .all(|place| *place == Thread::default()));
        let connections = self.desk.connections.iter();
        assert!(connections
            .filter(|place| !place.attached)
            .all(|place| *place == Connection::default()));
        let mut used = 0;
        for channel in &self.desk.channels {
            assert!(channel.made || channel.items.bits == 0);
            assert_eq!(used & channel.items.bits, 0);
            used |= channel.items.bits;
        }
        for place in 0..ITEMS {
            assert!(used & (1 << place) != 0 || self.desk.items[place] == Item::default());
        }
    }

    /// Facts are about present items of the connection's channel, and an item
    /// is not open and consumed at once.
    fn check_facts(&self) {
        for connection in &self.desk.connections {
            let items = self.desk.channels[connection.channel as usize].items;
            let facts = connection.open.with(connection.consumed);
            assert_eq!(facts.without(items).bits, 0);
            assert_eq!(connection.open.bits & connection.consumed.bits, 0);
            assert!(connection.input || (facts.bits == 0 && connection.mark == 0));
        }
    }

    /// Both bounds are as defined, and never fall; no thread sees below them.
    fn check_bounds(&mut self) {
        let weak = self.desk.weak_bound().time;
        let strong = self.desk.strong_bound().time;
        assert_eq!(weak, bound(&self.desk, Call::WeakSweep));
        assert_eq!(strong, bound(&self.desk, Call::StrongSweep));
        assert!(self.weak <= weak && self.strong <= strong && weak <= strong);
        for number in living(&self.desk) {
            assert!(visible(&self.desk, number) >= strong);
            assert_eq!(
                visible(&self.desk, number),
                self.desk.visible_time(number).time
            );
        }
        self.weak = weak;
        self.strong = strong;
    }

    /// On a connection, states go forward only: ABSENT, UNSEEN, OPEN, CONSUMED.
    fn check_states(&mut self, call: Call) {
        let mut states = HashMap::new();
        for connection in inputs(&self.desk) {
            for timestamp in &self.watched {
                let name = (connection, *timestamp);
                let state = self.desk.state(connection, *timestamp).value;
                // A connection that has just been attached has no past.
                let past = self.states.get(&name).copied().unwrap_or(0);
                assert!(past <= state, "{call:?}: {name:?} from {past} to {state}");
                states.insert(name, state);
            }
        }
        self.states = states;
    }
}
