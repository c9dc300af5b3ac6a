//! Chooses the lines of a random session, one after the other.
//!
//! It keeps a desk of its own beside the lines it chooses, so that most lines
//! name what is there, and a session goes deep. A seed means the same lines
//! everywhere.

use crate::desk::{Connection, Desk, State, CHANNELS, CONNECTIONS, NEVER, THREADS};
use crate::dice::Dice;
use crate::mood::{self, Mood, Plan, LETTERS};
use crate::{damage, line};

/// Until a session rises to the top, some thread keeps a visible time below this.
const ORDINARY: u32 = 4_000_000_000;

/// How often a line that would end the session too early is chosen anew.
const TRIES: usize = 40;

pub struct Writer {
    dice: Dice,
    pub desk: Desk,
    pub plan: Plan,
    mood: &'static Mood,
    /// The line being chosen, counted from 0.
    number: u64,
    /// The line at which the next mood begins.
    next_mood: u64,
}

impl Writer {
    pub fn new(seed: u64, lines: u64) -> Writer {
        let mut dice = Dice::new(seed);
        let plan = Plan::new(&mut dice, lines);
        let mood = plan.moods[0];
        Writer {
            dice,
            desk: Desk::fresh(),
            plan,
            mood,
            number: 0,
            next_mood: 0,
        }
    }

    /// The next line, already answered by the desk kept beside.
    pub fn next_line(&mut self, number: u64) -> Vec<u8> {
        self.number = number;
        self.change_mood();
        for _ in 0..TRIES {
            let line = self.candidate();
            let mut after = self.desk.clone();
            line::answer(&mut after, &line, &mut Vec::new());
            if self.may_follow(&after) {
                self.desk = after;
                return line;
            }
        }
        line::answer(&mut self.desk, b"w", &mut Vec::new());
        b"w".to_vec()
    }

    fn change_mood(&mut self) {
        if self.number == self.plan.dying {
            self.mood = &mood::DYING;
        } else if self.number == self.plan.fading {
            self.mood = &mood::FADING;
        }
        if self.number < self.next_mood || self.number >= self.plan.fading {
            return;
        }
        if self.desk.items_present().value >= 62 && self.dice.percent(50) {
            self.mood = &mood::HARVEST;
            self.next_mood = self.number + 150;
        } else {
            self.mood = self.dice.pick(&self.plan.moods);
            self.next_mood = self.number + 20 + self.dice.below(self.plan.longest_mood);
        }
    }

    /// Whether the session can still go on from this desk: until it fades,
    /// some thread must be able to put.
    pub fn may_follow(&self, after: &Desk) -> bool {
        let channels = after.channels.iter().filter(|channel| channel.made).count();
        if channels > self.plan.channels {
            return false;
        }
        if self.number >= self.plan.fading {
            return true;
        }
        let limit = if self.is_rising() {
            self.top()
        } else {
            ORDINARY
        };
        (0..THREADS as u32).any(|thread| {
            let answer = after.visible_time(thread);
            answer.code == 0 && answer.time < limit
        })
    }

    fn is_rising(&self) -> bool {
        self.number >= self.plan.rising
    }

    /// The limit of a rising session, which reaches never with the last line.
    fn top(&self) -> u32 {
        let left = u64::from(self.plan.top_room) * (self.plan.lines - self.number);
        NEVER - (left / (self.plan.lines - self.plan.rising)) as u32
    }

    fn candidate(&mut self) -> Vec<u8> {
        let letter = self.letter();
        let numbers = self.numbers(letter);
        let mut line = vec![letter];
        for number in numbers {
            line.push(b' ');
            // "Leading zeros are read."
            if self.dice.below(300) == 0 {
                line.resize(line.len() + 1 + self.dice.below(12) as usize, b'0');
            }
            line.extend_from_slice(number.to_string().as_bytes());
        }
        if self.dice.percent(self.plan.damage) {
            damage::damage(&mut self.dice, &mut line);
        }
        line
    }

    /// A letter by the weights of the mood. Above the levels of the mood a
    /// new thread mostly becomes an end, and an attach a detach.
    fn letter(&mut self) -> u8 {
        if self.mood.harvest && self.desk.strong_bound().time > self.largest_timestamp() {
            self.next_mood = self.next_mood.min(self.number + 2);
            return self.dice.pick(b"WWw");
        }
        let letter = LETTERS[self.dice.weighted(&self.mood.weights)];
        let threads = self
            .desk
            .threads
            .iter()
            .filter(|thread| thread.living)
            .count();
        let connections = self
            .desk
            .connections
            .iter()
            .filter(|place| place.attached)
            .count();
        match letter {
            b'n' if threads > self.mood.threads && self.dice.percent(80) => b'e',
            b'i' | b'o' if connections > self.mood.connections && self.dice.percent(80) => b'd',
            _ if self.dice.percent(90) => self.possible(letter),
            _ => letter,
        }
    }

    /// A call that nothing on the desk fits makes way for one that leads to it.
    fn possible(&mut self, letter: u8) -> u8 {
        let mut letter = letter;
        if letter == b'f' && self.in_state(State::Open).is_empty() {
            letter = b'g';
        }
        if b"gGx".contains(&letter) && self.in_state(State::Unseen).is_empty() {
            let inputs = self.connections(|connection| connection.input);
            letter = if inputs.len() < 2 { b'i' } else { b'p' };
        }
        if letter == b'p' && self.useful_outputs().is_empty() {
            letter = b'o';
        }
        if b"io".contains(&letter) && !self.desk.channels[0].made {
            letter = b'c';
        }
        letter
    }

    /// The output connections of threads that can put.
    fn useful_outputs(&self) -> Vec<u32> {
        self.connections(|connection| {
            !connection.input && self.desk.visible_time(connection.thread).time < NEVER
        })
    }

    pub fn numbers(&mut self, letter: u8) -> Vec<u64> {
        let numbers = match letter {
            b'c' | b'e' => vec![self.thread()],
            b'n' => self.new_thread(),
            b'i' | b'o' => self.attach(letter),
            b'd' => self.detach(),
            b's' => self.set(),
            b'p' => return self.put(),
            b'g' | b'G' => self.get(),
            b'x' => self.named(State::Unseen),
            b'f' => self.named(State::Open),
            b'u' => self.until(),
            _ => vec![],
        };
        numbers.into_iter().map(u64::from).collect()
    }
}

/// The numbers of each call.
impl Writer {
    fn new_thread(&mut self) -> Vec<u32> {
        let caller = self.thread();
        let virtual_time = if self.dice.percent(self.mood.never) {
            NEVER
        } else {
            self.time(caller)
        };
        vec![caller, virtual_time]
    }

    /// An attach: an output mostly for a thread that can put.
    fn attach(&mut self, letter: u8) -> Vec<u32> {
        let mut thread = self.thread();
        if letter == b'o' && self.desk.visible_time(thread).time == NEVER {
            thread = self.thread();
        }
        vec![thread, self.channel()]
    }

    fn detach(&mut self) -> Vec<u32> {
        let attached = self.connections(|_| true);
        self.thread_and_connection(&attached)
    }

    /// Half of all sets go to the thread that is furthest behind.
    fn set(&mut self) -> Vec<u32> {
        let mut thread = self.thread();
        if self.dice.percent(50) {
            let living =
                (0..THREADS as u32).filter(|number| self.desk.threads[*number as usize].living);
            let behind =
                living.min_by_key(|number| self.desk.threads[*number as usize].virtual_time);
            thread = behind.unwrap_or(thread);
        }
        if self.mood.harvest {
            return vec![thread, self.largest_timestamp() + 1];
        }
        if self.dice.percent(self.mood.never) {
            return vec![thread, NEVER];
        }
        let visible = self.desk.visible_time(thread).time;
        let below_top = NEVER - self.plan.top_room;
        if self.is_rising() && visible < below_top {
            return vec![thread, below_top + self.dice.below(2) as u32];
        }
        if visible < self.plan.start {
            return vec![thread, self.plan.start + self.dice.below(8) as u32];
        }
        vec![thread, self.time(thread)]
    }

    fn put(&mut self) -> Vec<u64> {
        let outputs = if self.dice.percent(92) {
            self.useful_outputs()
        } else {
            self.connections(|connection| !connection.input)
        };
        let names = self.thread_and_connection(&outputs);
        let timestamp = match self.dice.below(1000) {
            0..=1 if self.plan.early_top => NEVER - 1,
            2..=5 if self.is_rising() => NEVER - 1 - self.dice.below(5) as u32,
            6..=60 => self.present_timestamp().unwrap_or(0),
            _ => self.fresh_time(names[0], names[1]),
        };
        vec![
            names[0].into(),
            names[1].into(),
            timestamp.into(),
            self.ticket(),
        ]
    }

    /// Most gets name a connection that has an UNSEEN item.
    fn get(&mut self) -> Vec<u32> {
        let mut inputs = self.connections(|connection| connection.input);
        if self.dice.percent(85) {
            let unseen = self.in_state(State::Unseen);
            inputs.retain(|number| unseen.iter().any(|(connection, _)| connection == number));
        }
        self.thread_and_connection(&inputs)
    }

    /// A get or a consume by name: mostly of an item in the state that it needs.
    pub fn named(&mut self, state: State) -> Vec<u32> {
        let items = self.in_state(state);
        if items.is_empty() || self.dice.percent(15) {
            let inputs = self.connections(|connection| connection.input);
            let mut numbers = self.thread_and_connection(&inputs);
            let present = self.timestamp_on(numbers[1]).unwrap_or(0);
            let other = self.time(numbers[0]);
            numbers.push(if self.dice.percent(70) {
                present
            } else {
                other
            });
            return numbers;
        }
        let (connection, timestamp) = if self.dice.percent(40) {
            *items.iter().min_by_key(|(_, timestamp)| timestamp).unwrap()
        } else {
            self.dice.pick(&items)
        };
        let mut numbers = self.thread_and_connection(&[connection]);
        numbers.push(if self.dice.percent(3) {
            NEVER
        } else {
            timestamp
        });
        numbers
    }

    /// A consume until: mostly of the earliest item that holds a bound back.
    fn until(&mut self) -> Vec<u32> {
        let inputs = self.connections(|connection| connection.input);
        let mut held = self.in_state(State::Unseen);
        held.extend(self.in_state(State::Open));
        if (self.mood.harvest || self.dice.percent(60)) && !held.is_empty() {
            let (connection, timestamp) =
                *held.iter().min_by_key(|(_, timestamp)| timestamp).unwrap();
            let mut numbers = self.thread_and_connection(&[connection]);
            numbers.push(if self.mood.harvest {
                self.largest_timestamp()
            } else {
                timestamp
            });
            return numbers;
        }
        let mut numbers = self.thread_and_connection(&inputs);
        let mark = self.desk.connections[numbers[1] as usize % CONNECTIONS].mark;
        let bound = self.desk.strong_bound().time;
        let ahead = bound.saturating_add(self.dice.below(self.mood.spread.into()) as u32);
        numbers.push(match self.dice.below(100) {
            0..=3 => NEVER,
            4 => NEVER - 1,
            5..=14 => mark.saturating_sub(1),
            15..=24 => mark,
            25..=54 => self.present_timestamp().unwrap_or(ahead),
            _ => ahead,
        });
        numbers
    }
}

/// Single numbers.
impl Writer {
    /// A living thread, or now and then any number.
    pub fn thread(&mut self) -> u32 {
        let living: Vec<u32> = (0..THREADS as u32)
            .filter(|number| self.desk.threads[*number as usize].living)
            .collect();
        if living.is_empty() || self.dice.percent(self.mood.wrong) {
            return self.strange(THREADS);
        }
        self.dice.pick(&living)
    }

    /// A channel that was made, the lower ones more often, or now and then any number.
    fn channel(&mut self) -> u32 {
        let made = self
            .desk
            .channels
            .iter()
            .filter(|channel| channel.made)
            .count() as u64;
        if made == 0 || self.dice.percent(self.mood.wrong) {
            return self.strange(CHANNELS);
        }
        let one = self.dice.below(made);
        let other = self.dice.below(made);
        one.min(other) as u32
    }

    /// A number that need not name anything.
    fn strange(&mut self, places: usize) -> u32 {
        let places = places as u64;
        match self.dice.below(12) {
            0..=4 => self.dice.below(places) as u32,
            5 => places as u32,
            6 => (places + self.dice.below(70)) as u32,
            7 => NEVER,
            8 => NEVER - self.dice.below(40) as u32,
            9 => self.dice.next() as u32,
            // A small number and one higher bit.
            _ => (self.dice.below(places) | 1 << self.dice.below(32)) as u32,
        }
    }

    /// The numbers of the attached connections that pass the test.
    fn connections(&self, test: impl Fn(&Connection) -> bool) -> Vec<u32> {
        let numbers = 0..CONNECTIONS as u32;
        numbers
            .filter(|number| {
                let connection = &self.desk.connections[*number as usize];
                connection.attached && test(connection)
            })
            .collect()
    }

    /// One of these connections with its thread; now and then a connection of
    /// the other direction, another thread, or any number.
    fn thread_and_connection(&mut self, connections: &[u32]) -> Vec<u32> {
        let wrong = self.dice.percent(2 * self.mood.wrong);
        let kind = if wrong { self.dice.below(4) } else { 4 };
        if connections.is_empty() || kind == 0 {
            return vec![self.thread(), self.strange(CONNECTIONS)];
        }
        let mut connection = self.dice.pick(connections);
        if kind == 1 {
            let input = self.desk.connections[connection as usize].input;
            let others = self.connections(|other| other.input != input);
            connection = if others.is_empty() {
                connection
            } else {
                self.dice.pick(&others)
            };
        }
        let owner = self.desk.connections[connection as usize].thread;
        match kind {
            2 => vec![self.thread(), connection],
            3 => vec![self.strange(THREADS), connection],
            _ => vec![owner, connection],
        }
    }

    /// All items that are UNSEEN, or all that are OPEN, each with its connection.
    fn in_state(&self, state: State) -> Vec<(u32, u32)> {
        let mut found = Vec::new();
        for number in self.connections(|connection| connection.input) {
            let connection = &self.desk.connections[number as usize];
            let items = self.desk.channels[connection.channel as usize].items;
            let unseen = items.without(connection.open).without(connection.consumed);
            let places = if state == State::Unseen {
                unseen
            } else {
                connection.open
            };
            for place in places.each() {
                let timestamp = self.desk.items[place].timestamp;
                if timestamp >= connection.mark {
                    found.push((number, timestamp));
                }
            }
        }
        found
    }

    /// The timestamps of all present items.
    fn timestamps(&self) -> Vec<u32> {
        let mut present = Vec::new();
        for channel in &self.desk.channels {
            present.extend(
                channel
                    .items
                    .each()
                    .map(|place| self.desk.items[place].timestamp),
            );
        }
        present
    }

    /// The timestamp of some present item.
    fn present_timestamp(&mut self) -> Option<u32> {
        let present = self.timestamps();
        if present.is_empty() {
            return None;
        }
        Some(self.dice.pick(&present))
    }

    /// The timestamp of some item in the connection's channel, in any state.
    fn timestamp_on(&mut self, connection: u32) -> Option<u32> {
        let channel = self.desk.connections[connection as usize % CONNECTIONS].channel;
        let places: Vec<usize> = self.desk.channels[channel as usize].items.each().collect();
        if places.is_empty() {
            return None;
        }
        Some(self.desk.items[self.dice.pick(&places)].timestamp)
    }

    /// The largest timestamp of a present item, those near the top left out
    /// until the session rises.
    fn largest_timestamp(&self) -> u32 {
        let limit = if self.is_rising() { NEVER } else { ORDINARY };
        self.timestamps()
            .into_iter()
            .filter(|timestamp| *timestamp < limit)
            .max()
            .unwrap_or(0)
    }

    /// A time around the thread's visible time, mostly not below it.
    fn time(&mut self, thread: u32) -> u32 {
        let visible = self.desk.visible_time(thread).time;
        let spread = u64::from(self.mood.spread);
        let room = u64::from(NEVER - visible).max(1);
        match self.dice.below(100) {
            0..=3 => visible.saturating_sub(1 + self.dice.below(3) as u32),
            4 => NEVER,
            5 => self.dice.below(20) as u32,
            6..=12 => visible,
            13..=14 => visible + self.dice.below(room.min(16 * spread)) as u32,
            _ => visible + self.dice.below(room.min(spread)) as u32,
        }
    }

    /// Such a time, mostly one that the connection's channel does not have yet.
    fn fresh_time(&mut self, thread: u32, connection: u32) -> u32 {
        let connection = self.desk.connections[connection as usize % CONNECTIONS];
        let items = self.desk.channels[connection.channel as usize].items;
        let mut time = self.time(thread);
        for _ in 0..4 {
            if items
                .each()
                .all(|place| self.desk.items[place].timestamp != time)
            {
                break;
            }
            time = self.time(thread);
        }
        time
    }

    /// "any 64-bit unsigned number. Two items may carry equal tickets."
    fn ticket(&mut self) -> u64 {
        match self.dice.below(10) {
            0 => self.dice.below(3),
            1 => u64::MAX - self.dice.below(3),
            2 => (1 << 32) - 1 + self.dice.below(3),
            3..=5 => self.dice.below(1000),
            _ => self.dice.next() >> self.dice.below(64),
        }
    }
}
