//! Random calls made directly on the desk, each under watch:
//! `properties RUNS CALLS`. Prints how often each code was met, and fails if
//! one of 0 to 12 was not.

mod desk;
mod dice;
mod expected;
mod line;
mod witness;

use desk::{Which, NEVER};
use dice::Dice;
use line::Call;
use std::process::ExitCode;
use witness::Witness;

/// How the calls of one run are chosen.
struct Run {
    dice: Dice,
    witness: Witness,
    /// No thread sees below this time.
    base: u32,
    /// Times lie up to so far above the caller's visible time.
    spread: u64,
    /// Numbers of threads and channels are below these, and now and then above.
    threads: u64,
    channels: u64,
}

fn main() -> ExitCode {
    let arguments: Vec<u64> = std::env::args()
        .skip(1)
        .map_while(|word| word.parse().ok())
        .collect();
    let [runs, calls] = arguments[..] else {
        eprintln!("usage: properties RUNS CALLS");
        return ExitCode::from(2);
    };
    let mut counts = [0u64; 13];
    for seed in 1..=runs {
        let mut run = Run::new(seed);
        for _ in 0..calls {
            let call = run.call();
            let places = run.places();
            counts[run.witness.perform(call, places).code as usize] += 1;
        }
    }
    for (code, count) in counts.iter().enumerate() {
        println!("code {code:>2}: {count:>7} calls");
    }
    println!("{} calls under watch", runs * calls);
    if counts.contains(&0) {
        return ExitCode::FAILURE;
    }
    ExitCode::SUCCESS
}

impl Run {
    fn new(seed: u64) -> Run {
        let mut dice = Dice::new(seed);
        let base = dice.pick(&[0, 0, (1 << 31) - 9, NEVER - 24]);
        let watched = (base..=base + 23).collect();
        let mut run = Run {
            witness: Witness::new(watched),
            base,
            spread: dice.pick(&[3, 6, 12, 80]),
            threads: dice.pick(&[2, 4, 17]),
            channels: dice.pick(&[1, 2, 9]),
            dice,
        };
        for call in [
            Call::Set(0, base),
            Call::Channel(0),
            Call::AttachInput(0, 0),
            Call::AttachOutput(0, 0),
        ] {
            run.witness.perform(call, 0);
        }
        run
    }

    fn call(&mut self) -> Call {
        let caller = self.thread();
        let (writer, output) = self.thread_and_connection(false);
        let (reader, input) = self.thread_and_connection(true);
        match self.dice.below(64) {
            0..=1 => Call::Channel(caller),
            2..=5 => Call::NewThread(caller, self.time(caller)),
            6..=9 => Call::AttachInput(caller, self.number(self.channels)),
            10..=12 => Call::AttachOutput(caller, self.number(self.channels)),
            13..=14 => Call::Detach(reader, input),
            15 => Call::Detach(writer, output),
            16 => self.end(caller),
            17..=22 => Call::Set(caller, self.time(caller)),
            23..=37 => Call::Put(writer, output, self.time(writer), self.ticket()),
            38..=42 => Call::Get(reader, input, Which::Earliest),
            43..=45 => Call::Get(reader, input, Which::Latest),
            46..=49 => Call::Get(reader, input, Which::Named(self.time(reader))),
            50..=55 => self.consume(reader, input),
            56..=59 => Call::ConsumeUntil(reader, input, self.time(reader)),
            60 => Call::WeakSweep,
            61 => Call::StrongSweep,
            _ => self.sweep_when_full(),
        }
    }

    /// A strong sweep; where times are far apart, only when the desk is full.
    fn sweep_when_full(&mut self) -> Call {
        let present = self.witness.desk.items_present().value;
        if self.spread < 10 || present == 64 {
            Call::StrongSweep
        } else {
            self.wait()
        }
    }

    /// A call without effect on what threads and connections see.
    fn wait(&mut self) -> Call {
        Call::Channel(self.thread())
    }

    /// The last thread mostly stays.
    fn end(&mut self, thread: u32) -> Call {
        let living = self
            .witness
            .desk
            .threads
            .iter()
            .filter(|place| place.living)
            .count();
        if living <= 1 && self.dice.percent(90) {
            return self.wait();
        }
        Call::End(thread)
    }

    /// Mostly a consume of the earliest item that the connection has open.
    fn consume(&mut self, thread: u32, connection: u32) -> Call {
        let desk = &self.witness.desk;
        let open = desk.connections[connection as usize % 32].open;
        let earliest = open.each().map(|place| desk.items[place].timestamp).min();
        match earliest {
            Some(timestamp) if self.dice.percent(80) => {
                Call::Consume(thread, connection, timestamp)
            }
            _ => Call::Consume(thread, connection, self.time(thread)),
        }
    }

    fn number(&mut self, limit: u64) -> u32 {
        if self.dice.percent(2) {
            return self.dice.pick(&[8, 16, 32, 64, NEVER]);
        }
        self.dice.below(limit) as u32
    }

    /// A living thread, or now and then any number.
    fn thread(&mut self) -> u32 {
        let threads = self.witness.desk.threads;
        let living: Vec<u32> = (0..16)
            .filter(|number| threads[*number as usize].living)
            .collect();
        if living.is_empty() || self.dice.percent(6) {
            return self.number(self.threads);
        }
        self.dice.pick(&living)
    }

    /// A connection, mostly of this direction and with the thread that has it.
    fn thread_and_connection(&mut self, input: bool) -> (u32, u32) {
        let connections = self.witness.desk.connections;
        let fitting: Vec<u32> = (0..32)
            .filter(|number| connections[*number as usize].attached)
            .filter(|number| connections[*number as usize].input == input)
            .collect();
        if fitting.is_empty() || self.dice.percent(8) {
            return (self.thread(), self.number(33));
        }
        let connection = self.dice.pick(&fitting);
        if self.dice.percent(5) {
            return (self.thread(), connection);
        }
        (connections[connection as usize].thread, connection)
    }

    fn time(&mut self, thread: u32) -> u32 {
        let visible = self.witness.desk.visible_time(thread).time.max(self.base);
        match self.dice.below(30) {
            0 => NEVER,
            1 => visible.saturating_sub(1),
            2 => self.base + self.dice.below(24) as u32,
            _ => visible.saturating_add(self.dice.below(self.spread) as u32),
        }
    }

    fn ticket(&mut self) -> u64 {
        let shift = self.dice.below(64);
        self.dice.next() >> shift
    }

    fn places(&mut self) -> usize {
        self.dice.pick(&[0, 1, 2, 3, 5, 9, 20, 63, 64, 64, 64, 70])
    }
}
