//! Makes a door script and the answers that it must get: `door SEED LINES SCRIPT ANSWERS`.
//!
//! A door script is wider than a session: it has several desks, questions, and
//! slices of any length; hosts/README.md says how its lines are written. As
//! with a session, desks kept beside lead it, and a seed means the same lines
//! everywhere.

mod damage;
mod desk;
mod dice;
mod line;
mod mood;
mod script;
mod writer;

use desk::{Answer, State};
use dice::Dice;
use line::Call;
use mood::LETTERS;
use std::fmt::Write;
use writer::Writer;

const DESKS: usize = 8;
/// The last of the desks live recklessly.
const RECKLESS: usize = 2;
const LONGEST_SLICE: u64 = 70;

/// What a slice holds before a sweep: this and the number of the place.
const UNTOUCHED: u64 = 7_000_000_000_000_000_000;

/// The numbers at which a table ends or a width nearly does.
const EDGES: [u64; 11] = [0, 1, 7, 8, 15, 16, 31, 32, 63, 64, 255];
/// The numbers at which times end, or seem to.
const HIGHEST: [u64; 3] = [1 << 31, (1 << 32) - 2, (1 << 32) - 1];

/// A desk from one fresh state to the next.
struct Life {
    writer: Writer,
    /// So many lines were chosen by the writer, of so many.
    number: u64,
    lines: u64,
    /// Whether it leaps to the edges, though nothing may be left to do there.
    reckless: bool,
}

impl Life {
    fn new(dice: &mut Dice, reckless: bool) -> Life {
        let lines = if reckless {
            5 + dice.below(30)
        } else {
            dice.pick(&[60, 400, 2000, 6000])
        };
        let mut writer = Writer::new(dice.next(), lines);
        writer.plan.damage = 0;
        Life {
            writer,
            number: 0,
            lines,
            reckless,
        }
    }
}

struct Script {
    dice: Dice,
    lives: Vec<Life>,
    /// The desk that the lines now speak of.
    current: usize,
    lines: String,
    answers: String,
}

fn main() -> std::io::Result<()> {
    let words: Vec<String> = std::env::args().skip(1).collect();
    let (Some(seed), Some(lines), Some(script), Some(answers), 4) = (
        words.first().and_then(|word| word.parse().ok()),
        words.get(1).and_then(|word| word.parse().ok()),
        words.get(2),
        words.get(3),
        words.len(),
    ) else {
        eprintln!("usage: door SEED LINES SCRIPT ANSWERS");
        std::process::exit(2);
    };
    let written = Script::new(seed).with_lines(lines);
    std::fs::write(script, written.lines)?;
    std::fs::write(answers, written.answers)
}

impl Script {
    fn new(seed: u64) -> Script {
        let mut dice = Dice::new(seed);
        Script {
            lives: (0..DESKS)
                .map(|number| Life::new(&mut dice, number >= DESKS - RECKLESS))
                .collect(),
            dice,
            current: 0,
            lines: String::new(),
            answers: String::new(),
        }
    }

    fn with_lines(mut self, lines: u64) -> Script {
        for _ in 0..lines {
            let life = &self.lives[self.current];
            let edges = if life.reckless { 50 } else { 28 };
            match self.dice.below(100) {
                _ if life.number == life.lines => self.fresh(),
                0..=3 => self.switch(),
                4..=20 => self.question(),
                number if number <= edges => self.edges(),
                _ => self.call(),
            }
        }
        self
    }

    fn writer(&mut self) -> &mut Writer {
        &mut self.lives[self.current].writer
    }

    fn edge(&mut self) -> u64 {
        if self.dice.percent(40) {
            return self.dice.pick(&HIGHEST);
        }
        self.dice.pick(&EDGES)
    }

    fn add(&mut self, line: &str, answer: Answer) {
        writeln!(self.lines, "{line}").unwrap();
        let Answer { code, value, time } = answer;
        writeln!(self.answers, "{code} {value} {time}").unwrap();
    }

    /// The desk in this place is over, and a fresh one begins.
    fn fresh(&mut self) {
        let reckless = self.lives[self.current].reckless;
        self.lives[self.current] = Life::new(&mut self.dice, reckless);
        self.lines.push_str("fresh\n");
        self.answers.push_str("0 0 0\n");
    }

    fn switch(&mut self) {
        self.current = self.dice.below(DESKS as u64) as usize;
        writeln!(self.lines, "desk {}", self.current).unwrap();
        self.answers.push_str("0 0 0\n");
    }

    /// A line as in a session.
    fn call(&mut self) {
        let life = &mut self.lives[self.current];
        let before = life.writer.desk.clone();
        let line = life.writer.next_line(life.number);
        life.number += 1;
        // The writer made the call with its own slice; here it is made with the script's.
        life.writer.desk = before;
        self.perform(&line);
    }

    /// A call with numbers at the edges; a life that is not reckless must be able to go on.
    fn edges(&mut self) {
        let letter = self.dice.pick(LETTERS);
        let mut numbers = self.writer().numbers(letter);
        for (index, number) in numbers.iter_mut().enumerate() {
            if self.dice.percent(40) {
                *number = self.edge();
            }
            // The fourth number of a put is its ticket.
            if index == 3 && self.dice.percent(30) {
                *number = u64::MAX;
            }
        }
        let mut line = String::from(letter as char);
        for number in numbers {
            write!(line, " {number}").unwrap();
        }
        let mut after = self.writer().desk.clone();
        line::answer(&mut after, line.as_bytes(), &mut Vec::new());
        let life = &self.lives[self.current];
        if life.reckless || life.writer.may_follow(&after) {
            self.perform(line.as_bytes());
        } else {
            self.question();
        }
    }

    fn perform(&mut self, line: &[u8]) {
        match line::read(line) {
            Some(call @ (Call::WeakSweep | Call::StrongSweep)) => self.sweep(call),
            Some(call) => {
                let answer = line::perform(&mut self.writer().desk, call, &mut []);
                self.add(&script::written(call), answer);
            }
            // Leading zeros can make a line overlong.
            None => self.question(),
        }
    }

    /// The answer to a sweep into a lent slice is followed by the whole slice
    /// and by the place after its end, whatever the answer is; the answer to
    /// one into a slice of its own by the tickets.
    fn sweep(&mut self, call: Call) {
        let into = self.dice.percent(70);
        let length = if into {
            self.length(call)
        } else {
            desk::ITEMS as u64
        };
        let mut places: Vec<u64> = (0..=length).map(|place| UNTOUCHED + place).collect();
        let slice = &mut places[..length as usize];
        let answer = line::perform(&mut self.lives[self.current].writer.desk, call, slice);
        let name = script::written(call);
        if into {
            self.add(&format!("{name}_into {length}"), answer);
        } else {
            self.add(&name, answer);
            places.truncate(answer.value as usize);
        }
        self.answers.pop();
        for place in places {
            write!(self.answers, " {place}").unwrap();
        }
        self.answers.push('\n');
    }

    /// The length of a slice: often just long enough, or just too short.
    fn length(&mut self, call: Call) -> u64 {
        let mut desk = self.writer().desk.clone();
        let leaving = line::perform(&mut desk, call, &mut [0; desk::ITEMS]).value;
        match self.dice.below(10) {
            0..=1 => leaving,
            2 => leaving.saturating_sub(1),
            3 => leaving + 1,
            4..=5 => self.dice.below(LONGEST_SLICE + 1),
            6 => self.dice.pick(&[0, 1, 63, 64, 65, LONGEST_SLICE]),
            _ => desk::ITEMS as u64,
        }
    }

    fn question(&mut self) {
        match self.dice.below(10) {
            0 => {
                let answer = self.writer().desk.weak_bound();
                self.add("weak_bound", answer);
            }
            1 => {
                let answer = self.writer().desk.strong_bound();
                self.add("strong_bound", answer);
            }
            2 => {
                let answer = self.writer().desk.items_present();
                self.add("items_present", answer);
            }
            3..=4 => self.visible_time(),
            _ => self.state(),
        }
    }

    fn visible_time(&mut self) {
        let mut thread = self.writer().thread();
        if self.dice.percent(15) {
            thread = self.edge() as u32;
        }
        let answer = self.writer().desk.visible_time(thread);
        self.add(&format!("visible_time {thread}"), answer);
    }

    fn state(&mut self) {
        let likely = self.dice.pick(&[State::Unseen, State::Open]);
        let names = self.writer().named(likely);
        let (mut connection, mut timestamp) = (names[1], names[2]);
        match self.dice.below(12) {
            0 => connection = self.edge() as u32,
            1..=2 => timestamp = self.edge() as u32,
            // A neighbour is ABSENT, or below the mark, more often than the item itself.
            3 => timestamp = timestamp.saturating_sub(1),
            4 => timestamp = timestamp.saturating_add(1),
            _ => {}
        }
        let answer = self.writer().desk.state(connection, timestamp);
        self.add(&format!("state {connection} {timestamp}"), answer);
    }
}
