//! What a call costs through the door, beside the same call of the second program's plain Rust:
//!   calls names, calls desks          the calls that are measured, and the desks on which they are
//!   calls time NAME DESK              its code, and its nanoseconds through the door and in plain Rust
//!   calls copied NAME DESK            how many bytes it copies by memcpy through the door; built with second/copies.c
//!   calls repeat NAME DESK SIDE N     the call N times, for a count of its instructions
//!   calls mixed FILE                  all calls of a session, through the door and in plain Rust
//! second/speed builds and runs it.

mod desk;
mod full;
mod line;
mod through;

use desk::Answer;
use full::{Measured, CALLS, DESKS};
use line::Call;
use std::hint::black_box;
use std::time::Instant;

/// So many desks are prepared at once, so that the clock is read seldom and all of them stay near.
const BATCH: usize = 8;
const BATCHES: usize = 4000;

/// One side of the comparison: a desk that can be lent, copied and called.
trait Side: Clone {
    fn fresh() -> Self;
    fn perform(&mut self, call: Measured, slice: &mut [u64]) -> Answer;

    fn prepared(calls: &[Call]) -> Self {
        let mut side = Self::fresh();
        let mut slice = [0; desk::ITEMS];
        for call in calls {
            let answer = side.perform(Measured::Call(*call), &mut slice);
            assert!(answer.code == 0, "{call:?} is refused with {}", answer.code);
        }
        side
    }
}

impl Side for desk::Desk {
    fn fresh() -> Self {
        desk::Desk::fresh()
    }

    fn perform(&mut self, call: Measured, slice: &mut [u64]) -> Answer {
        match call {
            Measured::Call(call) => line::perform(self, call, slice),
            Measured::WeakBound => self.weak_bound(),
            Measured::StrongBound => self.strong_bound(),
        }
    }
}

impl Side for through::Lent {
    fn fresh() -> Self {
        through::Lent::fresh()
    }

    fn perform(&mut self, call: Measured, slice: &mut [u64]) -> Answer {
        match call {
            Measured::Call(call) => self.call(call, slice),
            Measured::WeakBound => self.weak_bound(),
            Measured::StrongBound => self.strong_bound(),
        }
    }
}

/// The mean of a call on this desk, in nanoseconds: the quickest tenth of many batches.
fn nanoseconds<S: Side>(prepared: &S, call: Measured) -> f64 {
    let mut slice = [0; desk::ITEMS];
    let mut times: Vec<f64> = (0..BATCHES)
        .map(|_| {
            let mut desks: [S; BATCH] = std::array::from_fn(|_| prepared.clone());
            let began = Instant::now();
            for each in &mut desks {
                black_box(each.perform(black_box(call), &mut slice));
            }
            let taken = began.elapsed().as_nanos() as f64 / BATCH as f64;
            black_box(&desks);
            taken
        })
        .collect();
    times.sort_by(f64::total_cmp);
    times[BATCHES / 10]
}

fn time(name: &str, desk_name: &str) {
    let prepared = full::calls_before(desk_name);
    let call = full::measured(name, desk_name);
    let plain = desk::Desk::prepared(&prepared);
    let lent = through::Lent::prepared(&prepared);
    let mut slice = [0; desk::ITEMS];
    let answer = lent.clone().perform(call, &mut slice);
    assert!(
        answer == plain.clone().perform(call, &mut slice),
        "the answers differ"
    );
    let (door_time, plain_time) = (nanoseconds(&lent, call), nanoseconds(&plain, call));
    println!("{} {door_time:.0} {plain_time:.0}", answer.code);
}

/// How many bytes the call copies by memcpy.
fn copied(name: &str, desk_name: &str) {
    let mut lent = through::Lent::prepared(&full::calls_before(desk_name));
    let mut slice = [0; desk::ITEMS];
    let before = through::copied();
    black_box(lent.perform(full::measured(name, desk_name), &mut slice));
    println!("{}", through::copied() - before);
}

/// How long all calls take on a fresh desk, in milliseconds, and what they answered, in one number.
fn run<S: Side>(calls: &[Call]) -> (f64, u64) {
    let mut slice = [0; desk::ITEMS];
    let mut side = S::fresh();
    let began = Instant::now();
    let mut sum: u64 = 0;
    for call in calls {
        let answer = side.perform(Measured::Call(*call), &mut slice);
        let mixed = u64::from(answer.code) ^ answer.value ^ u64::from(answer.time);
        sum = sum.wrapping_mul(31).wrapping_add(mixed);
    }
    (began.elapsed().as_secs_f64() * 1000.0, sum)
}

fn mixed(path: &str) {
    let text = std::fs::read(path).expect("the file can be read");
    let lines = text.split(|byte| *byte == b'\n');
    let calls: Vec<Call> = lines.filter_map(line::read).collect();
    let (mut door, mut plain) = (f64::INFINITY, f64::INFINITY);
    for _ in 0..9 {
        let (door_time, door_sum) = run::<through::Lent>(&calls);
        let (plain_time, plain_sum) = run::<desk::Desk>(&calls);
        assert!(door_sum == plain_sum, "the answers differ");
        door = door.min(door_time);
        plain = plain.min(plain_time);
    }
    println!("{} {door:.1} {plain:.1}", calls.len());
}

/// The instructions of a call are counted between entry and exit of this function.
#[no_mangle]
#[inline(never)]
fn counted_call(perform: &mut dyn FnMut()) {
    perform();
}

fn repeat<S: Side>(name: &str, desk_name: &str, times: u32) {
    let prepared = S::prepared(&full::calls_before(desk_name));
    let call = full::measured(name, desk_name);
    let mut slice = [0; desk::ITEMS];
    for _ in 0..times {
        let mut each = prepared.clone();
        counted_call(&mut || {
            black_box(each.perform(black_box(call), &mut slice));
        });
    }
}

fn main() {
    let words: Vec<String> = std::env::args().skip(1).collect();
    let words: Vec<&str> = words.iter().map(String::as_str).collect();
    match words[..] {
        ["names"] => println!("{}", CALLS.join(" ")),
        ["desks"] => println!("{}", DESKS.join(" ")),
        ["time", name, desk_name] => time(name, desk_name),
        ["copied", name, desk_name] => copied(name, desk_name),
        ["mixed", path] => mixed(path),
        ["repeat", name, desk_name, side, times] => {
            let times = times.parse().expect("a number of times");
            match side {
                "door" => repeat::<through::Lent>(name, desk_name, times),
                _ => repeat::<desk::Desk>(name, desk_name, times),
            }
        }
        _ => {
            eprintln!("usage: calls names | desks | time NAME DESK | copied NAME DESK | repeat NAME DESK SIDE TIMES | mixed FILE");
            std::process::exit(2);
        }
    }
}
