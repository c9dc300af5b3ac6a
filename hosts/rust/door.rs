//! The door of a host in Rust: reads a door script from standard input (hosts/README.md has its
//! lines), and prints the answer to each line. It goes through the methods of `Desk`, so that what
//! they make of an answer is compared too.

use desk::{raw, Desk, Refusal};
use std::fmt::Write as _;
use std::io::{self, BufRead, Write as _};
use std::mem::size_of;

const DESKS: usize = 8;

/// What a slice holds before a sweep: this and the number of the place.
const UNTOUCHED: u64 = 7_000_000_000_000_000_000;

/// The value and the time of an accepted call. A script is written by a program: a line with other
/// numbers than its call takes is an error of that program.
fn perform(desk: &mut Desk, name: &str, numbers: &[u64]) -> Result<(u64, u32), Refusal> {
    let nothing = |()| (0, 0);
    let created = |number: u32| (number.into(), 0);
    let got = |got: desk::Got| (got.ticket, got.timestamp);
    let small: Vec<u32> = numbers.iter().map(|number| *number as u32).collect();
    match (name, &small[..]) {
        ("channel", &[thread]) => desk.channel(thread).map(created),
        ("new_thread", &[thread, time]) => desk.new_thread(thread, time).map(created),
        ("attach_input", &[thread, channel]) => {
            let attached = desk.attach_input(thread, channel)?;
            Ok((attached.connection.into(), attached.mark))
        }
        ("attach_output", &[thread, channel]) => desk.attach_output(thread, channel).map(created),
        ("detach", &[thread, connection]) => desk.detach(thread, connection).map(nothing),
        ("end", &[thread]) => desk.end(thread).map(nothing),
        ("set", &[thread, time]) => desk.set(thread, time).map(nothing),
        ("put", &[thread, connection, timestamp, _]) => desk
            .put(thread, connection, timestamp, numbers[3])
            .map(nothing),
        ("get_earliest", &[thread, connection]) => desk.get_earliest(thread, connection).map(got),
        ("get_latest", &[thread, connection]) => desk.get_latest(thread, connection).map(got),
        ("get_named", &[thread, connection, timestamp]) => {
            desk.get_named(thread, connection, timestamp).map(got)
        }
        ("consume", &[thread, connection, timestamp]) => {
            desk.consume(thread, connection, timestamp).map(nothing)
        }
        ("consume_until", &[thread, connection, timestamp]) => desk
            .consume_until(thread, connection, timestamp)
            .map(nothing),
        ("visible_time", &[thread]) => desk.visible_time(thread).map(|time| (0, time)),
        ("weak_bound", &[]) => Ok((0, desk.weak_bound())),
        ("strong_bound", &[]) => Ok((0, desk.strong_bound())),
        ("state", &[connection, timestamp]) => desk
            .state(connection, timestamp)
            .map(|state| (state as u64, 0)),
        ("items_present", &[]) => Ok((desk.items_present() as u64, 0)),
        _ => panic!("there is no call {name} of {} numbers", numbers.len()),
    }
}

fn tell(answer: Result<(u64, u32), Refusal>, output: &mut String) {
    let (code, value, time) = match answer {
        Ok((value, time)) => (0, value, time),
        Err(refusal) => (refusal.code.number(), refusal.value, refusal.time),
    };
    write!(output, "{code} {value} {time}").unwrap();
}

fn tell_places(places: &[u64], output: &mut String) {
    for place in places {
        write!(output, " {place}").unwrap();
    }
}

/// A sweep into a slice of its own: the tickets are told.
fn sweep(swept: Result<desk::Swept, Refusal>, output: &mut String) {
    match swept {
        Ok(swept) => {
            tell(Ok((swept.tickets.len() as u64, swept.bound)), output);
            tell_places(&swept.tickets, output);
        }
        Err(refusal) => tell(Err(refusal), output),
    }
}

/// A sweep into a lent slice: the whole slice is told, and the place after its end.
fn sweep_into(
    length: u64,
    sweep: impl FnOnce(&mut [u64]) -> Result<desk::HandedBack, Refusal>,
    output: &mut String,
) {
    let mut places: Vec<u64> = (0..=length).map(|place| UNTOUCHED + place).collect();
    let back = sweep(&mut places[..length as usize]);
    tell(back.map(|back| (back.number as u64, back.bound)), output);
    tell_places(&places, output);
}

/// The bytes of a desk as they lie in memory.
fn tell_bytes(desk: &raw::Desk, output: &mut String) {
    // SAFETY: a desk has no bytes between its fields.
    let bytes: [u8; size_of::<raw::Desk>()] = unsafe { std::mem::transmute(*desk) };
    for byte in bytes {
        write!(output, "{byte:02x}").unwrap();
    }
}

fn answer(desks: &mut [Desk], current: &mut usize, line: &str, output: &mut String) {
    let mut words = line.split(' ');
    let name = words.next().expect("a line has a name");
    let numbers: Vec<u64> = words.map(|word| word.parse().expect("a number")).collect();
    let desk = &mut desks[*current];
    match (name, &numbers[..]) {
        ("desk", &[number]) => {
            *current = number as usize;
            tell(Ok((0, 0)), output);
        }
        ("fresh", &[]) => {
            *desk = Desk::fresh();
            tell(Ok((0, 0)), output);
        }
        ("bytes", &[]) => tell_bytes(&desk.raw, output),
        ("weak_sweep", &[]) => sweep(desk.weak_sweep(), output),
        ("strong_sweep", &[]) => sweep(desk.strong_sweep(), output),
        ("weak_sweep_into", &[length]) => {
            sweep_into(length, |slice| desk.weak_sweep_into(slice), output)
        }
        ("strong_sweep_into", &[length]) => {
            sweep_into(length, |slice| desk.strong_sweep_into(slice), output)
        }
        _ => tell(perform(desk, name, &numbers), output),
    }
    output.push('\n');
}

fn main() -> io::Result<()> {
    let mut desks = vec![Desk::fresh(); DESKS];
    let mut current = 0;
    let mut output = io::BufWriter::new(io::stdout().lock());
    let mut told = String::new();
    for line in io::stdin().lock().lines() {
        told.clear();
        answer(&mut desks, &mut current, &line?, &mut told);
        output.write_all(told.as_bytes())?;
    }
    output.flush()
}
