//! One line of a session: read as a call, performed on a desk, answered.
//! Words in quotation marks are document 01's, "The session program".

#![allow(dead_code)] // a program may want the reading without the answering

use crate::desk::{Answer, Desk, Which, ITEMS};

/// "lines of at most 80 bytes"; "The newline is not counted among the 80 bytes".
pub const LONGEST: usize = 80;

/// The calls that a line can name, their numbers in the order of the line.
#[derive(Clone, Copy, PartialEq, Eq, Debug)]
pub enum Call {
    Channel(u32),
    NewThread(u32, u32),
    AttachInput(u32, u32),
    AttachOutput(u32, u32),
    Detach(u32, u32),
    End(u32),
    Set(u32, u32),
    Put(u32, u32, u32, u64),
    Get(u32, u32, Which),
    Consume(u32, u32, u32),
    ConsumeUntil(u32, u32, u32),
    WeakSweep,
    StrongSweep,
}

/// The bytes of a line that are still to be read.
struct Rest<'a> {
    bytes: &'a [u8],
}

impl Rest<'_> {
    /// Reads one space and a decimal number. "Leading zeros are read." A
    /// number of more than 64 bits is none.
    fn wide(&mut self) -> Option<u64> {
        let [b' ', after @ ..] = self.bytes else {
            return None;
        };
        let mut number: u64 = 0;
        let mut digits = 0;
        while digits < after.len() && after[digits].is_ascii_digit() {
            let digit = u64::from(after[digits] - b'0');
            number = number.checked_mul(10)?.checked_add(digit)?;
            digits += 1;
        }
        if digits == 0 {
            return None;
        }
        self.bytes = &after[digits..];
        Some(number)
    }

    /// "Threads, channels, connections and times are 32-bit".
    fn narrow(&mut self) -> Option<u32> {
        u32::try_from(self.wide()?).ok()
    }
}

/// "A line is a letter, then decimal numbers, one space before each". None
/// for "Every other line, the empty and the overlong included".
pub fn read(line: &[u8]) -> Option<Call> {
    if line.len() > LONGEST {
        return None;
    }
    let (letter, bytes) = line.split_first()?;
    let mut rest = Rest { bytes };
    let call = match letter {
        b'c' => Call::Channel(rest.narrow()?),
        b'n' => Call::NewThread(rest.narrow()?, rest.narrow()?),
        b'i' => Call::AttachInput(rest.narrow()?, rest.narrow()?),
        b'o' => Call::AttachOutput(rest.narrow()?, rest.narrow()?),
        b'd' => Call::Detach(rest.narrow()?, rest.narrow()?),
        b'e' => Call::End(rest.narrow()?),
        b's' => Call::Set(rest.narrow()?, rest.narrow()?),
        b'p' => Call::Put(rest.narrow()?, rest.narrow()?, rest.narrow()?, rest.wide()?),
        b'g' => Call::Get(rest.narrow()?, rest.narrow()?, Which::Earliest),
        b'G' => Call::Get(rest.narrow()?, rest.narrow()?, Which::Latest),
        b'x' => Call::Get(rest.narrow()?, rest.narrow()?, Which::Named(rest.narrow()?)),
        b'f' => Call::Consume(rest.narrow()?, rest.narrow()?, rest.narrow()?),
        b'u' => Call::ConsumeUntil(rest.narrow()?, rest.narrow()?, rest.narrow()?),
        b'w' => Call::WeakSweep,
        b'W' => Call::StrongSweep,
        _ => return None,
    };
    if !rest.bytes.is_empty() {
        return None;
    }
    Some(call)
}

/// Makes the call; a sweep hands its tickets back in the slice.
pub fn perform(desk: &mut Desk, call: Call, slice: &mut [u64]) -> Answer {
    match call {
        Call::Channel(thread) => desk.channel(thread),
        Call::NewThread(thread, virtual_time) => desk.new_thread(thread, virtual_time),
        Call::AttachInput(thread, channel) => desk.attach_input(thread, channel),
        Call::AttachOutput(thread, channel) => desk.attach_output(thread, channel),
        Call::Detach(thread, connection) => desk.detach(thread, connection),
        Call::End(thread) => desk.end(thread),
        Call::Set(thread, virtual_time) => desk.set(thread, virtual_time),
        Call::Put(thread, connection, timestamp, ticket) => {
            desk.put(thread, connection, timestamp, ticket)
        }
        Call::Get(thread, connection, which) => desk.get(thread, connection, which),
        Call::Consume(thread, connection, timestamp) => desk.consume(thread, connection, timestamp),
        Call::ConsumeUntil(thread, connection, timestamp) => {
            desk.consume_until(thread, connection, timestamp)
        }
        Call::WeakSweep => desk.weak_sweep(slice),
        Call::StrongSweep => desk.strong_sweep(slice),
    }
}

/// "For each line it prints code, value, time, and for an accepted sweep the
/// tickets, with one space between and a newline after each such line".
pub fn answer(desk: &mut Desk, line: &[u8], output: &mut Vec<u8>) {
    let Some(call) = read(line) else {
        // "answers `99 0 0` and changes nothing"
        output.extend_from_slice(b"99 0 0\n");
        return;
    };
    // "its slice has 64 places"
    let mut slice = [0; ITEMS];
    let answer = perform(desk, call, &mut slice);
    print_number(output, u64::from(answer.code));
    output.push(b' ');
    print_number(output, answer.value);
    output.push(b' ');
    print_number(output, u64::from(answer.time));
    if answer.code == 0 && matches!(call, Call::WeakSweep | Call::StrongSweep) {
        for ticket in &slice[..answer.value as usize] {
            output.push(b' ');
            print_number(output, *ticket);
        }
    }
    output.push(b'\n');
}

fn print_number(output: &mut Vec<u8>, number: u64) {
    let mut digits = [0; 20];
    let mut first = digits.len();
    let mut rest = number;
    loop {
        first -= 1;
        digits[first] = b'0' + (rest % 10) as u8;
        rest /= 10;
        if rest == 0 {
            break;
        }
    }
    output.extend_from_slice(&digits[first..]);
}
