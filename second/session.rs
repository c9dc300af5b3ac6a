//! The session program of document 01: lines from standard input, one answer
//! for each to standard output. Words in quotation marks are document 01's.

mod desk;
mod line;

use std::io::{self, BufRead, BufReader, ErrorKind, Write};

/// Bytes read at once, and bytes of answers gathered before they are written.
const BLOCK: usize = 1 << 16;

fn main() -> io::Result<()> {
    let mut input = BufReader::with_capacity(BLOCK, io::stdin().lock());
    let mut output = io::stdout().lock();
    // "starting with a fresh desk"
    let mut desk = desk::Desk::fresh();
    let mut line = Vec::with_capacity(line::LONGEST + 1);
    let mut answers = Vec::with_capacity(2 * BLOCK);
    while next_line(&mut input, &mut line)? {
        line::answer(&mut desk, &line, &mut answers);
        if answers.len() >= BLOCK {
            output.write_all(&answers)?;
            answers.clear();
        }
    }
    output.write_all(&answers)?;
    output.flush()
}

/// Takes the next line, without its newline, and tells whether there was one.
/// Of an overlong line only as much is kept as shows that it is overlong.
/// "nothing after a final newline is a line, and an empty input prints
/// nothing. The last line may lack its newline."
fn next_line(input: &mut impl BufRead, line: &mut Vec<u8>) -> io::Result<bool> {
    line.clear();
    let mut begun = false;
    loop {
        let ready = match input.fill_buf() {
            Ok(ready) => ready,
            Err(error) if error.kind() == ErrorKind::Interrupted => continue,
            Err(error) => return Err(error),
        };
        if ready.is_empty() {
            return Ok(begun);
        }
        begun = true;
        let newline = ready.iter().position(|byte| *byte == b'\n');
        let length = newline.unwrap_or(ready.len());
        let room = line::LONGEST + 1 - line.len();
        line.extend_from_slice(&ready[..length.min(room)]);
        match newline {
            Some(_) => input.consume(length + 1),
            None => input.consume(length),
        }
        if newline.is_some() {
            return Ok(true);
        }
    }
}
