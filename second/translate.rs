//! A session program whose desk stands behind a door of hosts/: `translate
//! DOOR` reads a session, hands its readable lines to the shell command DOOR as
//! a door script, and prints the answers; to any other line it answers 99
//! itself.

mod desk;
mod line;
mod script;

use std::io::{self, BufRead, BufReader, BufWriter, Read, Write};
use std::process::{Command, ExitCode, Stdio};
use std::thread;

fn main() -> io::Result<ExitCode> {
    let words: Vec<String> = std::env::args().skip(1).collect();
    let [door] = &words[..] else {
        eprintln!("usage: translate DOOR < SESSION");
        return Ok(ExitCode::from(2));
    };
    let mut session = Vec::new();
    io::stdin().read_to_end(&mut session)?;
    let calls: Vec<Option<line::Call>> = lines(&session).map(line::read).collect();
    let mut door = Command::new("bash")
        .args(["-c", door])
        .stdin(Stdio::piped())
        .stdout(Stdio::piped())
        .spawn()?;
    let mut input = door.stdin.take().expect("a pipe");
    let output = door.stdout.take().expect("a pipe");
    let made = calls.clone().into_iter().flatten();
    // The door may answer before it has read all.
    let writing = thread::spawn(move || {
        let script: String = made.map(|call| script::written(call) + "\n").collect();
        input.write_all(script.as_bytes())
    });
    print(&calls, BufReader::new(output))?;
    let written = writing.join().is_ok_and(|result| result.is_ok());
    let ended = door.wait()?.success() && written;
    Ok(ExitCode::from(u8::from(!ended)))
}

/// "nothing after a final newline is a line, and an empty input prints
/// nothing. The last line may lack its newline."
fn lines(session: &[u8]) -> impl Iterator<Item = &[u8]> {
    let whole = session.strip_suffix(b"\n").unwrap_or(session);
    let some = (!session.is_empty()).then(|| whole.split(|byte| *byte == b'\n'));
    some.into_iter().flatten()
}

/// A door that says less or more than it was asked for is to be seen.
fn print(calls: &[Option<line::Call>], output: impl BufRead) -> io::Result<()> {
    let mut answers = output.lines();
    let mut printed = BufWriter::new(io::stdout().lock());
    for call in calls {
        if call.is_none() {
            writeln!(printed, "99 0 0")?;
        } else if let Some(answer) = answers.next() {
            writeln!(printed, "{}", answer?)?;
        }
    }
    for answer in answers {
        writeln!(printed, "{}", answer?)?;
    }
    printed.flush()
}
