//! Shows where two session programs differ, and makes the session shorter:
//! `shrink INPUT SECOND COMMAND SECONDS SHORTEST`. INPUT is a session, SECOND
//! the second program, COMMAND the program under test as a shell command. It
//! prints the first difference; then it leaves out lines as long as the two
//! still differ, for at most SECONDS, prints the shortest session it found
//! and leaves it in the file SHORTEST.

mod desk;
mod line;
mod rename;

use std::fs::{self, File};
use std::io;
use std::path::PathBuf;
use std::process::{Command, ExitCode, Stdio};
use std::time::{Duration, Instant};

/// No more lines of the shortest session than these are printed.
const PRINTED: usize = 80;

/// Seconds after which one run of the program under test is stopped.
const PATIENCE: &str = "10";

struct Pair {
    second: String,
    command: String,
    /// The file that holds the session being tried.
    trial: PathBuf,
}

/// The answers of both programs to one session, line by line.
struct Answers {
    second: Vec<Vec<u8>>,
    tested: Vec<Vec<u8>>,
}

fn main() -> io::Result<ExitCode> {
    let arguments: Vec<String> = std::env::args().skip(1).collect();
    let [input, second, command, seconds, shortest] = &arguments[..] else {
        eprintln!("usage: shrink INPUT SECOND COMMAND SECONDS SHORTEST");
        return Ok(ExitCode::from(2));
    };
    let pair = Pair {
        second: second.clone(),
        command: command.clone(),
        trial: shortest.into(),
    };
    let mut lines = split(&fs::read(input)?);
    let answers = pair.answers(&lines)?;
    let Some(first) = answers.first_difference() else {
        println!("the difference did not come again");
        return Ok(ExitCode::FAILURE);
    };
    println!(
        "first difference in line {}: {}",
        first + 1,
        show(lines.get(first))
    );
    answers.print(first);
    let limit = Duration::from_secs(seconds.parse().unwrap_or(30));
    pair.shorten(&mut lines, first, Instant::now() + limit)?;
    let answers = pair.answers(&lines)?;
    print_session(&lines, &answers, shortest);
    Ok(ExitCode::SUCCESS)
}

/// The lines, each with its newline if it has one.
fn split(bytes: &[u8]) -> Vec<Vec<u8>> {
    bytes
        .split_inclusive(|byte| *byte == b'\n')
        .map(<[u8]>::to_vec)
        .collect()
}

/// A line in readable letters, not too long, without its newline.
fn show(line: Option<&Vec<u8>>) -> String {
    let Some(line) = line else {
        return "(no line)".to_string();
    };
    let text = line.strip_suffix(b"\n").unwrap_or(line);
    let note = if text.len() == line.len() {
        " (without a newline)"
    } else {
        ""
    };
    if text.len() > 100 {
        return format!(
            "{}... ({} bytes){note}",
            text[..60].escape_ascii(),
            text.len()
        );
    }
    format!("{}{note}", text.escape_ascii())
}

impl Pair {
    /// Runs both programs on these lines.
    fn answers(&self, lines: &[Vec<u8>]) -> io::Result<Answers> {
        fs::write(&self.trial, lines.concat())?;
        let second = self.run(&mut Command::new(&self.second))?;
        let shell = ["bash", "-c", &self.command];
        let tested = self.run(Command::new("timeout").arg(PATIENCE).args(shell))?;
        Ok(Answers { second, tested })
    }

    /// The answers of one program; an end that is no success is a line of its own.
    fn run(&self, program: &mut Command) -> io::Result<Vec<Vec<u8>>> {
        let input = File::open(&self.trial)?;
        let result = program.stdin(input).stderr(Stdio::null()).output()?;
        let mut answers = split(&result.stdout);
        if !result.status.success() {
            answers.push(format!("(ended with {})\n", result.status).into_bytes());
        }
        Ok(answers)
    }

    /// Leaves out everything after the first difference; then ever smaller
    /// pieces, as long as the programs still differ and there is time.
    fn shorten(&self, lines: &mut Vec<Vec<u8>>, first: usize, deadline: Instant) -> io::Result<()> {
        let start = lines[..lines.len().min(first + 1)].to_vec();
        self.replace(lines, start)?;
        let mut size = lines.len().div_ceil(2).max(1);
        loop {
            let before = lines.len();
            let mut from = 0;
            while from < lines.len() && Instant::now() < deadline {
                if !self.leave_out(lines, from, lines.len().min(from + size))? {
                    from += size;
                }
            }
            if Instant::now() >= deadline || (size == 1 && lines.len() == before) {
                return Ok(());
            }
            size = size.div_ceil(2);
        }
    }

    /// Leaves out these lines, if the programs still differ, with new numbers
    /// in the other lines or with the old ones.
    fn leave_out(&self, lines: &mut Vec<Vec<u8>>, from: usize, to: usize) -> io::Result<bool> {
        let mut plain = lines.clone();
        plain.drain(from..to);
        let renamed = rename::leave_out(lines, from, to);
        if renamed != plain && self.replace(lines, renamed)? {
            return Ok(true);
        }
        self.replace(lines, plain)
    }

    /// Takes the shorter session if the programs differ on it too.
    fn replace(&self, lines: &mut Vec<Vec<u8>>, shorter: Vec<Vec<u8>>) -> io::Result<bool> {
        let differ = self.answers(&shorter)?.first_difference().is_some();
        if differ {
            *lines = shorter;
        }
        Ok(differ)
    }
}

impl Answers {
    fn first_difference(&self) -> Option<usize> {
        let longer = self.second.len().max(self.tested.len());
        (0..longer).find(|index| self.second.get(*index) != self.tested.get(*index))
    }

    fn print(&self, index: usize) {
        println!("  second program:     {}", show(self.second.get(index)));
        println!("  program under test: {}", show(self.tested.get(index)));
    }
}

fn print_session(lines: &[Vec<u8>], answers: &Answers, file: &str) {
    println!("shortest session found, {} lines, in {file}:", lines.len());
    for (index, line) in lines.iter().enumerate().take(PRINTED) {
        println!(
            "  {:<40} {}",
            show(Some(line)),
            show(answers.second.get(index))
        );
    }
    if lines.len() > PRINTED {
        println!("  ...");
    }
    let Some(last) = answers.first_difference() else {
        println!("there the difference did not come again");
        return;
    };
    println!(
        "its first difference, in line {}: {}",
        last + 1,
        show(lines.get(last))
    );
    answers.print(last);
}
