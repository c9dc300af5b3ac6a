//! Sees that sessions tell a desk of document 01 from one that tests its
//! refusals in another order, or gets another item: `apart INPUT OUTPUT
//! [INPUT OUTPUT]...` takes sessions and their answers. For each letter and
//! each two refusals of its row there has to be a line where both are given
//! and the first is answered, and for each refusal a line where it is given
//! alone; and of each kind of get one that the other kinds would answer
//! otherwise.

mod desk;
mod dice;
mod expected;
mod line;
mod mood;

use desk::{Desk, Which, ITEMS};
use expected::{cases, in_state};
use line::Call;
use mood::LETTERS;
use std::collections::{BTreeMap, HashSet};
use std::fs;
use std::process::ExitCode;

/// What the lines of one letter met.
#[derive(Default)]
struct Met {
    /// The letter's refusals, in document 01's order.
    row: Vec<u32>,
    /// Refusals that were given alone.
    alone: HashSet<u32>,
    /// Two that were given together, the answered one first.
    both: HashSet<(u32, u32)>,
    /// Whether a get took an item that no other kind of get would have taken.
    chose: bool,
}

fn main() -> ExitCode {
    let files: Vec<String> = std::env::args().skip(1).collect();
    let mut met = BTreeMap::new();
    let mut wrong = Vec::new();
    for pair in files.chunks(2) {
        let [input, output] = pair else {
            eprintln!("usage: apart INPUT OUTPUT [INPUT OUTPUT]...");
            return ExitCode::from(2);
        };
        let session = fs::read(input).expect("the session can be read");
        let answers = fs::read(output).expect("the answers can be read");
        if let Some(number) = follow(&session, &answers, &mut met) {
            wrong.push(format!("{input}, line {number}: another answer is due"));
        }
    }
    let mut pairs = 0;
    for letter in LETTERS {
        let met = met.entry(*letter).or_default();
        pairs += met.both.len();
        wrong.extend(missing(*letter, met));
    }
    for sentence in &wrong {
        println!("{sentence}");
    }
    println!("{pairs} pairs of refusals are told apart");
    ExitCode::from(u8::from(!wrong.is_empty()))
}

/// Follows a session with a desk, and notes what its lines meet. Gives the
/// number of the first line whose answer has another code than is due.
fn follow(session: &[u8], answers: &[u8], met: &mut BTreeMap<u8, Met>) -> Option<usize> {
    let mut desk = Desk::fresh();
    let lines = session.split(|byte| *byte == b'\n');
    let answers = answers.split(|byte| *byte == b'\n');
    for (index, (line, answer)) in lines.zip(answers).enumerate() {
        let Some(call) = line::read(line) else {
            continue;
        };
        let cases = cases(&desk, call, ITEMS);
        let first = cases.iter().find(|(_, given)| *given);
        let due = first.map_or(0, |(code, _)| *code);
        if !answer.starts_with(format!("{due} ").as_bytes()) {
            return Some(index + 1);
        }
        let met = met.entry(line[0]).or_default();
        met.note(&cases);
        met.chose |= due == 0 && chooses(&desk, call);
        line::perform(&mut desk, call, &mut [0; ITEMS]);
    }
    None
}

impl Met {
    fn note(&mut self, cases: &[(u32, bool)]) {
        self.row = cases.iter().map(|(code, _)| *code).collect();
        let mut given = cases.iter().filter(|(_, given)| *given);
        let Some((first, _)) = given.next() else {
            return;
        };
        let others: Vec<u32> = given.map(|(code, _)| *code).collect();
        self.both
            .extend(others.iter().map(|other| (*first, *other)));
        if others.iter().all(|other| always_with(*first, *other)) {
            self.alone.insert(*first);
        }
    }
}

/// Whether a get takes an item that no other kind of get would take.
fn chooses(desk: &Desk, call: Call) -> bool {
    let Call::Get(_, connection, which) = call else {
        return false;
    };
    let unseen = in_state(desk, connection, 1);
    let (earliest, latest) = (unseen.iter().min(), unseen.iter().max());
    match which {
        Which::Named(named) => earliest != Some(&named) && latest != Some(&named),
        _ => earliest != latest,
    }
}

/// A thread that does not live has no connections; on an output, and at
/// never, nothing is UNSEEN or OPEN.
fn always_with(first: u32, other: u32) -> bool {
    matches!((first, other), (1, 3) | (4 | 5, 10 | 11))
}

/// A thread that does not live has no visible time; never is above every
/// visible time, and no item's timestamp.
fn never_with(first: u32, other: u32) -> bool {
    matches!((first, other), (1, 6) | (5, 6 | 7))
}

/// "Only a named one can meet 5", and no session meets 12: its slice has 64
/// places, and no more than 64 items can leave.
fn can_meet(letter: u8, code: u32) -> bool {
    code != 12 && (code != 5 || !matches!(letter, b'g' | b'G'))
}

/// What no line of the letter met, in sentences.
fn missing(letter: u8, met: &Met) -> Vec<String> {
    let name = char::from(letter);
    let mut missing = Vec::new();
    if met.row.is_empty() {
        missing.push(format!("{name}: no line has this letter"));
    }
    let codes = met.row.iter().filter(|code| can_meet(letter, **code));
    let row: Vec<u32> = codes.copied().collect();
    for (index, first) in row.iter().enumerate() {
        if !met.alone.contains(first) {
            missing.push(format!("{name}: no line meets {first} alone"));
        }
        for other in &row[index + 1..] {
            if !never_with(*first, *other) && !met.both.contains(&(*first, *other)) {
                missing.push(format!(
                    "{name}: no line meets {first} where {other} is given too"
                ));
            }
        }
    }
    if matches!(letter, b'g' | b'G' | b'x') && !met.chose {
        missing.push(format!("{name}: no line gets what no other get would"));
    }
    missing
}
