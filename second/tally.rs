//! Counts what sessions reached: `tally INPUT OUTPUT [INPUT OUTPUT]...` takes
//! sessions and their answers, prints how often each letter met each code, and
//! fails if a code that a session can meet, or an accepted call of some
//! letter, is missing. A session cannot meet 12: its slice has 64 places, and
//! no more than 64 items can leave.

mod desk;
mod dice;
mod mood;

use mood::LETTERS;
use std::fs;
use std::process::ExitCode;

const CODES: [usize; 14] = [0, 1, 2, 3, 4, 5, 6, 7, 8, 9, 10, 11, 12, 99];

/// Counts for each letter and each code; the last row is for lines not readable.
type Counts = [[u64; CODES.len()]; LETTERS.len() + 1];

fn main() -> ExitCode {
    let files: Vec<String> = std::env::args().skip(1).collect();
    let mut counts: Counts = [[0; CODES.len()]; LETTERS.len() + 1];
    let mut tickets = [0; 2];
    for pair in files.chunks(2) {
        let [input, output] = pair else {
            eprintln!("usage: tally INPUT OUTPUT [INPUT OUTPUT]...");
            return ExitCode::from(2);
        };
        let input = fs::read(input).expect("the session can be read");
        let output = fs::read(output).expect("the answers can be read");
        count(&input, &output, &mut counts, &mut tickets);
    }
    print(&counts);
    println!(
        "tickets handed back: {} by weak sweeps, {} by strong sweeps",
        tickets[0], tickets[1]
    );
    if complete(&counts) && tickets[0] > 0 && tickets[1] > 0 {
        ExitCode::SUCCESS
    } else {
        ExitCode::FAILURE
    }
}

fn count(input: &[u8], output: &[u8], counts: &mut Counts, tickets: &mut [u64; 2]) {
    for (line, answer) in input
        .split(|byte| *byte == b'\n')
        .zip(output.split(|byte| *byte == b'\n'))
    {
        let words: Vec<&str> = std::str::from_utf8(answer)
            .unwrap_or("")
            .split(' ')
            .collect();
        let Some(column) = CODES.iter().position(|code| words[0] == code.to_string()) else {
            continue;
        };
        let letter = line
            .first()
            .and_then(|first| LETTERS.iter().position(|letter| letter == first));
        let row = if words[0] == "99" {
            LETTERS.len()
        } else {
            letter.unwrap_or(LETTERS.len())
        };
        counts[row][column] += 1;
        match LETTERS.get(row) {
            Some(b'w') => tickets[0] += words.len() as u64 - 3,
            Some(b'W') => tickets[1] += words.len() as u64 - 3,
            _ => {}
        }
    }
}

fn print(counts: &Counts) {
    print!("code    ");
    for code in CODES {
        print!(" {code:>7}");
    }
    println!();
    for (row, numbers) in counts.iter().enumerate() {
        print!(
            "{:8}",
            LETTERS
                .get(row)
                .map_or("damaged".to_string(), |letter| char::from(*letter)
                    .to_string())
        );
        for number in numbers {
            print!(" {number:>7}");
        }
        println!();
    }
    print!("all     ");
    for column in 0..CODES.len() {
        print!(" {:>7}", counts.iter().map(|row| row[column]).sum::<u64>());
    }
    println!();
}

/// The codes that a call can meet in a session, by document 01's table.
fn codes_of(letter: u8) -> &'static [usize] {
    match letter {
        b'c' => &[0, 1, 9],
        b'n' => &[0, 1, 6, 9],
        b'i' | b'o' => &[0, 1, 2, 9],
        b'd' => &[0, 1, 3],
        b'e' => &[0, 1],
        b's' => &[0, 1, 6],
        b'p' => &[0, 1, 3, 4, 5, 6, 7, 8],
        b'g' | b'G' => &[0, 1, 3, 4, 10],
        b'x' => &[0, 1, 3, 4, 5, 10],
        b'f' => &[0, 1, 3, 4, 5, 11],
        b'u' => &[0, 1, 3, 4, 5],
        _ => &[0],
    }
}

/// Whether each call met each of its codes, and no other.
fn complete(counts: &Counts) -> bool {
    let mut complete = true;
    for (row, numbers) in counts.iter().enumerate() {
        let expected = LETTERS
            .get(row)
            .map_or(&[99][..], |letter| codes_of(*letter));
        let name = LETTERS.get(row).map_or('-', |letter| char::from(*letter));
        for (column, number) in numbers.iter().enumerate() {
            if (*number > 0) != expected.contains(&CODES[column]) {
                println!("letter {name}, code {}: {number} times", CODES[column]);
                complete = false;
            }
        }
    }
    complete
}
