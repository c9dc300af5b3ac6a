//! Ways in which a session line goes wrong, or nearly goes wrong.

use crate::dice::Dice;
use crate::line::LONGEST;

/// Changes the line. Most changed lines are not readable; some still are, and
/// test that what looks strange is read.
pub fn damage(dice: &mut Dice, line: &mut Vec<u8>) {
    match dice.below(6) {
        0 => damage_space(dice, line),
        1 => damage_number(dice, line),
        2 => damage_length(dice, line),
        3 => damage_count(dice, line),
        4 => damage_byte(dice, line),
        _ => damage_letter(dice, line),
    }
}

/// The index of some space of the line, or the end of the line.
fn some_space(dice: &mut Dice, line: &[u8]) -> usize {
    let spaces: Vec<usize> = (0..line.len())
        .filter(|index| line[*index] == b' ')
        .collect();
    if spaces.is_empty() {
        return line.len();
    }
    dice.pick(&spaces)
}

fn damage_space(dice: &mut Dice, line: &mut Vec<u8>) {
    let space = some_space(dice, line);
    match dice.below(8) {
        0 => line.insert(space, b' '),
        1 => line.push(b' '),
        2 => line.insert(0, b' '),
        3 => line.insert(space, b'\t'),
        4 if space < line.len() => line[space] = b'\t',
        5 if space < line.len() => drop(line.remove(space)),
        6 => *line = vec![b' '; 1 + dice.below(4) as usize],
        _ => line.push(b'\r'),
    }
}

/// Some number of the line becomes too wide, or nearly; or gets a sign.
fn damage_number(dice: &mut Dice, line: &mut Vec<u8>) {
    let space = some_space(dice, line);
    let rest = line.split_off(space);
    let digits = rest
        .iter()
        .skip(1)
        .take_while(|byte| byte.is_ascii_digit())
        .count();
    if digits == 0 {
        line.extend_from_slice(b" 0");
        return;
    }
    if dice.percent(8) {
        // The space stays, its digits are gone.
        line.push(b' ');
        line.extend_from_slice(&rest[1 + digits..]);
        return;
    }
    let value: u128 = String::from_utf8_lossy(&rest[1..=digits])
        .parse()
        .unwrap_or(0);
    let number = match dice.below(12) {
        0 => (value + (1 << 32)).to_string(),
        1 => (value + (1 << 64)).to_string(),
        2 => ((1u128 << 32) - 1 + u128::from(dice.below(2))).to_string(),
        3 => ((1u128 << 64) - 1 + u128::from(dice.below(2))).to_string(),
        4 => ((1u128 << 64) + u128::from(dice.below(100))).to_string(),
        5 => format!("{}{:020}", 1 + dice.below(99), value),
        6 => format!("+{value}"),
        7 => format!("-{value}"),
        8 => format!("{value}.0"),
        9 => format!("0x{value}"),
        10 => format!("{value},"),
        _ => format!("1{:030}", value),
    };
    line.push(b' ');
    line.extend_from_slice(number.as_bytes());
    line.extend_from_slice(&rest[1 + digits..]);
}

/// The line becomes empty, or just short enough, or too long, or far too long.
fn damage_length(dice: &mut Dice, line: &mut Vec<u8>) {
    let length = match dice.below(10) {
        0 | 1 => {
            line.clear();
            return;
        }
        2 => LONGEST - 1,
        3 | 4 => LONGEST,
        5 | 6 => LONGEST + 1,
        7 => LONGEST + 2 + dice.below(100) as usize,
        8 => 1000 + dice.below(5000) as usize,
        _ if dice.percent(10) => 60_000 + dice.below(80_000) as usize,
        _ => 250 + dice.below(20) as usize,
    };
    let missing = length.saturating_sub(line.len());
    let space = some_space(dice, line);
    let zeros = if space < line.len() && dice.percent(80) {
        space + 1
    } else {
        line.len()
    };
    line.splice(zeros..zeros, std::iter::repeat_n(b'0', missing));
}

/// A number is missing, or one is too many, or only the letter is left.
fn damage_count(dice: &mut Dice, line: &mut Vec<u8>) {
    match dice.below(5) {
        0 => line.truncate(1),
        1 | 2 => {
            let last = line
                .iter()
                .rposition(|byte| *byte == b' ')
                .unwrap_or(line.len());
            line.truncate(last);
        }
        3 => line.extend_from_slice(dice.pick(&[&b" 0"[..], b" 1", b" 4294967295", b" x"])),
        _ => {
            *line = dice
                .pick(&[&b"w 0"[..], b"W 0", b"w 64", b"W ", b"w ", b"ww", b"W\r"])
                .to_vec()
        }
    }
}

/// One byte is another byte, or one byte is too many; no newline among them.
fn damage_byte(dice: &mut Dice, line: &mut Vec<u8>) {
    let index = dice.below(line.len() as u64) as usize;
    let byte = match dice.below(8) {
        0 | 1 => 0,
        2 => dice.pick(b"/:"),
        3 => dice.pick(&[0x0b, 0x0c, 0x0d, 0x7f]),
        4 => dice.pick(&[0x80, 0xb0, 0xff, 0xa0, 0xc2]),
        5 => dice.pick(b"+-_.,eE"),
        _ => dice.below(256) as u8,
    };
    let byte = if byte == b'\n' { b'9' } else { byte };
    match dice.below(3) {
        0 => line[index] = byte,
        1 => line.insert(index, byte),
        _ => line.push(byte),
    }
}

/// The letter is unknown, or of the other case, or doubled, or missing.
fn damage_letter(dice: &mut Dice, line: &mut Vec<u8>) {
    match dice.below(7) {
        0 => line[0] = b'a' + dice.below(26) as u8,
        1 => line[0] = b'A' + dice.below(26) as u8,
        2 | 3 => line[0] ^= 0x20,
        4 => line.insert(0, line[0]),
        5 => drop(line.remove(0)),
        _ => line[0] = dice.pick(b"0123456789#?!*/\"'"),
    }
}
