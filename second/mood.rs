//! What random sessions are like: moods, and the plan of one session.

#![allow(dead_code)] // not every program leaves out a final newline

use crate::desk::CHANNELS;
use crate::dice::Dice;

/// The letters of the calls, in the order of the weights.
pub const LETTERS: &[u8; 15] = b"cniodespgGxfuwW";

/// How a stretch of lines is chosen.
pub struct Mood {
    /// How often each of the letters comes.
    pub weights: [u64; 15],
    /// Above so many living threads, most new threads become ends.
    pub threads: usize,
    /// Above so many connections, most attaches become detaches.
    pub connections: usize,
    /// Times lie up to so far above the visible time.
    pub spread: u32,
    /// In a hundred sets and new threads, so many go to never.
    pub never: u64,
    /// In a hundred names, so many are chosen without regard to the desk.
    pub wrong: u64,
    /// Whether all items are brought to leave in one sweep.
    pub harvest: bool,
}

/// The weights; then threads, connections, spread, never and wrong.
const fn mood(weights: [u64; 15], rest: [u32; 5]) -> Mood {
    Mood {
        weights,
        threads: rest[0] as usize,
        connections: rest[1] as usize,
        spread: rest[2],
        never: rest[3] as u64,
        wrong: rest[4] as u64,
        harvest: false,
    }
}

/// The moods of a living desk.
#[rustfmt::skip]
pub const MOODS: [Mood; 10] = [
    //    c   n   i   o  d  e   s   p   g  G   x   f   u   w   W
    // A little of everything.
    mood([2,  4,  6,  5, 3, 2,  9, 24,  9, 5,  7, 16,  6,  2,  3], [7, 20, 12, 12, 3]),
    // More threads than there are places.
    mood([1, 16,  4,  4, 1, 3,  8, 12,  6, 3,  3,  9,  6,  2,  3], [99, 24, 12, 20, 3]),
    // More connections than there are places.
    mood([1,  3, 18, 12, 4, 1,  8, 14,  8, 4,  5, 10,  8,  2,  3], [9, 99, 10, 10, 3]),
    // More items than there are places.
    mood([1,  1,  2,  4, 1, 1,  4, 70,  3, 2,  3,  4,  2,  0,  1], [6, 12, 60, 8, 2]),
    // Items pass through in order.
    mood([1,  1,  2,  2, 1, 1, 14, 24, 18, 1,  1, 24,  4,  3,  7], [4, 8, 5, 20, 1]),
    // Items pass through out of order.
    mood([1,  1,  4,  3, 1, 1,  6, 30,  2, 5, 22, 20,  4,  1,  4], [5, 14, 40, 12, 2]),
    // Threads and connections come and go.
    mood([1, 11, 11,  7, 7, 7,  7, 12,  8, 3,  4,  9,  4,  2,  3], [8, 18, 12, 15, 4]),
    // Sweeps of both kinds at every turn.
    mood([1,  1,  3,  3, 1, 1, 12, 24,  8, 3,  3, 14, 12, 12, 12], [4, 10, 4, 12, 2]),
    // Many names are wrong.
    mood([3,  5,  8,  6, 5, 2,  8, 20,  8, 6,  9, 14,  8,  2,  3], [7, 20, 8, 10, 25]),
    // Readers at never lower themselves to what they hold.
    mood([1,  3,  5,  4, 1, 2, 22, 20,  9, 3,  6,  9,  3,  2,  3], [8, 20, 8, 45, 2]),
];

/// All threads and marks pass all items; then one sweep takes them.
#[rustfmt::skip]
pub const HARVEST: Mood = Mood {
    harvest: true,
    ..mood([0, 0, 0, 0, 0, 0, 50, 0, 1, 0, 1, 3, 50, 0, 0], [99, 99, 3, 0, 1])
};

/// All threads go to never, and then the marks do.
#[rustfmt::skip]
pub const FADING: Mood = mood([1, 1, 4, 2, 1, 1, 30, 2, 8, 4, 4, 20, 14, 4, 6], [6, 20, 12, 75, 3]);

/// The last thread ends.
#[rustfmt::skip]
pub const DYING: Mood = mood([1, 2, 3, 2, 2, 12, 8, 14, 8, 4, 5, 10, 5, 3, 3], [0, 20, 12, 20, 5]);

/// What a whole session does.
pub struct Plan {
    /// So many lines in all.
    pub lines: u64,
    pub moods: [&'static Mood; 4],
    /// A mood lasts at most so many lines, and 20 more.
    pub longest_mood: u64,
    /// No more channels than these are made; of 8, a ninth is refused.
    pub channels: usize,
    /// In a hundred lines, so many are damaged.
    pub damage: u64,
    /// Threads begin at this time.
    pub start: u32,
    /// From this line on, times are near the top.
    pub rising: u64,
    /// How far below never they then begin.
    pub top_room: u32,
    /// From this line on, the threads need not be able to put.
    pub fading: u64,
    /// From this line on, more threads end than begin, to the last.
    pub dying: u64,
    /// Whether items are put at the largest timestamp long before the rise.
    pub early_top: bool,
    pub final_newline: bool,
}

impl Plan {
    pub fn new(dice: &mut Dice, lines: u64) -> Plan {
        let (rising, top_room) = match dice.below(8) {
            0 => (lines / 20, 60_000),
            1 => (lines * (60 + dice.below(30)) / 100, 5000),
            2 => (lines * (85 + dice.below(10)) / 100, 300),
            3 => (lines * (95 + dice.below(4)) / 100, dice.pick(&[2, 6, 30])),
            _ => (u64::MAX, 0),
        };
        let fading = match dice.below(16) {
            0 => lines / 2,
            1..=10 => lines * (88 + dice.below(10)) / 100,
            _ => u64::MAX,
        };
        let dying = match dice.below(5) {
            0 => fading,
            1..=3 if fading < lines => (fading + lines) / 2,
            _ => u64::MAX,
        };
        Plan {
            lines,
            moods: [0; 4].map(|_| &MOODS[dice.below(MOODS.len() as u64) as usize]),
            longest_mood: 1 + lines.min(25_000) / dice.pick(&[5, 20, 60]),
            channels: dice.pick(&[1, 2, 3, 5, CHANNELS, CHANNELS, CHANNELS, CHANNELS]),
            damage: 2 + dice.below(4),
            start: dice.pick(&[0, 0, 0, 200, 65_000, (1 << 31) - 300]),
            rising,
            top_room,
            fading,
            dying,
            early_top: dice.percent(50),
            final_newline: dice.percent(70),
        }
    }
}
